/* The plain writer: each step checks its stage, its arguments, the limits and the room, and then writes. A refused step
   changes nothing. */
#include "plain_rules.h"

#define INLINE static inline __attribute__((always_inline))

static const plain_refusal fine = {0, 0};

static plain_refusal refused(uint32_t number, size_t place) {
    plain_refusal no = {number, place};
    return no;
}

/* The message limit and the room for `bytes` more at a place of a buffer of `size`. */
static plain_refusal room_at(size_t at, size_t size, size_t bytes) {
    size_t reached = at + bytes;
    if (reached > 4 + MOST_MESSAGE) return refused(LIMIT, at);
    return reached > size ? refused(OUTPUT, reached) : fine;
}

static plain_refusal room_for(const plain_writer *w, size_t bytes) { return room_at(w->at, w->size, bytes); }

static void put8(plain_writer *w, uint8_t n) { w->buffer[w->at++] = n; }

static void put16(plain_writer *w, uint32_t n) {
    store16(w->buffer + w->at, n);
    w->at += 2;
}

static void put32(plain_writer *w, uint32_t n) {
    store32(w->buffer + w->at, n);
    w->at += 4;
}

static void put64(plain_writer *w, uint64_t n) {
    store64(w->buffer + w->at, n);
    w->at += 8;
}

static void put_bytes(plain_writer *w, const uint8_t *bytes, size_t size) {
    if (size > 0) memcpy(w->buffer + w->at, bytes, size);
    w->at += size;
}

/* A counted body, or null. */
static void put_counted(plain_writer *w, bool null, const uint8_t *bytes, size_t size) {
    put32(w, null ? UINT32_MAX : (uint32_t)size);
    if (!null) put_bytes(w, bytes, size);
}

static size_t counted_size(bool there, bool null, size_t size) { return !there ? 0 : null ? 4 : 4 + size; }

/* What is wrong with a text, if it is there and anything is. */
static uint32_t text_fault(bool there, bool null, const uint8_t *text, size_t size) {
    if (!there || null) return 0;
    if (size > MOST_BODY) return LIMIT;
    return well_formed(text, size) == size ? 0 : BAD_TEXT;
}

plain_refusal plain_begin(plain_writer *w, uint8_t *buffer, size_t size, uint8_t version, const plain_opening *o) {
    bool status = o->flags & FLAG_STATUS, app = o->flags & FLAG_APPLICATION, exception = o->flags & FLAG_EXCEPTION;
    if (version > 1) return refused(BAD_VERSION, 0);
    if (o->flags & OTHER_FLAGS) return refused(BAD_FLAGS, 0);
    uint32_t fault = text_fault(status, o->status_null, o->status_string, o->status_size);
    if (fault == 0) fault = text_fault(app, o->app_null, o->app_string, o->app_size);
    if (fault == 0 && exception && o->exception_size > MOST_BODY) fault = LIMIT;
    if (fault != 0) return refused(fault, 0);
    size_t taken = 4 + 1 + 8 + 1 + 1 + counted_size(status, o->status_null, o->status_size) + 1
                 + counted_size(app, o->app_null, o->app_size) + 4 + counted_size(exception, false, o->exception_size) + 2;
    plain_refusal no = room_at(0, size, taken);
    if (no.number != 0) return no;
    w->buffer = buffer, w->size = size, w->at = 0;
    w->stage = PLAIN_REPLY, w->tables = 0;
    put32(w, 0);
    put8(w, version);
    put_bytes(w, o->client, 8);
    put8(w, o->flags);
    put8(w, o->status);
    if (status) put_counted(w, o->status_null, o->status_string, o->status_size);
    put8(w, o->app_status);
    if (app) put_counted(w, o->app_null, o->app_string, o->app_size);
    put32(w, (uint32_t)o->round_trip);
    if (exception) put_counted(w, false, o->exception, o->exception_size);
    w->count_at = w->at;
    put16(w, 0);
    return fine;
}

static plain_refusal name_fault(const plain_writer *w, const plain_column *c, const uint8_t *names, size_t names_size) {
    if (c->name > names_size || c->name_size > names_size - c->name) return refused(PAST_END, 0);
    if (c->name_size > MOST_BODY) return refused(LIMIT, w->at);
    return ascii_run(names + c->name, c->name_size) == c->name_size ? fine : refused(BAD_NAME, w->at);
}

plain_refusal plain_open_table(plain_writer *w, uint8_t status, const plain_column *columns, size_t count, const uint8_t *names, size_t names_size) {
    if (w->stage != PLAIN_REPLY) return refused(STAGE, w->at);
    if (count > PLAIN_COLUMNS) return refused(LIMIT, w->at);
    size_t metadata = 3 + count;
    for (size_t k = 0; k < count; k++)
        if (!is_column_type(columns[k].type)) return refused(BAD_TYPE, w->at);
    for (size_t k = 0; k < count; k++) {
        plain_refusal no = name_fault(w, &columns[k], names, names_size);
        if (no.number != 0) return no;
        metadata += 4 + columns[k].name_size;
    }
    if (w->tables >= MOST_ITEMS) return refused(LIMIT, w->at);
    plain_refusal no = room_for(w, 4 + 4 + metadata + 4);
    if (no.number != 0) return no;
    w->table_at = w->at;
    put32(w, 0);
    put32(w, (uint32_t)metadata);
    put8(w, status);
    put16(w, (uint32_t)count);
    for (size_t k = 0; k < count; k++) put8(w, w->types[k] = columns[k].type);
    for (size_t k = 0; k < count; k++) put_counted(w, false, names + columns[k].name, columns[k].name_size);
    w->rows_at = w->at;
    put32(w, 0);
    w->stage = PLAIN_TABLE;
    w->columns = (uint32_t)count;
    w->rows = 0;
    w->tables++;
    return fine;
}

plain_refusal plain_open_row(plain_writer *w) {
    if (w->stage != PLAIN_TABLE) return refused(STAGE, w->at);
    if (w->rows >= INT32_MAX) return refused(LIMIT, w->at);
    plain_refusal no = room_for(w, 4);
    if (no.number != 0) return no;
    w->row_at = w->at;
    put32(w, 0);
    w->stage = PLAIN_ROW;
    w->cells = 0;
    w->rows++;
    return fine;
}

/* What every cell asks before its value's own rule: a row with a cell left, of that type. */
static plain_refusal cell_wanted(const plain_writer *w, uint8_t type) {
    if (w->stage != PLAIN_ROW || w->cells >= w->columns) return refused(STAGE, w->at);
    return w->types[w->cells] == type ? fine : refused(BAD_TYPE, w->at);
}

/* The row limit, and then the room. */
static plain_refusal cell_room(const plain_writer *w, size_t bytes) {
    if (w->at + bytes - w->row_at - 4 > MOST_ROW) return refused(LIMIT, w->at);
    return room_for(w, bytes);
}

plain_refusal plain_put_number(plain_writer *w, uint8_t type, uint64_t bits) {
    plain_refusal no = cell_wanted(w, type);
    if (no.number != 0) return no;
    size_t size = fixed_size(type);
    if (size == 0 || size > 8) return refused(BAD_TYPE, w->at);
    no = cell_room(w, size);
    if (no.number != 0) return no;
    switch (size) {
    case 1: put8(w, (uint8_t)bits); break;
    case 2: put16(w, (uint32_t)bits); break;
    case 4: put32(w, (uint32_t)bits); break;
    default: put64(w, bits); break;
    }
    w->cells++;
    return fine;
}

plain_refusal plain_put_pair(plain_writer *w, uint8_t type, uint64_t first, uint64_t second) {
    plain_refusal no = cell_wanted(w, type);
    if (no.number != 0) return no;
    if (fixed_size(type) != 16) return refused(BAD_TYPE, w->at);
    if (type == PLAIN_DECIMAL && !decimal_fine(first, second)) return refused(BAD_DECIMAL, w->at);
    if (type == PLAIN_POINT && !point_fine(first, second)) return refused(BAD_POINT, w->at);
    no = cell_room(w, 16);
    if (no.number != 0) return no;
    put64(w, first);
    put64(w, second);
    w->cells++;
    return fine;
}

plain_refusal plain_put_body(plain_writer *w, uint8_t type, bool null, const uint8_t *bytes, size_t size) {
    plain_refusal no = cell_wanted(w, type);
    if (no.number != 0) return no;
    if (!is_counted(type)) return refused(BAD_TYPE, w->at);
    if (!null && size > MOST_BODY) return refused(LIMIT, w->at);
    if (!null && size == 0 && type == PLAIN_GEOGRAPHY) return refused(BAD_GEOGRAPHY, w->at);
    if (!null && type == PLAIN_STRING && well_formed(bytes, size) != size) return refused(BAD_TEXT, w->at);
    no = cell_room(w, null ? 4 : 4 + size);
    if (no.number != 0) return no;
    put_counted(w, null, bytes, size);
    w->cells++;
    return fine;
}

plain_refusal plain_close_row(plain_writer *w) {
    if (w->stage != PLAIN_ROW || w->cells != w->columns) return refused(STAGE, w->at);
    store32(w->buffer + w->row_at, (uint32_t)(w->at - w->row_at - 4));
    w->stage = PLAIN_TABLE;
    return fine;
}

/* A row that is being put. The writer knows nothing of it until it is whole, so a refusal has nothing to take back. */
typedef struct {
    uint8_t *out;
    size_t at, first, room;
} whole_row;

/* The row limit, and then the room. */
INLINE plain_refusal row_room(const whole_row *r, size_t bytes) {
    if (r->at + bytes - r->first > MOST_ROW) return refused(LIMIT, r->at);
    return room_at(r->at, r->room, bytes);
}

INLINE plain_refusal row_number(whole_row *r, size_t size, const uint64_t cell[2]) {
    if (cell[0] != 0 || (size < 8 && cell[1] >> 8 * size != 0)) return refused(BAD_TYPE, r->at);
    plain_refusal no = row_room(r, size);
    if (no.number != 0) return no;
    switch (size) {
    case 1: r->out[r->at] = (uint8_t)cell[1]; break;
    case 2: store16(r->out + r->at, (uint32_t)cell[1]); break;
    case 4: store32(r->out + r->at, (uint32_t)cell[1]); break;
    default: store64(r->out + r->at, cell[1]); break;
    }
    r->at += size;
    return fine;
}

INLINE plain_refusal row_pair(whole_row *r, const uint64_t cell[2]) {
    plain_refusal no = row_room(r, 16);
    if (no.number != 0) return no;
    store64(r->out + r->at, cell[0]);
    store64(r->out + r->at + 8, cell[1]);
    r->at += 16;
    return fine;
}

INLINE plain_refusal row_null(whole_row *r) {
    plain_refusal no = row_room(r, 4);
    if (no.number != 0) return no;
    store32(r->out + r->at, UINT32_MAX);
    r->at += 4;
    return fine;
}

INLINE plain_refusal row_body(whole_row *r, uint8_t type, const uint64_t cell[2], const uint8_t *bytes, size_t size) {
    if (cell[1] == UINT64_MAX) return row_null(r);
    if (cell[0] > size || cell[1] > size - cell[0]) return refused(PAST_END, 0);
    if (cell[1] > MOST_BODY) return refused(LIMIT, r->at);
    if (cell[1] == 0 && type == PLAIN_GEOGRAPHY) return refused(BAD_GEOGRAPHY, r->at);
    if (type == PLAIN_STRING && well_formed(bytes + cell[0], cell[1]) != cell[1]) return refused(BAD_TEXT, r->at);
    plain_refusal no = row_room(r, 4 + cell[1]);
    if (no.number != 0) return no;
    store32(r->out + r->at, (uint32_t)cell[1]);
    if (cell[1] > 0) memcpy(r->out + r->at + 4, bytes + cell[0], cell[1]);
    r->at += 4 + cell[1];
    return fine;
}

INLINE plain_refusal row_cell(whole_row *r, uint8_t type, const uint64_t cell[2], const uint8_t *bytes, size_t size) {
    switch (type) {
    case PLAIN_TINYINT: return row_number(r, 1, cell);
    case PLAIN_SMALLINT: return row_number(r, 2, cell);
    case PLAIN_INTEGER: return row_number(r, 4, cell);
    case PLAIN_BIGINT: case PLAIN_FLOAT: case PLAIN_TIMESTAMP: return row_number(r, 8, cell);
    case PLAIN_DECIMAL: return decimal_fine(cell[0], cell[1]) ? row_pair(r, cell) : refused(BAD_DECIMAL, r->at);
    case PLAIN_POINT: return point_fine(cell[0], cell[1]) ? row_pair(r, cell) : refused(BAD_POINT, r->at);
    default: return row_body(r, type, cell, bytes, size);
    }
}

plain_refusal plain_whole_row(plain_writer *w, const uint64_t *cells, size_t count, const uint8_t *bytes, size_t size) {
    if (w->stage != PLAIN_TABLE) return refused(STAGE, w->at);
    if (w->rows >= INT32_MAX) return refused(LIMIT, w->at);
    plain_refusal no = room_for(w, 4);
    if (no.number != 0) return no;
    whole_row r = {w->buffer, w->at + 4, w->at + 4, w->size};
    for (size_t k = 0; k < count / 2 && k < w->columns; k++) {
        no = row_cell(&r, w->types[k], cells + 2 * k, bytes, size);
        if (no.number != 0) return no;
    }
    if (count / 2 != w->columns) return refused(STAGE, r.at);
    store32(w->buffer + w->at, (uint32_t)(r.at - r.first));
    w->at = r.at;
    w->rows++;
    return fine;
}

plain_refusal plain_close_table(plain_writer *w) {
    if (w->stage != PLAIN_TABLE) return refused(STAGE, w->at);
    store32(w->buffer + w->table_at, (uint32_t)(w->at - w->table_at - 4));
    store32(w->buffer + w->rows_at, w->rows);
    w->stage = PLAIN_REPLY;
    return fine;
}

plain_refusal plain_finish(plain_writer *w) {
    if (w->stage != PLAIN_REPLY) return refused(STAGE, w->at);
    store32(w->buffer, (uint32_t)(w->at - 4));
    store16(w->buffer + w->count_at, w->tables);
    w->stage = PLAIN_CLOSED;
    return fine;
}
