/* One walk over the message, inlined for each of four hands that write: plain and proved, cell by cell and row by row. */
#include "rewrite.h"
#include "steps.h"

/* Where the fields of a response without flags stand. */
enum { VERSION = 4, CLIENT = 5, STATUS = 14, APP_STATUS = 15, ROUND_TRIP = 16, TABLES = 20, FIRST_TABLE = 22 };

typedef struct {
    uint8_t *out;
    size_t room;
    uint64_t state[CHALOENPIK_STATE];
    uint8_t types[CHALOENPIK_TYPES];
    plain_writer plain;
    /* Of hands that write row by row: the message, and the cells of the row that were listed. */
    const uint8_t *message;
    size_t size;
    uint64_t cells[2 * PLAIN_COLUMNS], *next;
} pen;

/* The columns of a table: their types, and where the first one's name stands. */
typedef struct {
    const uint8_t *message, *types;
    size_t size, count, names;
} columns;

typedef struct {
    uint64_t (*begin)(pen *, const uint8_t *message);
    uint64_t (*open_table)(pen *, uint8_t status, const columns *);
    uint64_t (*open_row)(pen *);
    uint64_t (*fixed)(pen *, uint8_t type, uint64_t upper, uint64_t lower);
    uint64_t (*body)(pen *, uint8_t type, bool null, const uint8_t *bytes, size_t size);
    uint64_t (*close_row)(pen *);
    uint64_t (*close_table)(pen *);
    uint64_t (*finish)(pen *);
} hand;

INLINE uint64_t put_cell(const hand *h, pen *p, uint8_t type, const uint8_t *from, size_t *taken) {
    switch (*taken = fixed_size(type)) {
    case 1: return h->fixed(p, type, 0, *from);
    case 2: return h->fixed(p, type, 0, load16(from));
    case 4: return h->fixed(p, type, 0, load32(from));
    case 8: return h->fixed(p, type, 0, load64(from));
    case 16: return h->fixed(p, type, load64(from), load64(from + 8));
    default: break;
    }
    uint32_t size = load32(from);
    bool null = size == UINT32_MAX;
    if (null) size = 0;
    *taken = 4 + size;
    return h->body(p, type, null, from + 4, size);
}

INLINE uint64_t put_table(const hand *h, pen *p, const uint8_t *m, size_t size, size_t at) {
    columns c = {m, m + at + 11, size, load16(m + at + 9), at + 11 + load16(m + at + 9)};
    TRY(h->open_table(p, m[at + 8], &c));
    at += 8 + load32(m + at + 4);
    size_t rows = load32(m + at), taken;
    at += 4;
    for (size_t j = 0; j < rows; j++) {
        TRY(h->open_row(p));
        at += 4;
        for (size_t k = 0; k < c.count; k++, at += taken) TRY(put_cell(h, p, c.types[k], m + at, &taken));
        TRY(h->close_row(p));
    }
    return h->close_table(p);
}

INLINE uint64_t put_response(const hand *h, const uint8_t *m, size_t size, uint8_t *out, size_t room) {
    pen p;
    p.out = out;
    p.room = room;
    p.message = m;
    p.size = size;
    TRY(h->begin(&p, m));
    size_t tables = load16(m + TABLES), at = FIRST_TABLE;
    for (size_t i = 0; i < tables; i++, at += 4 + load32(m + at)) TRY(put_table(h, &p, m, size, at));
    return h->finish(&p);
}

/* ---- What both hands that write row by row do until a row is closed: list its cells, two numbers each, as a whole row takes them. */

static uint64_t begin_list(pen *p) {
    p->next = p->cells;
    return 0;
}

INLINE uint64_t list_cell(pen *p, uint64_t first, uint64_t second) {
    *p->next++ = first;
    *p->next++ = second;
    return 0;
}

static uint64_t list_fixed(pen *p, uint8_t type, uint64_t upper, uint64_t lower) {
    (void)type;
    return list_cell(p, upper, lower);
}

/* By where the bytes stand in the message, which is lent with the row. */
static uint64_t list_body(pen *p, uint8_t type, bool null, const uint8_t *bytes, size_t size) {
    (void)type;
    return list_cell(p, (uint64_t)(bytes - p->message), null ? CHALOENPIK_NULL_SIZE : size);
}

#define LISTED p->cells, (size_t)(p->next - p->cells), p->message, p->size

/* ---- The plain hands. */

static uint64_t plain_hand_begin(pen *p, const uint8_t *m) {
    plain_opening o = {.status = m[STATUS], .app_status = m[APP_STATUS], .round_trip = (int32_t)load32(m + ROUND_TRIP)};
    memcpy(o.client, m + CLIENT, sizeof o.client);
    return packed(plain_begin(&p->plain, p->out, p->room, m[VERSION], &o));
}

static uint64_t plain_hand_open_table(pen *p, uint8_t status, const columns *c) {
    plain_column entries[PLAIN_COLUMNS];
    for (size_t k = 0, at = c->names; k < c->count; k++) {
        size_t size = load32(c->message + at);
        plain_column entry = {c->types[k], at + 4, size};
        entries[k] = entry;
        at += 4 + size;
    }
    return packed(plain_open_table(&p->plain, status, entries, c->count, c->message, c->size));
}

static uint64_t plain_hand_open_row(pen *p) { return packed(plain_open_row(&p->plain)); }

static uint64_t plain_hand_fixed(pen *p, uint8_t type, uint64_t upper, uint64_t lower) {
    return packed(fixed_size(type) == 16 ? plain_put_pair(&p->plain, type, upper, lower) : plain_put_number(&p->plain, type, lower));
}

static uint64_t plain_hand_body(pen *p, uint8_t type, bool null, const uint8_t *bytes, size_t size) {
    return packed(plain_put_body(&p->plain, type, null, bytes, size));
}

static uint64_t plain_hand_close_row(pen *p) { return packed(plain_close_row(&p->plain)); }

static uint64_t plain_hand_close_table(pen *p) { return packed(plain_close_table(&p->plain)); }

static uint64_t plain_hand_finish(pen *p) {
    plain_refusal no = plain_finish(&p->plain);
    return no.number != 0 ? packed(no) : (uint64_t)p->plain.at << 8;
}

static uint64_t plain_hand_whole_row(pen *p) { return packed(plain_whole_row(&p->plain, LISTED)); }

static const hand plain_hand = {plain_hand_begin, plain_hand_open_table, plain_hand_open_row, plain_hand_fixed,
                                plain_hand_body, plain_hand_close_row, plain_hand_close_table, plain_hand_finish};

static const hand plain_row_hand = {plain_hand_begin, plain_hand_open_table, begin_list, list_fixed,
                                    list_body, plain_hand_whole_row, plain_hand_close_table, plain_hand_finish};

uint64_t rewrite_plain(const uint8_t *message, size_t size, uint8_t *out, size_t room) { return put_response(&plain_hand, message, size, out, room); }

uint64_t rewrite_rows_plain(const uint8_t *message, size_t size, uint8_t *out, size_t room) { return put_response(&plain_row_hand, message, size, out, room); }

/* ---- The proved hands. */

#define PEN p->out, p->room, p->state
#define TABLE PEN, p->types

static uint64_t proved_begin(pen *p, const uint8_t *m) {
    return chaloenpik_begin_reply(PEN, m[VERSION], m + CLIENT, 0, m[STATUS], true, m, 0, m[APP_STATUS], true, m, 0, load32(m + ROUND_TRIP), m, 0);
}

static uint64_t proved_open_table(pen *p, uint8_t status, const columns *c) {
    uint64_t entries[3 * PLAIN_COLUMNS];
    for (size_t k = 0, at = c->names; k < c->count; k++) {
        size_t size = load32(c->message + at);
        entries[3 * k] = c->types[k];
        entries[3 * k + 1] = at + 4;
        entries[3 * k + 2] = size;
        at += 4 + size;
    }
    return chaloenpik_open_table(TABLE, status, entries, 3 * c->count, c->message, c->size);
}

static uint64_t proved_open_row(pen *p) { return chaloenpik_open_row(TABLE); }

static uint64_t proved_fixed(pen *p, uint8_t type, uint64_t upper, uint64_t lower) { return chaloenpik_fixed_cell(TABLE, type, upper, lower); }

static uint64_t proved_body(pen *p, uint8_t type, bool null, const uint8_t *bytes, size_t size) {
    return chaloenpik_body_cell(TABLE, type, null, bytes, size);
}

static uint64_t proved_close_row(pen *p) { return chaloenpik_close_row(TABLE); }

static uint64_t proved_close_table(pen *p) { return chaloenpik_close_table(TABLE); }

static uint64_t proved_finish(pen *p) { return chaloenpik_finish_reply(PEN); }

static uint64_t proved_whole_row(pen *p) { return chaloenpik_whole_row(TABLE, LISTED); }

static const hand proved_hand = {proved_begin, proved_open_table, proved_open_row, proved_fixed,
                                 proved_body, proved_close_row, proved_close_table, proved_finish};

static const hand proved_row_hand = {proved_begin, proved_open_table, begin_list, list_fixed,
                                     list_body, proved_whole_row, proved_close_table, proved_finish};

uint64_t rewrite_proved(const uint8_t *message, size_t size, uint8_t *out, size_t room) { return put_response(&proved_hand, message, size, out, room); }

uint64_t rewrite_rows_proved(const uint8_t *message, size_t size, uint8_t *out, size_t room) { return put_response(&proved_row_hand, message, size, out, room); }
