/* The plain reader and writer over frames, to be held against the second reader: standard input is a row of frames (4 bytes
   of size, big-endian, then one byte of kind, 4, and a message). For each it prints the field list, or `refused NUMBER PLACE`,
   and a line with a dot. It also asks for each entry of the list, cell and column, and writes each accepted message anew, cell by cell and row by row, and
   says where any differs, or where a torn text, or what breaks another rule of its own, or too many columns are written, or a broken card is opened.
   With kind 27, the wire type of a geography, it is an area: behind its field list stands what it is with its holes turned. With kind 100 it is a card behind
   its size, one byte, and then a message: it prints how the card fits the first table. */
#include "plain_rules.h"
#include <stdio.h>
#include <stdlib.h>

enum { MOST_FRAME = 1 << 23, MOST_NUMBERS = 1 << 24, CARD_FRAME = 100 };

static uint8_t message[MOST_FRAME], again[MOST_FRAME];
static uint64_t entries[MOST_NUMBERS];

static bool is_refused(plain_refusal no, uint32_t number, size_t place) { return no.number == number && no.place == place; }

static bool is_owned(size_t size, size_t offset, size_t number) {
    size_t owner;
    return plain_owner(message, size, offset, &owner).number == 0 && owner == number;
}

/* How many entries the list has, each of them alone, and which of them owns its first and its last byte. */
static bool entries_agree(size_t size, size_t count) {
    size_t fields, taken;
    uint64_t alone[6];
    if (plain_field_count(message, size, &fields).number != 0 || fields != count) return false;
    for (size_t n = 0; n < count; n++) {
        const uint64_t *e = entries + 6 * n;
        if (plain_fields(message, size, n, alone, 6, &taken).number != 0 || taken != 1 || memcmp(alone, e, sizeof alone) != 0) return false;
        if (!is_owned(size, e[0], n) || !is_owned(size, e[0] + e[1] - 1, n)) return false;
    }
    return is_refused(plain_fields(message, size, count, alone, 6, &taken), PAST_END, 0) && is_refused(plain_owner(message, size, size, &taken), PAST_END, 0);
}

/* The cells as the list has them. */
static bool cells_agree(size_t size, size_t count) {
    for (size_t n = 0; n < count; n++) {
        const uint64_t *e = entries + 6 * n;
        if (e[2] != 50 && e[2] != 51) continue;
        plain_cell c;
        if (plain_find_cell(message, size, e[3], e[4], e[5], &c).number != 0) return false;
        bool is_prefix = e[2] == 50;
        if (is_prefix ? c.offset != e[0] + 4 || c.null != (load32(message + e[0]) == UINT32_MAX) : c.offset != e[0] || c.size != e[1]) return false;
    }
    return true;
}

/* The first column of a table whose name is that of an entry, by the list. */
static size_t first_named(const uint64_t *name, size_t count) {
    size_t size = load32(message + name[0]);
    for (const uint64_t *e = entries; e < entries + 6 * count; e += 6)
        if (e[2] == 46 && e[3] == name[3] && load32(message + e[0]) == size && memcmp(message + e[0], message + name[0], 4 + size) == 0) return e[5];
    return PLAIN_COLUMNS;
}

/* A card, and where its type stands; behind that its name's length and its name. */
typedef struct {
    uint8_t bytes[FAR_CARD + 1];
    size_t size, type_at;
} made_card;

static void set_position(made_card *c, size_t position) {
    if (c->bytes[0] == FAR_KIND) store16(c->bytes + 1, (uint32_t)position);
    else c->bytes[1] = (uint8_t)position;
}

static made_card card_of(bool far, size_t position, uint8_t type, const uint8_t *name, size_t name_size) {
    made_card c = {.bytes = {far ? FAR_KIND : NEAR_KIND}, .size = far ? FAR_CARD : NEAR_CARD, .type_at = far ? 3 : 2};
    set_position(&c, position);
    c.bytes[c.type_at] = type;
    c.bytes[c.type_at + 1] = (uint8_t)name_size;
    memcpy(c.bytes + c.type_at + 2, name, name_size);
    return c;
}

static plain_refusal opened(size_t size, size_t table, const made_card *c, size_t *column) { return plain_open_card(message, size, table, c->bytes, c->size, column); }

/* The card of a column, if its name is short enough, opens that column alone: not with another type, name or position. */
static bool card_agrees(size_t size, const uint64_t *name, uint8_t type) {
    size_t name_size = load32(message + name[0]), column = PLAIN_COLUMNS;
    bool far = name[5] >= FAR_POSITION;
    if (name_size > CARD_NAME) return true;
    made_card c = card_of(far, name[5], type, message + name[0] + 4, name_size);
    if (opened(size, name[3], &c, &column).number != 0 || column != name[5]) return false;
    for (size_t k = c.type_at; k < c.type_at + 2 + name_size; k++) {
        if (k == c.type_at + 1) continue;
        uint8_t is = c.bytes[k];
        c.bytes[k] = k == c.type_at ? (is == PLAIN_FLOAT ? PLAIN_POINT : PLAIN_FLOAT) : is ^ 1;
        if (opened(size, name[3], &c, &column).number != STALE) return false;
        c.bytes[k] = is;
    }
    size_t last = far ? PLAIN_COLUMNS - 1 : FAR_POSITION - 1;
    set_position(&c, last);
    return name[5] == last || opened(size, name[3], &c, &column).number == STALE || column == last;
}

/* The columns as the list has them. */
static bool columns_agree(size_t size, size_t count) {
    for (const uint64_t *e = entries, *type = entries; e < entries + 6 * count; e += 6) {
        if (e[2] == 45 && e[5] == 0) type = e;
        if (e[2] != 46) continue;
        size_t column;
        if (plain_find_column(message, size, e[3], message + e[0] + 4, load32(message + e[0]), &column).number != 0) return false;
        if (column != first_named(e, count) || !card_agrees(size, e, message[type[0] + e[5]])) return false;
    }
    return true;
}

static uint64_t bits_of(const plain_cell *c) {
    uint64_t bits = 0;
    for (size_t n = 0; n < c->size; n++) bits = bits << 8 | message[c->offset + n];
    return bits;
}

static bool put_cell(plain_writer *w, const plain_cell *c) {
    const uint8_t *p = message + c->offset;
    if (is_counted(c->type)) return plain_put_body(w, c->type, c->null, p, c->size).number == 0;
    if (c->size == 16) return plain_put_pair(w, c->type, load64(p), load64(p + 8)).number == 0;
    return plain_put_number(w, c->type, bits_of(c)).number == 0;
}

/* Writes a row of so many cells of the message. */
typedef bool put_row(plain_writer *w, const plain_cell *cells, size_t count);

static bool put_by_cells(plain_writer *w, const plain_cell *cells, size_t count) {
    bool fine = plain_open_row(w).number == 0;
    for (size_t k = 0; fine && k < count; k++) fine = put_cell(w, &cells[k]);
    return fine && plain_close_row(w).number == 0;
}

static bool put_at_once(plain_writer *w, const plain_cell *cells, size_t count) {
    uint64_t numbers[2 * PLAIN_COLUMNS], *next = numbers;
    for (const plain_cell *c = cells; c < cells + count; c++) {
        bool counted = is_counted(c->type);
        *next++ = counted ? c->offset : c->size == 16 ? load64(message + c->offset) : 0;
        *next++ = counted ? (c->null ? UINT64_MAX : c->size) : bits_of(c);
    }
    return plain_whole_row(w, numbers, 2 * count, message, MOST_FRAME).number == 0;
}

/* A table at `at`, whose columns' entries are made from its bytes. */
static bool put_table(plain_writer *w, put_row *put, size_t size, size_t table, size_t at) {
    plain_cell cells[PLAIN_COLUMNS];
    plain_column columns[PLAIN_COLUMNS];
    size_t count = load16(message + at + 9), rows, name = at + 11 + count;
    for (size_t k = 0; k < count; k++) {
        columns[k].type = message[at + 11 + k];
        columns[k].name = name + 4;
        columns[k].name_size = load32(message + name);
        name += 4 + columns[k].name_size;
    }
    rows = load32(message + name);
    if (plain_open_table(w, message[at + 8], columns, count, message, size).number != 0) return false;
    for (size_t j = 0; j < rows; j++) {
        for (size_t k = 0; k < count; k++)
            if (plain_find_cell(message, size, table, j, k, &cells[k]).number != 0) return false;
        if (!put(w, cells, count)) return false;
    }
    return plain_close_table(w).number == 0;
}

static void take_text(size_t entry, size_t count, unsigned field, bool *null, const uint8_t **bytes, size_t *size) {
    for (; entry < count; entry++) {
        const uint64_t *e = entries + 6 * entry;
        if (e[2] != field) continue;
        uint32_t n = load32(message + e[0]);
        *null = n == UINT32_MAX;
        *size = *null ? 0 : n;
        *bytes = message + e[0] + 4;
        return;
    }
}

static size_t offset_of(size_t count, unsigned field, size_t i) {
    for (size_t n = 0; n < count; n++)
        if (entries[6 * n + 2] == field && entries[6 * n + 3] == i) return entries[6 * n];
    return 0;
}

static plain_opening opening(size_t count) {
    plain_opening o = {.flags = message[13], .status = message[14]};
    bool no_null;
    memcpy(o.client, message + 5, 8);
    take_text(0, count, 32, &o.status_null, &o.status_string, &o.status_size);
    take_text(0, count, 35, &o.app_null, &o.app_string, &o.app_size);
    take_text(0, count, 38, &no_null, &o.exception, &o.exception_size);
    o.app_status = message[offset_of(count, 34, 0)];
    o.round_trip = (int32_t)load32(message + offset_of(count, 37, 0));
    return o;
}

static bool written_alike(put_row *put, size_t size, size_t count) {
    plain_writer w;
    plain_opening o = opening(count);
    size_t tables = load16(message + offset_of(count, 40, 0));
    if (plain_begin(&w, again, size, message[4], &o).number != 0) return false;
    for (size_t i = 0; i < tables; i++)
        if (!put_table(&w, put, size, i, offset_of(count, 41, i))) return false;
    return plain_finish(&w).number == 0 && w.at == size && memcmp(message, again, size) == 0;
}

#define NORTH 0x4056800000000000U /* the bits of 90.0, the greatest latitude */

/* A name cut in mid-letter. */
static const uint8_t torn[] = {'B', 'j', 0xc3};

/* It is refused as each text of the opening that the flags ask for, and otherwise ignored. */
static bool torn_opening_refused(size_t count) {
    plain_writer w;
    plain_opening status = opening(count), app = status;
    status.status_null = false, status.status_string = torn, status.status_size = sizeof torn;
    app.app_null = false, app.app_string = torn, app.app_size = sizeof torn;
    return is_refused(plain_begin(&w, again, MOST_FRAME, message[4], &status), BAD_TEXT, 0) == ((status.flags & FLAG_STATUS) != 0)
        && is_refused(plain_begin(&w, again, MOST_FRAME, message[4], &app), BAD_TEXT, 0) == ((app.flags & FLAG_APPLICATION) != 0);
}

/* It is refused as a string, at the writer's position, and is a fine varbinary. */
static bool torn_cell_refused(size_t count) {
    const plain_column columns[] = {{PLAIN_VARBINARY, 0, 0}, {PLAIN_STRING, 0, 0}};
    plain_writer w;
    plain_opening o = opening(count);
    if (plain_begin(&w, again, MOST_FRAME, message[4], &o).number != 0) return false;
    if (plain_open_table(&w, 0, columns, 2, message, 0).number != 0 || plain_open_row(&w).number != 0) return false;
    if (plain_put_body(&w, PLAIN_VARBINARY, false, torn, sizeof torn).number != 0) return false;
    size_t at = w.at;
    return is_refused(plain_put_body(&w, PLAIN_STRING, false, torn, sizeof torn), BAD_TEXT, at) && w.at == at;
}

/* A table of one column too many isn't opened, and one of as many as there may be is. */
static bool too_many_columns_refused(size_t count) {
    static plain_column columns[PLAIN_COLUMNS + 1];
    plain_writer w;
    plain_opening o = opening(count);
    for (size_t k = 0; k <= PLAIN_COLUMNS; k++) columns[k].type = PLAIN_BIGINT;
    if (plain_begin(&w, again, MOST_FRAME, message[4], &o).number != 0) return false;
    if (!is_refused(plain_open_table(&w, 0, columns, PLAIN_COLUMNS + 1, message, 0), LIMIT, w.at)) return false;
    return plain_open_table(&w, 0, columns, PLAIN_COLUMNS, message, 0).number == 0;
}

static bool is_broken(size_t size, const made_card *c, size_t place) {
    size_t column;
    return is_refused(opened(size, 0, c, &column), CARD_FORM, place);
}

/* A card that breaks the form of its kind is refused at its first wrong byte, or at the smaller of the sizes. */
static bool broken_cards_refused(size_t size) {
    made_card none = {.bytes = {NEAR_KIND}}, other = card_of(false, 0, PLAIN_BIGINT, torn, 0);
    for (size_t kind = 0; kind < 256; kind++) {
        other.bytes[0] = (uint8_t)kind;
        if (kind != NEAR_KIND && kind != FAR_KIND && !is_broken(size, &other, 0)) return false;
    }
    for (size_t far = 0; far < 2; far++) {
        size_t least = far ? FAR_POSITION : 0, end = far ? PLAIN_COLUMNS : FAR_POSITION;
        const made_card fine = card_of(far, least, PLAIN_BIGINT, torn, 2);
        made_card c = fine;
        for (c.size = 1; c.size < fine.size; c.size++)
            if (!is_broken(size, &c, c.size)) return false;
        c.size = fine.size + 1;
        if (!is_broken(size, &c, fine.size)) return false;
        c = fine, set_position(&c, end);
        if (!is_broken(size, &c, 1)) return false;
        c = fine, set_position(&c, least - 1);
        if (!is_broken(size, &c, 1)) return false;
        c = fine, c.bytes[c.type_at] = PLAIN_TINYINT - 1;
        if (!is_broken(size, &c, c.type_at)) return false;
        c = fine, c.bytes[c.type_at + 1] = CARD_NAME + 1;
        if (!is_broken(size, &c, c.type_at + 1)) return false;
        for (size_t k = c.type_at + 2; k < c.size; k++) {
            c = fine, c.bytes[k] = 128;
            if (!is_broken(size, &c, k)) return false;
        }
    }
    return is_broken(size, &none, 0);
}

/* What breaks a rule of its own is refused by its number, at the writer's position: flags, a name, a decimal, a point, a geography. */
static bool wrong_values_refused(size_t count) {
    const plain_column unnamed[] = {{PLAIN_DECIMAL, 0, 0}, {PLAIN_POINT, 0, 0}, {PLAIN_GEOGRAPHY, 0, 0}}, named = {PLAIN_STRING, 1, 2};
    plain_writer w;
    plain_opening o = opening(count), flagged = o;
    flagged.flags |= 1;
    if (!is_refused(plain_begin(&w, again, MOST_FRAME, message[4], &flagged), BAD_FLAGS, 0)) return false;
    if (plain_begin(&w, again, MOST_FRAME, message[4], &o).number != 0) return false;
    if (!is_refused(plain_open_table(&w, 0, &named, 1, torn, sizeof torn), BAD_NAME, w.at)) return false;
    if (plain_open_table(&w, 0, unnamed, 3, message, 0).number != 0 || plain_open_row(&w).number != 0) return false;
    if (!is_refused(plain_put_pair(&w, PLAIN_DECIMAL, (uint64_t)1 << 63, 1), BAD_DECIMAL, w.at)) return false;
    if (plain_put_pair(&w, PLAIN_DECIMAL, (uint64_t)1 << 63, 0).number != 0) return false;
    if (!is_refused(plain_put_pair(&w, PLAIN_POINT, NORTH, NORTH + 1), BAD_POINT, w.at)) return false;
    if (plain_put_pair(&w, PLAIN_POINT, NORTH, NORTH).number != 0) return false;
    return is_refused(plain_put_body(&w, PLAIN_GEOGRAPHY, false, torn, 0), BAD_GEOGRAPHY, w.at) && plain_put_body(&w, PLAIN_GEOGRAPHY, true, torn, 0).number == 0;
}

/* A row that is refused whole leaves the writer as it was. */
static bool row_refused(plain_writer *w, const uint64_t *cells, size_t count, uint32_t number, size_t place) {
    size_t at = w->at;
    uint32_t rows = w->rows;
    return is_refused(plain_whole_row(w, cells, count, torn, sizeof torn), number, place) && w->at == at && w->rows == rows && w->stage == PLAIN_TABLE;
}

/* A row of fine cells, in numbers of which the last two are one cell too many; where each cell stands in it; and a number that is wrong there. */
static const plain_column row_columns[] = {{PLAIN_TINYINT, 0, 0}, {PLAIN_STRING, 0, 0}, {PLAIN_DECIMAL, 0, 0}, {PLAIN_POINT, 0, 0}, {PLAIN_GEOGRAPHY, 0, 0}};
static const uint64_t row_numbers[] = {0, 255, 0, 2, (uint64_t)1 << 63, 0, NORTH, NORTH, 2, 1, 1, 1};
static const size_t row_places[] = {4, 5, 11, 27, 43, 48};
static const struct {
    size_t which;
    uint64_t is;
    uint32_t refusal;
} wrong_numbers[] = {{0, 1, BAD_TYPE}, {1, 256, BAD_TYPE}, {2, 2, PAST_END}, {2, 4, PAST_END}, {2, UINT64_MAX, PAST_END}, {3, UINT64_MAX - 1, PAST_END},
                     {3, 3, BAD_TEXT}, {5, 1, BAD_DECIMAL}, {7, NORTH + 1, BAD_POINT}, {9, 0, BAD_GEOGRAPHY}};

/* It is refused at the cell of the wrong number, or at 0 if that cell's bytes aren't lent. */
static bool wrong_numbers_refused(plain_writer *w) {
    for (size_t n = 0; n < sizeof wrong_numbers / sizeof *wrong_numbers; n++) {
        uint64_t cells[10];
        size_t which = wrong_numbers[n].which, place = w->at + row_places[which / 2];
        uint32_t refusal = wrong_numbers[n].refusal;
        memcpy(cells, row_numbers, sizeof cells);
        cells[which] = wrong_numbers[n].is;
        if (!row_refused(w, cells, 10, refusal, refusal == PAST_END ? 0 : place)) return false;
    }
    return true;
}

/* So are one of too few cells or too many, and one that has no room. A number without its second is left out. */
static bool wrong_rows_refused(size_t count) {
    plain_writer w;
    plain_opening o = opening(count);
    if (plain_begin(&w, again, MOST_FRAME, message[4], &o).number != 0 || plain_open_table(&w, 0, row_columns, 5, message, 0).number != 0) return false;
    if (!wrong_numbers_refused(&w)) return false;
    if (!row_refused(&w, row_numbers, 9, STAGE, w.at + row_places[4]) || !row_refused(&w, row_numbers, 12, STAGE, w.at + row_places[5])) return false;
    w.size = w.at + row_places[5] - 1;
    if (!row_refused(&w, row_numbers, 10, OUTPUT, w.at + row_places[5])) return false;
    w.size++;
    return plain_whole_row(&w, row_numbers, 11, torn, sizeof torn).number == 0 && w.at == w.size && w.rows == 1;
}

static bool area_written_alike(size_t size) {
    plain_area_writer w;
    const uint8_t *at = message + AREA_HEAD;
    bool fine = plain_begin_area(&w, again, size, message[0], message[1]).number == 0;
    for (size_t i = 0, rings = load32(message + RINGS_AT); fine && i < rings; i++, at += RING_KEPT) {
        size_t vertices = load32(at + 1);
        fine = plain_open_ring(&w, *at).number == 0;
        at += RING_HEAD;
        for (size_t v = 0; v < vertices; v++, at += VERTEX) fine &= plain_put_vertex(&w, load64(at), load64(at + 8), load64(at + 16)).number == 0;
        fine &= plain_close_ring(&w, at).number == 0;
    }
    return fine && plain_finish_area(&w, at).number == 0 && w.at == size && memcmp(message, again, size) == 0;
}

/* An area without a ring isn't finished, nor a ring of two vertices closed. */
static bool small_areas_refused(void) {
    const uint8_t kept[RING_KEPT] = {0};
    plain_area_writer w;
    if (plain_begin_area(&w, again, MOST_FRAME, 0, 1).number != 0 || !is_refused(plain_finish_area(&w, kept), BAD_GEOGRAPHY, w.at)) return false;
    if (plain_open_ring(&w, 0).number != 0 || plain_put_vertex(&w, 0, 0, 0).number != 0 || plain_put_vertex(&w, 0, 0, 0).number != 0) return false;
    return is_refused(plain_close_ring(&w, kept), BAD_GEOGRAPHY, w.at);
}

/* The field list, or the refusal; whether it was a list. */
static bool print_list(plain_refusal no, size_t count) {
    if (no.number != 0) printf("refused %u %zu\n", no.number, no.place);
    for (size_t n = 0; n < count; n++) {
        const uint64_t *e = entries + 6 * n;
        printf("%lu %lu %lu %lu %lu %lu\n", e[0], e[1], e[2], e[3], e[4], e[5]);
    }
    return no.number == 0;
}

static void one(size_t size) {
    size_t count = 0;
    plain_refusal no = plain_fields(message, size, 0, entries, MOST_NUMBERS, &count);
    if (!print_list(no, count)) return;
    if (!entries_agree(size, count)) printf("an entry or its owner differs from the list\n");
    if (!cells_agree(size, count)) printf("a cell differs from the list\n");
    if (!columns_agree(size, count)) printf("a column differs from the list\n");
    if (!written_alike(put_by_cells, size, count) || !written_alike(put_at_once, size, count)) printf("written anew, the message differs\n");
    if (!torn_opening_refused(count) || !torn_cell_refused(count)) printf("a torn text is written\n");
    if (!wrong_values_refused(count) || !wrong_rows_refused(count)) printf("what breaks a rule of its own is written\n");
    if (!too_many_columns_refused(count)) printf("a table of too many columns is written\n");
    if (!broken_cards_refused(size)) printf("a card that breaks its form isn't refused there\n");
}

static void one_area(size_t size) {
    size_t count = 0, rings;
    plain_refusal no = plain_area_fields(message, size, 0, entries, MOST_NUMBERS, &count);
    if (!print_list(no, count)) return;
    if (!area_written_alike(size)) printf("written anew, the area differs\n");
    if (!small_areas_refused()) printf("too small an area is written\n");
    plain_turn_holes(message, size, &rings);
    for (size_t n = 0; n < size; n++) printf("%02x", message[n]);
    printf("\n");
}

static void one_card(size_t size) {
    const uint8_t *card = message + 1, *reply = card + message[0];
    uint64_t fit[3];
    plain_refusal no = plain_card_fit(reply, size - (size_t)(reply - message), 0, card, message[0], fit);
    if (no.number != 0) printf("refused %u %zu\n", no.number, no.place);
    else printf("%lu %lu %lu\n", fit[0], fit[1], fit[2]);
}

int main(void) {
    uint8_t head[5];
    while (fread(head, 1, 5, stdin) == 5) {
        size_t size = load32(head) - 1;
        if (size > MOST_FRAME || fread(message, 1, size, stdin) != size) return 1;
        if (head[4] == PLAIN_GEOGRAPHY) one_area(size);
        else if (head[4] == CARD_FRAME) one_card(size);
        else one(size);
        printf(".\n");
    }
    return 0;
}
