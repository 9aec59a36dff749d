/* Replies and areas of many shapes, made with the plain writers; the damaged ones are made from sound ones by hand. */
#include "shapes.h"
#include "plain_rules.h"

static const uint8_t letters[] = "ABCDEFGHIJKLMNOPQRSTUVWXYZ ABCDEFGHIJKLMNOPQRSTUVWXYZ ABCDEFGHIJKLMNOPQRSTUVWXYZ";

/* Numbers that look made up, the same in every run. */
static uint64_t made_up(uint64_t *state) {
    *state = *state * 6364136223846793005ULL + 1442695040888963407ULL;
    return *state >> 11;
}

static void begin(plain_writer *w, uint8_t *buffer, size_t size) {
    plain_opening fields = {.client = {0, 1, 2, 3, 4, 5, 6, 7}, .status = 1, .round_trip = 3};
    plain_begin(w, buffer, size, 1, &fields);
}

/* Whether there was room for its columns. */
static bool open_table(plain_writer *w, const uint8_t *types, size_t count, size_t name_size) {
    plain_column columns[PLAIN_COLUMNS];
    for (size_t k = 0; k < count; k++) {
        columns[k].type = types[k];
        columns[k].name = k % 26;
        columns[k].name_size = name_size;
    }
    return plain_open_table(w, 0, columns, count, letters, sizeof letters - 1).number == 0;
}

/* How the columns of a family are named: by what all share, and by the column's number, in one order or the other. */
typedef struct {
    size_t digits;
    bool number_first;
} naming;

static void put_digits(uint8_t *at, size_t digits, size_t number) {
    for (; digits > 0; digits--, number /= 10) at[digits - 1] = (uint8_t)('0' + number % 10);
}

/* Whether there was room for the columns of a family. */
static bool open_family(plain_writer *w, const uint8_t *types, size_t count, naming by) {
    static const uint8_t shared[] = "HARBOUR_ENGINE_LIMIT";
    enum { SHARED = sizeof shared - 1, MOST_DIGITS = 4 };
    uint8_t names[PLAIN_COLUMNS * (SHARED + MOST_DIGITS)];
    plain_column columns[PLAIN_COLUMNS];
    size_t each = SHARED + by.digits;
    for (size_t k = 0; k < count; k++) {
        uint8_t *name = names + k * each;
        memcpy(by.number_first ? name + by.digits : name, shared, SHARED);
        put_digits(by.number_first ? name : name + SHARED, by.digits, k);
        columns[k].type = types[k], columns[k].name = k * each, columns[k].name_size = each;
    }
    return plain_open_table(w, 0, columns, count, names, count * each).number == 0;
}

/* Puts a value of a type into the open row. */
typedef plain_refusal put_value(plain_writer *w, uint8_t type, uint64_t *state);

static plain_refusal put_any(plain_writer *w, uint8_t type, uint64_t *state) {
    uint64_t n = made_up(state);
    switch (type) {
    case PLAIN_DECIMAL: return plain_put_pair(w, type, n % 2 ? 0 : ~(uint64_t)0, n * 1000);
    case PLAIN_POINT: return plain_put_pair(w, type, 0x405e81b089a02752, 0xc042741ecd4aa10e);
    case PLAIN_STRING: case PLAIN_VARBINARY: return plain_put_body(w, type, n % 8 == 0, letters + n % 27, n % 40);
    case PLAIN_GEOGRAPHY: return plain_put_body(w, type, false, letters + n % 27, 1 + n % 30);
    default: return plain_put_number(w, type, n);
    }
}

/* A null decimal; a point that is null or at the ends of its range, by turns. */
static plain_refusal put_edge(plain_writer *w, uint8_t type, uint64_t *state) {
    static const uint64_t points[][2] = {{0x4076800000000000, 0x4076800000000000}, {0x4066800000000000, 0xc056800000000000}, {0xc066800000000000, 0x4056800000000000}};
    if (type == PLAIN_DECIMAL) return plain_put_pair(w, type, (uint64_t)1 << 63, 0);
    const uint64_t *point = points[(*state)++ % 3];
    return plain_put_pair(w, type, point[0], point[1]);
}

/* A value as any, but every second decimal is null, and a point is like those above: which, by chance. */
static plain_refusal put_of_boat(plain_writer *w, uint8_t type, uint64_t *state) {
    uint64_t chance = made_up(state);
    return type == PLAIN_POINT || (type == PLAIN_DECIMAL && chance % 2) ? put_edge(w, type, &chance) : put_any(w, type, state);
}

/* Puts a letter, made up by chance, behind a text, and gives where the text then ends. */
typedef uint8_t *put_letter(uint8_t *end, uint64_t chance);

static uint8_t *ascii_letter(uint8_t *end, uint64_t chance) {
    *end = letters[chance % 27];
    return end + 1;
}

static uint8_t *two_byte_letter(uint8_t *end, uint64_t chance) {
    static const uint8_t of_two[] = "æøåÆØÅ";
    memcpy(end, of_two + chance % 6 * 2, 2);
    return end + 2;
}

/* Any of twenty thousand Chinese ones. */
static uint8_t *three_byte_letter(uint8_t *end, uint64_t chance) {
    uint32_t letter = 0x4e00 + (uint32_t)(chance % 20000);
    end[0] = (uint8_t)(0xe0 | letter >> 12), end[1] = (uint8_t)(0x80 | (letter >> 6 & 0x3f)), end[2] = (uint8_t)(0x80 | (letter & 0x3f));
    return end + 3;
}

/* Of Danish: one in five has two bytes in names, and one in forty in prose. */
static uint8_t *letter_of_name(uint8_t *end, uint64_t chance) { return chance % 5 == 0 ? two_byte_letter(end, chance / 5) : ascii_letter(end, chance / 5); }

static uint8_t *letter_of_prose(uint8_t *end, uint64_t chance) { return chance % 40 == 0 ? two_byte_letter(end, chance / 40) : ascii_letter(end, chance / 40); }

/* A string with as many letters as any has, and null where that one is. */
static plain_refusal put_letters(put_letter *put, plain_writer *w, uint8_t type, uint64_t *state) {
    uint8_t text[40 * 3], *end = text;
    uint64_t n = made_up(state), chance = n;
    for (size_t k = 0; k < n % 40; k++) end = put(end, made_up(&chance));
    return plain_put_body(w, type, n % 8 == 0, text, (size_t)(end - text));
}

static plain_refusal put_name(plain_writer *w, uint8_t type, uint64_t *state) { return put_letters(letter_of_name, w, type, state); }

static plain_refusal put_three_byte(plain_writer *w, uint8_t type, uint64_t *state) { return put_letters(three_byte_letter, w, type, state); }

/* A string of 64 KB, or of so much that four have room. */
static plain_refusal put_prose(plain_writer *w, uint8_t type, uint64_t *state) {
    static uint8_t text[64 * 1024];
    size_t each = w->size / 4 - 32;
    uint8_t *end = text, *last = text + (each < sizeof text ? each : sizeof text) - 1;
    while (end < last) end = letter_of_prose(end, made_up(state));
    return plain_put_body(w, type, false, text, (size_t)(end - text));
}

/* Whether there was room for a row of the open table. */
static bool put_row(put_value *put, plain_writer *w, uint64_t *state) {
    bool whole = plain_open_row(w).number == 0;
    for (size_t k = 0; whole && k < w->columns; k++) whole = put(w, w->types[k], state).number == 0;
    return whole && plain_close_row(w).number == 0;
}

/* Rows of the open table until the buffer is full. The row that doesn't fit any more is taken back. */
static size_t fill_rows(put_value *put, plain_writer *w) {
    uint64_t state = 1;
    for (;;) {
        size_t at = w->at;
        uint32_t rows = w->rows;
        if (!put_row(put, w, &state)) {
            w->at = at, w->rows = rows, w->stage = PLAIN_TABLE;
            break;
        }
    }
    plain_close_table(w);
    plain_finish(w);
    return w->at;
}

static size_t fill_with(put_value *put, uint8_t *buffer, size_t size, const uint8_t *types, size_t count) {
    plain_writer w;
    begin(&w, buffer, size);
    open_table(&w, types, count, 6);
    return fill_rows(put, &w);
}

static size_t fill(uint8_t *buffer, size_t size, const uint8_t *types, size_t count) { return fill_with(put_any, buffer, size, types, count); }

static size_t bigints(uint8_t *buffer, size_t size) {
    const uint8_t types[] = {PLAIN_BIGINT, PLAIN_BIGINT, PLAIN_BIGINT, PLAIN_BIGINT, PLAIN_BIGINT, PLAIN_BIGINT, PLAIN_BIGINT, PLAIN_BIGINT};
    return fill(buffer, size, types, sizeof types);
}

static size_t four_strings(put_value *put, uint8_t *buffer, size_t size) {
    const uint8_t types[] = {PLAIN_STRING, PLAIN_STRING, PLAIN_STRING, PLAIN_STRING};
    return fill_with(put, buffer, size, types, sizeof types);
}

static size_t strings(uint8_t *buffer, size_t size) { return four_strings(put_any, buffer, size); }

static size_t danish(uint8_t *buffer, size_t size) { return four_strings(put_name, buffer, size); }

static size_t three_byte(uint8_t *buffer, size_t size) { return four_strings(put_three_byte, buffer, size); }

static size_t long_text(uint8_t *buffer, size_t size) {
    const uint8_t types[] = {PLAIN_STRING};
    return fill_with(put_prose, buffer, size, types, sizeof types);
}

static size_t decimals(uint8_t *buffer, size_t size) {
    const uint8_t types[] = {PLAIN_DECIMAL, PLAIN_DECIMAL, PLAIN_DECIMAL, PLAIN_DECIMAL};
    return fill(buffer, size, types, sizeof types);
}

static size_t points(uint8_t *buffer, size_t size) {
    const uint8_t types[] = {PLAIN_POINT, PLAIN_POINT, PLAIN_POINT, PLAIN_POINT};
    return fill(buffer, size, types, sizeof types);
}

/* Nothing but nulls and values at the end of their range. */
static size_t edges(uint8_t *buffer, size_t size) {
    const uint8_t types[] = {PLAIN_DECIMAL, PLAIN_POINT, PLAIN_POINT, PLAIN_POINT};
    return fill_with(put_edge, buffer, size, types, sizeof types);
}

/* An everyday table. */
static size_t boats(uint8_t *buffer, size_t size) {
    const uint8_t types[] = {PLAIN_INTEGER, PLAIN_STRING, PLAIN_POINT, PLAIN_DECIMAL, PLAIN_TIMESTAMP};
    return fill_with(put_of_boat, buffer, size, types, sizeof types);
}

static size_t tinyints(uint8_t *buffer, size_t size) {
    const uint8_t types[] = {PLAIN_TINYINT};
    return fill(buffer, size, types, sizeof types);
}

static const uint8_t every_type[] = {PLAIN_INTEGER, PLAIN_STRING, PLAIN_DECIMAL, PLAIN_TIMESTAMP, PLAIN_POINT, PLAIN_TINYINT, PLAIN_VARBINARY, PLAIN_BIGINT, PLAIN_FLOAT, PLAIN_SMALLINT, PLAIN_GEOGRAPHY};

static void take_turns(uint8_t *types, size_t count, const uint8_t *cycle, size_t turn) {
    for (size_t k = 0; k < count; k++) types[k] = cycle[k % turn];
}

/* 64 columns, of every type in turn. */
static size_t mixed(uint8_t *buffer, size_t size) {
    uint8_t types[64];
    take_turns(types, sizeof types, every_type, sizeof every_type);
    return fill(buffer, size, types, sizeof types);
}

/* Whether there was room for a table of so many rows. */
static bool put_table(plain_writer *w, const uint8_t *types, size_t count, size_t name_size, size_t rows, uint64_t *state) {
    bool whole = open_table(w, types, count, name_size);
    for (size_t j = 0; whole && j < rows; j++) whole = put_row(put_any, w, state);
    return whole && plain_close_table(w).number == 0;
}

/* Tables until the buffer is full, or until there are as many as there may be. The table that doesn't fit any more is taken back. */
static size_t fill_tables(uint8_t *buffer, size_t size, const uint8_t *types, size_t count, size_t name_size, size_t rows) {
    plain_writer w;
    uint64_t state = 1;
    begin(&w, buffer, size);
    for (;;) {
        size_t at = w.at;
        uint32_t before = w.tables;
        if (!put_table(&w, types, count, name_size, rows, &state)) {
            w.at = at, w.tables = before, w.stage = PLAIN_REPLY;
            break;
        }
    }
    plain_finish(&w);
    return w.at;
}

/* Tables of one bigint. */
static size_t tables(uint8_t *buffer, size_t size) {
    const uint8_t types[] = {PLAIN_BIGINT};
    return fill_tables(buffer, size, types, sizeof types, 6, 1);
}

/* Tables of two rows. */
static size_t small_tables(uint8_t *buffer, size_t size) {
    const uint8_t types[] = {PLAIN_INTEGER, PLAIN_STRING, PLAIN_DECIMAL, PLAIN_TIMESTAMP};
    return fill_tables(buffer, size, types, sizeof types, 6, 2);
}

/* Tables that are nothing but metadata: 64 columns, of every type in turn, with short names. */
static size_t wide_tables(uint8_t *buffer, size_t size) {
    uint8_t types[64];
    take_turns(types, sizeof types, every_type, sizeof every_type);
    return fill_tables(buffer, size, types, sizeof types, 8, 0);
}

/* Rows of no columns, 4 bytes each. */
static size_t empty_rows(uint8_t *buffer, size_t size) { return fill(buffer, size, NULL, 0); }

/* The same with a row count of 2^31 - 1: refused where the next row would stand. */
static size_t count_too_large(uint8_t *buffer, size_t size) {
    size_t taken = empty_rows(buffer, size), count_at = 22 + 11;
    store32(buffer + count_at, INT32_MAX);
    return taken;
}

/* Mixed rows with one byte more than the tables have: refused at the last byte. */
static size_t last_byte(uint8_t *buffer, size_t size) {
    size_t taken = mixed(buffer, size - 1);
    buffer[taken++] = 0;
    store32(buffer, (uint32_t)(taken - 4));
    return taken;
}

/* A few long names instead of rows: each byte has to be looked at. */
static size_t names(uint8_t *buffer, size_t size) {
    const size_t before = 22 + 4 + 4 + 3 + 4, each = (size - before - 4) / 4 - 5;
    uint8_t *p = buffer + before - 4;
    size_t name_size = each < MOST_BODY ? each : MOST_BODY, metadata = 3 + 4 + 4 * (4 + name_size);
    plain_writer w;
    begin(&w, buffer, size);
    memset(p, PLAIN_STRING, 4);
    p += 4;
    for (size_t k = 0; k < 4; k++, p += 4 + name_size) {
        store32(p, (uint32_t)name_size);
        memset(p + 4, 'N', name_size);
    }
    store32(p, 0);
    p += 4;
    store16(buffer + 20, 1);
    store32(buffer + 22, (uint32_t)(4 + metadata + 4));
    store32(buffer + 26, (uint32_t)metadata);
    buffer[30] = 0;
    store16(buffer + 31, 4);
    store32(buffer, (uint32_t)(p - buffer - 4));
    return (size_t)(p - buffer);
}

/* One row of so many bigints. */
static size_t family(uint8_t *buffer, size_t size, size_t count, naming by) {
    uint8_t types[PLAIN_COLUMNS];
    plain_writer w;
    memset(types, PLAIN_BIGINT, count);
    begin(&w, buffer, size);
    open_family(&w, types, count, by);
    plain_open_row(&w);
    for (size_t k = 0; k < count; k++) plain_put_number(&w, PLAIN_BIGINT, k);
    plain_close_row(&w);
    plain_close_table(&w);
    plain_finish(&w);
    return w.at;
}

static const naming of_two_digits = {2, false}, two_digits_first = {2, true}, of_four_digits = {4, false};

static size_t begin_alike(uint8_t *buffer, size_t size) { return family(buffer, size, 64, of_two_digits); }

static size_t end_alike(uint8_t *buffer, size_t size) { return family(buffer, size, 64, two_digits_first); }

static size_t alike_400(uint8_t *buffer, size_t size) { return family(buffer, size, 400, of_four_digits); }

static size_t alike_1024(uint8_t *buffer, size_t size) { return family(buffer, size, PLAIN_COLUMNS, of_four_digits); }

/* Rows of so many columns of a family, of some types in turn. 0 if there is no room for one. */
static size_t report(uint8_t *buffer, size_t size, size_t count, const uint8_t *cycle, size_t turn) {
    uint8_t types[PLAIN_COLUMNS];
    plain_writer w;
    take_turns(types, count, cycle, turn);
    begin(&w, buffer, size);
    if (!open_family(&w, types, count, of_four_digits)) return 0;
    size_t taken = fill_rows(put_any, &w);
    return w.rows > 0 ? taken : 0;
}

/* Those whose size is fixed and that have no rule. */
static const uint8_t number_types[] = {PLAIN_TINYINT, PLAIN_SMALLINT, PLAIN_INTEGER, PLAIN_BIGINT, PLAIN_FLOAT, PLAIN_TIMESTAMP};

static size_t numbers_400(uint8_t *buffer, size_t size) { return report(buffer, size, 400, number_types, sizeof number_types); }

static size_t numbers_1024(uint8_t *buffer, size_t size) { return report(buffer, size, PLAIN_COLUMNS, number_types, sizeof number_types); }

static size_t mixed_400(uint8_t *buffer, size_t size) { return report(buffer, size, 400, every_type, sizeof every_type); }

static size_t mixed_1024(uint8_t *buffer, size_t size) { return report(buffer, size, PLAIN_COLUMNS, every_type, sizeof every_type); }

static size_t wide(uint8_t *buffer, size_t size, size_t count) {
    const uint8_t bigint = PLAIN_BIGINT;
    return report(buffer, size, count, &bigint, 1);
}

static size_t wide_8(uint8_t *buffer, size_t size) { return wide(buffer, size, 8); }

static size_t wide_64(uint8_t *buffer, size_t size) { return wide(buffer, size, 64); }

static size_t wide_400(uint8_t *buffer, size_t size) { return wide(buffer, size, 400); }

static size_t wide_1024(uint8_t *buffer, size_t size) { return wide(buffer, size, PLAIN_COLUMNS); }

const shape shapes[] = {
    {"bigints", "rows of 8 bigints", bigints},
    {"tinyints", "rows of one tinyint", tinyints},
    {"strings", "rows of 4 strings of ASCII, some null", strings},
    {"danish", "the same, but one letter in five, by chance, has two bytes", danish},
    {"three-byte", "the same, but every letter has three bytes", three_byte},
    {"long text", "rows of one string of up to 64 KB, in which one letter in forty, by chance, has two bytes", long_text},
    {"decimals", "rows of 4 decimals", decimals},
    {"points", "rows of 4 points", points},
    {"edges", "rows of a null decimal and points that are null or at 180 and 90 degrees", edges},
    {"boats", "rows of a boat's values, each with such a point and every second with a null decimal", boats},
    {"mixed", "rows of 64 columns of all types", mixed},
    {"tables", "tables of one bigint, at most 32767", tables},
    {"small tables", "tables of an integer, a string, a decimal and a timestamp, with two rows", small_tables},
    {"wide tables", "tables of 64 columns of all types, whose names have 8 letters, without rows", wide_tables},
    {"names", "4 columns with long names", names},
    {"empty rows", "rows of no columns", empty_rows},
    {"row count", "the same, the count 2^31 - 1: refused", count_too_large},
    {"last byte", "mixed, refused at the last byte", last_byte},
};

const size_t shape_count = sizeof shapes / sizeof *shapes;

const shape column_shapes[] = {
    {"begin alike", "64 columns, whose names have one length and share their first twenty letters", begin_alike},
    {"end alike", "the same, but they share their last twenty letters", end_alike},
    {"400 alike", "400 columns, whose names begin alike", alike_400},
    {"1024 alike", "1024 columns, whose names begin alike", alike_1024},
};

const size_t column_shape_count = sizeof column_shapes / sizeof *column_shapes;

const shape report_shapes[] = {
    {"400 numbers", "rows of 400 columns of numbers, whose names begin alike", numbers_400},
    {"1024 numbers", "the same, of 1024 columns", numbers_1024},
    {"400 mixed", "rows of 400 columns of all types, whose names begin alike", mixed_400},
    {"1024 mixed", "the same, of 1024 columns", mixed_1024},
};

const size_t report_shape_count = sizeof report_shapes / sizeof *report_shapes;

const shape wide_shapes[] = {
    {"8", "rows of 8 bigints", wide_8},
    {"64", "rows of 64 bigints", wide_64},
    {"400", "rows of 400 bigints", wide_400},
    {"1024", "rows of 1024 bigints", wide_1024},
};

const size_t wide_shape_count = sizeof wide_shapes / sizeof *wide_shapes;

static void put_ring(plain_area_writer *w, size_t vertices, uint64_t *state) {
    plain_open_ring(w, (uint8_t)made_up(state));
    for (size_t n = 0; n < vertices; n++) {
        uint64_t x = made_up(state), y = made_up(state), z = made_up(state);
        plain_put_vertex(w, x, y, z);
    }
    plain_close_ring(w, letters + made_up(state) % 27);
}

/* As many rings as there is room for, each with so many vertices: how many, by chance. */
static size_t rings_of(size_t least, size_t most, uint8_t *buffer, size_t size) {
    plain_area_writer w;
    uint64_t state = 1;
    plain_begin_area(&w, buffer, size, 0, 1);
    while (size - w.at >= RING_HEAD + VERTEX * most + RING_KEPT + AREA_KEPT) put_ring(&w, least + made_up(&state) % (most - least + 1), &state);
    plain_finish_area(&w, letters);
    return w.at;
}

static size_t small_rings(uint8_t *buffer, size_t size) { return rings_of(LEAST_VERTICES, LEAST_VERTICES, buffer, size); }

static size_t uneven_rings(uint8_t *buffer, size_t size) { return rings_of(LEAST_VERTICES, 10, buffer, size); }

static size_t large_rings(uint8_t *buffer, size_t size) {
    size_t each = (size - AREA_HEAD - AREA_KEPT) / 4, vertices = (each - RING_HEAD - RING_KEPT) / VERTEX;
    return rings_of(vertices, vertices, buffer, size);
}

const shape area_shapes[] = {
    {"area", "a body of rings of three vertices, the least there may be", small_rings},
    {"uneven area", "a body of rings of three to ten vertices", uneven_rings},
    {"wide area", "a body of four long rings", large_rings},
};

const size_t area_shape_count = sizeof area_shapes / sizeof *area_shapes;
