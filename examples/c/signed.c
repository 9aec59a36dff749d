/* Writes a reply of one row with numbers of each type, by the header's helpers, and reads them back: no cast by hand, and a number that
   its type doesn't hold is refused, not cut. The last column's point is null. */
#include "decimal.h"
#include "input.h"

enum { COLUMNS = 9, LAST = COLUMNS - 1 };

static const uint8_t names[] = "ABCDEFGHI";
static const uint8_t wire_types[COLUMNS] = {
    CHALOENPIK_TINYINT, CHALOENPIK_SMALLINT, CHALOENPIK_INTEGER, CHALOENPIK_BIGINT,
    CHALOENPIK_TIMESTAMP, CHALOENPIK_FLOAT, CHALOENPIK_DECIMAL, CHALOENPIK_POINT, CHALOENPIK_POINT
};
static const int64_t numbers[COLUMNS] = {-5, -300, -70000, INT64_MIN, -1, 0, -800000000000, 0, 0};

static uint8_t out[256], types[CHALOENPIK_TYPES];
static uint64_t state[CHALOENPIK_STATE];

/* A step of writing that was carried out; a refusal ends the program. */
static uint64_t done(uint64_t answer) { return found("step", answer); }

static uint64_t cell(uint8_t type, uint64_t upper, uint64_t lower) {
    return chaloenpik_fixed_cell(out, sizeof out, state, types, type, upper, lower);
}

static uint64_t signed_cell(uint8_t type, int64_t n) { return cell(type, 0, chaloenpik_signed_bits(type, n)); }

static void too_large(int64_t n) {
    uint64_t answer = signed_cell(CHALOENPIK_TINYINT, n);
    printf("tinyint %ld: refused %u at %lu\n", (long)n, chaloenpik_refusal(answer), (unsigned long)chaloenpik_value(answer));
}

static void write_cell(size_t column) {
    uint8_t type = wire_types[column];
    int64_t n = numbers[column];
    switch (type) {
    case CHALOENPIK_FLOAT: done(cell(type, 0, chaloenpik_float_bits(81.5))); break;
    case CHALOENPIK_DECIMAL: done(cell(type, chaloenpik_upper_bits(n), (uint64_t)n)); break;
    case CHALOENPIK_POINT: done(cell(type, chaloenpik_float_bits(-12.25), chaloenpik_float_bits(55.5))); break;
    default: done(signed_cell(type, n));
    }
}

static size_t write_reply(void) {
    static const uint8_t client[8] = {0};
    uint64_t columns[3 * COLUMNS];
    for (size_t k = 0; k < COLUMNS; k++) columns[3 * k] = wire_types[k], columns[3 * k + 1] = k, columns[3 * k + 2] = 1;
    done(chaloenpik_begin_reply(out, sizeof out, state, 1, client, 0, 1, true, client, 0, 0, true, client, 0, 0, client, 0));
    done(chaloenpik_open_table(out, sizeof out, state, types, 0, columns, 3 * COLUMNS, names, COLUMNS));
    done(chaloenpik_open_row(out, sizeof out, state, types));
    too_large(300), too_large(200), too_large(-129);
    for (size_t k = 0; k < LAST; k++) write_cell(k);
    done(cell(wire_types[LAST], CHALOENPIK_DEGREES_360, CHALOENPIK_DEGREES_360));
    done(chaloenpik_close_row(out, sizeof out, state, types));
    done(chaloenpik_close_table(out, sizeof out, state, types));
    return done(chaloenpik_finish_reply(out, sizeof out, state));
}

static void print_cell(size_t length, size_t column) {
    uint64_t it[4];
    done(chaloenpik_cell(out, length, 0, 0, column, it));
    if (it[1] == CHALOENPIK_NONE) {
        printf("null\n");
        return;
    }
    uint8_t type = (uint8_t)it[0];
    switch (type) {
    case CHALOENPIK_FLOAT: printf("%g", chaloenpik_float_value(it[3])); break;
    case CHALOENPIK_DECIMAL: print_decimal(it[2], it[3]); break;
    case CHALOENPIK_POINT: printf("%g %g", chaloenpik_float_value(it[2]), chaloenpik_float_value(it[3])); break;
    default: printf("%ld", (long)chaloenpik_signed_value(type, it[3]));
    }
    printf("\n");
}

int main(void) {
    size_t length = write_reply();
    for (size_t k = 0; k < COLUMNS; k++) print_cell(length, k);
    return 0;
}
