/* table FILE [TABLE]: prints a table of a reply, the first unless said, with its columns' names in front and tabs between. The whole is one
   walk over the field list, each value read at its own place; no cell is asked for by itself.

   Null is \N; of a text, which is UTF-8, bytes below 32, 127 and the backslash are written \xNN; varbinary and geography are hexadecimal; a
   timestamp counts microseconds; a point is its longitude and its latitude. */
#include "decimal.h"
#include "fields.h"

static uint8_t message[CHALOENPIK_MOST_BYTES + 1];
static uint8_t types[CHALOENPIK_TYPES];

static void print_text(const uint8_t *bytes, size_t size) {
    for (size_t i = 0; i < size; i++) {
        bool plain = bytes[i] >= 32 && bytes[i] != 127 && bytes[i] != '\\';
        printf(plain ? "%c" : "\\x%02x", bytes[i]);
    }
}

static void print_hex(const uint8_t *bytes, size_t size) {
    for (size_t i = 0; i < size; i++) printf("%02x", bytes[i]);
}

static void print_wide(uint64_t upper, uint64_t lower) {
    if (upper == 1ULL << 63 && lower == 0) printf("\\N");
    else print_decimal(upper, lower);
}

static void print_point(uint64_t upper, uint64_t lower) {
    if (upper == CHALOENPIK_DEGREES_360 && lower == CHALOENPIK_DEGREES_360) printf("\\N");
    else printf("%.17g %.17g", chaloenpik_float_value(upper), chaloenpik_float_value(lower));
}

/* A value that isn't counted, or the body of one that is. */
static void print_value(uint8_t type, const uint8_t *bytes, size_t size) {
    size_t half = size / 2;
    switch (type) {
    case CHALOENPIK_STRING: print_text(bytes, size); break;
    case CHALOENPIK_VARBINARY:
    case CHALOENPIK_GEOGRAPHY: print_hex(bytes, size); break;
    case CHALOENPIK_FLOAT: printf("%.17g", chaloenpik_float_value(bits_at(bytes, size))); break;
    case CHALOENPIK_DECIMAL: print_wide(bits_at(bytes, half), bits_at(bytes + half, half)); break;
    case CHALOENPIK_POINT: print_point(bits_at(bytes, half), bits_at(bytes + half, half)); break;
    default: printf("%ld", (long)chaloenpik_signed_value(type, bits_at(bytes, size)));
    }
}

static bool is_counted(uint8_t type) { return type == CHALOENPIK_STRING || type == CHALOENPIK_VARBINARY || type == CHALOENPIK_GEOGRAPHY; }

/* Whether a column begins with a field, in the names or in a row: a counted thing's length comes before its body. */
static bool begins_column(const struct field *f) {
    switch (f->number) {
    case CHALOENPIK_FIELD_COLUMN_NAME_LENGTH:
    case CHALOENPIK_FIELD_CELL_LENGTH: return true;
    case CHALOENPIK_FIELD_CELL: return !is_counted(types[f->k]);
    default: return false;
    }
}

static void print_field(const struct field *f) {
    const uint8_t *bytes = message + f->offset;
    if (begins_column(f) && f->k > 0) printf("\t");
    switch (f->number) {
    case CHALOENPIK_FIELD_COLUMN_TYPE: types[f->k] = *bytes; break;
    case CHALOENPIK_FIELD_COLUMN_NAME: print_text(bytes, f->size); break;
    case CHALOENPIK_FIELD_ROW_LENGTH: printf("\n"); break;
    case CHALOENPIK_FIELD_CELL_LENGTH:
        if (bits_at(bytes, f->size) == UINT32_MAX) printf("\\N");
        break;
    case CHALOENPIK_FIELD_CELL: print_value(types[f->k], bytes, f->size); break;
    }
}

static void print_table(struct fields list, size_t table) {
    for (const struct field *f = list.first; f < list.end; f++)
        if (f->number >= CHALOENPIK_FIELD_TABLE_LENGTH && f->i == table) print_field(f);
    printf("\n");
}

int main(int count, char **words) {
    long table = 0;
    if (count < 2 || count > 3 || (count == 3 && !read_number(words[2], 0, INT64_MAX, &table))) {
        fprintf(stderr, "usage: table FILE [TABLE]\n");
        return 2;
    }
    size_t length = read_file(words[1], message, sizeof message);
    found("table", chaloenpik_columns(message, length, (size_t)table));
    struct fields list = list_fields(CHALOENPIK_RESPONSE, message, length);
    print_table(list, (size_t)table);
    free(list.first);
    return 0;
}
