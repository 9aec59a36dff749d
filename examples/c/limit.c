/* limit FILE COLUMN: prints a decimal column of a reply's first table, with the place of the bytes that each value was read
   from. Names and places come from the proved library; only the digits are put together here. */
#include "decimal.h"
#include "fields.h"
#include <string.h>

static uint8_t message[CHALOENPIK_MOST_BYTES + 1];
static size_t length;

static void print_column(size_t column) {
    struct fields list = list_fields(CHALOENPIK_RESPONSE, message, length);
    for (const struct field *f = list.first; f < list.end; f++) {
        if (f->number != CHALOENPIK_FIELD_CELL || f->i != 0 || f->k != column) continue;
        printf("row %lu: ", (unsigned long)f->j);
        print_decimal(bits_at(message + f->offset, 8), bits_at(message + f->offset + 8, 8));
        printf(", bytes %lu to %lu\n", (unsigned long)f->offset, (unsigned long)(f->offset + f->size - 1));
    }
    free(list.first);
}

int main(int count, char **words) {
    if (count != 3) {
        fprintf(stderr, "usage: limit FILE COLUMN\n");
        return 2;
    }
    length = read_file(words[1], message, sizeof message);
    size_t column = found(words[2], chaloenpik_find_column(message, length, 0, (const uint8_t *)words[2], strlen(words[2])));
    if (found(words[2], chaloenpik_column_type(message, length, 0, column)) != CHALOENPIK_DECIMAL) {
        printf("%s is no column of decimals\n", words[2]);
        return 1;
    }
    printf("%s is column %lu\n", words[2], (unsigned long)column);
    print_column(column);
    return 0;
}
