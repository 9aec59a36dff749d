/* Keeps a column of a reply's first table on a shortcut card, and later reads an engine's limit by it.

     card make REPLY COLUMN CARD    writes the column's card to a file
     card limit CARD REPLY ENGINE   opens the card over a reply, and prints its column of the row of an engine, with the place of
                                    the bytes that it was read from; a reply whose column there is another is refused, and the
                                    reason told, and where the card's column stands now */
#include "decimal.h"
#include "fields.h"
#include <string.h>

static const uint8_t engine_id[] = "ENGINE_ID";

static uint8_t message[CHALOENPIK_MOST_BYTES + 1];
static size_t length;

static int make(const char *column, const char *name) {
    uint8_t card[CHALOENPIK_FAR_CARD];
    uint64_t position = found(column, chaloenpik_make_card(message, length, 0, (const uint8_t *)column, strlen(column), card, sizeof card));
    size_t size = chaloenpik_card_size(position);
    FILE *file = fopen(name, "wb");
    if (file == NULL || fwrite(card, 1, size, file) != size || fclose(file) != 0) {
        perror(name);
        return 2;
    }
    printf("%s is column %lu\n", column, (unsigned long)position);
    return 0;
}

static bool is_integer(uint64_t type) { return type >= CHALOENPIK_TINYINT && type <= CHALOENPIK_BIGINT; }

/* The first row of an engine, in one pass over the field list; past the last row if there is none. */
static size_t row_of(int64_t engine) {
    size_t column = found("ENGINE_ID", chaloenpik_find_column(message, length, 0, engine_id, sizeof engine_id - 1));
    uint8_t type = (uint8_t)found("ENGINE_ID", chaloenpik_column_type(message, length, 0, column));
    if (!is_integer(type)) {
        printf("ENGINE_ID is no column of integers\n");
        exit(1);
    }
    struct fields list = list_fields(CHALOENPIK_RESPONSE, message, length);
    size_t row = found("rows", chaloenpik_rows(message, length, 0));
    for (const struct field *f = list.first; f < list.end; f++) {
        if (f->number != CHALOENPIK_FIELD_CELL || f->i != 0 || f->k != column) continue;
        if (chaloenpik_signed_value(type, bits_at(message + f->offset, f->size)) != engine) continue;
        row = f->j;
        break;
    }
    free(list.first);
    return row;
}

static void print_reason(const uint8_t *card, size_t size) {
    uint64_t fit[3];
    found("card", chaloenpik_card_fit(message, length, 0, card, size, fit));
    printf("stale: %s; ", chaloenpik_fit_text(fit[0]));
    if (fit[1] == 0) printf("no column has its name and type\n");
    else printf("its name and type now stand at column %lu\n", (unsigned long)fit[2]);
}

/* The column that a card opens. It opens no other, wherever its name and type may stand now: who wants that column makes a new card. */
static size_t opened(const uint8_t *card, size_t size) {
    uint64_t answer = chaloenpik_open_card(message, length, 0, card, size);
    if (chaloenpik_refusal(answer) == CHALOENPIK_CARD_STALE) print_reason(card, size);
    return found("card", answer);
}

static int limit(const char *file, int64_t engine) {
    /* one more than the most, so that a file that is too long is refused and not cut */
    uint8_t card[CHALOENPIK_FAR_CARD + 1];
    size_t size = read_file(file, card, sizeof card);
    size_t column = opened(card, size), row = row_of(engine);
    uint64_t cell[4], place[2];
    found("engine", chaloenpik_cell(message, length, 0, row, column, cell));
    if (cell[0] != CHALOENPIK_DECIMAL) {
        printf("the card's column has no decimals\n");
        return 1;
    }
    found("engine", chaloenpik_cell_place(message, length, 0, row, column, place));
    printf("column %lu, row %lu: ", (unsigned long)column, (unsigned long)row);
    print_decimal(cell[2], cell[3]);
    printf(", bytes %lu to %lu\n", (unsigned long)place[0], (unsigned long)(place[0] + place[1] - 1));
    return 0;
}

int main(int count, char **words) {
    bool makes = count == 5 && strcmp(words[1], "make") == 0, limits = count == 5 && strcmp(words[1], "limit") == 0;
    long engine = 0;
    if (!makes && !(limits && read_number(words[4], INT64_MIN, INT64_MAX, &engine))) {
        fprintf(stderr, "usage: card make REPLY COLUMN CARD | card limit CARD REPLY ENGINE, with an engine's number\n");
        return 2;
    }
    length = read_file(words[makes ? 2 : 3], message, sizeof message);
    return makes ? make(words[3], words[4]) : limit(words[2], engine);
}
