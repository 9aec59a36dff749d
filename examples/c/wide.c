/* wide COLUMNS OUT: writes a reply to a file, of one row and so many columns, each of which says its position.

   The types of the open table's columns are kept in memory that is lent beside the state. It has no value here before the table is opened: that sets
   as many types as there are columns, and no step looks at others. */
#include "input.h"

/* One column more than a table may have, to see that it is refused; and how many bytes a name has. */
enum { MOST = CHALOENPIK_TYPES + 1, NAME = 5 };

static uint8_t out[65536], names[NAME * MOST];
static uint64_t columns[3 * MOST];

/* A C and four digits. */
static void set_name(uint8_t *name, size_t column) {
    for (size_t at = NAME - 1; at > 0; at--, column /= 10) name[at] = (uint8_t)('0' + column % 10);
    name[0] = 'C';
}

static void set_columns(size_t count) {
    for (size_t k = 0; k < count; k++) {
        columns[3 * k] = CHALOENPIK_SMALLINT, columns[3 * k + 1] = NAME * k, columns[3 * k + 2] = NAME;
        set_name(names + NAME * k, k);
    }
}

static size_t write_reply(size_t count) {
    static const uint8_t client[8] = {0};
    uint64_t state[CHALOENPIK_STATE];
    uint8_t types[CHALOENPIK_TYPES];
    set_columns(count);
    found("reply", chaloenpik_begin_reply(out, sizeof out, state, 1, client, 0, 1, true, client, 0, 0, true, client, 0, 0, client, 0));
    found("table", chaloenpik_open_table(out, sizeof out, state, types, 0, columns, 3 * count, names, sizeof names));
    found("row", chaloenpik_open_row(out, sizeof out, state, types));
    for (size_t k = 0; k < count; k++) found("cell", chaloenpik_fixed_cell(out, sizeof out, state, types, CHALOENPIK_SMALLINT, 0, k));
    found("row", chaloenpik_close_row(out, sizeof out, state, types));
    found("table", chaloenpik_close_table(out, sizeof out, state, types));
    return found("reply", chaloenpik_finish_reply(out, sizeof out, state));
}

int main(int count, char **words) {
    long columns_asked;
    if (count != 3 || !read_number(words[1], 0, MOST, &columns_asked)) {
        fprintf(stderr, "usage: wide COLUMNS OUT, with 0 to %d columns\n", MOST);
        return 2;
    }
    size_t size = write_reply((size_t)columns_asked);
    FILE *file = fopen(words[2], "wb");
    if (file == NULL || fwrite(out, 1, size, file) != size || fclose(file) != 0) {
        perror(words[2]);
        return 2;
    }
    printf("%ld columns, %lu bytes\n", columns_asked, (unsigned long)size);
    return 0;
}
