// cell FILE ROW: names each cell of a row of a reply's first table, its wire type, and the bytes that it stands in.
//
// The header serves C++ as it is. This uses nothing but C's library, so that it builds with the kit alone.
#include "../c/input.h"

namespace {

uint8_t message[CHALOENPIK_MOST_BYTES + 1];
size_t length;

struct Part {
    uint64_t numbers[2];

    const uint8_t *begin() const { return message + numbers[0]; }
    const uint8_t *end() const { return begin() + numbers[1]; }
};

void print_cell(size_t row, size_t column) {
    Part name, place;
    found("name", chaloenpik_column_name(message, length, 0, column, name.numbers));
    found("cell", chaloenpik_cell_place(message, length, 0, row, column, place.numbers));
    uint64_t type = found("type", chaloenpik_column_type(message, length, 0, column));
    for (uint8_t byte : name) putchar(byte);
    printf(", %s, bytes %lu to %lu:", chaloenpik_type_text(type), (unsigned long)place.numbers[0],
           (unsigned long)(place.numbers[0] + place.numbers[1] - 1));
    for (uint8_t byte : place) printf(" %02x", unsigned{byte});
    printf("\n");
}

} // namespace

int main(int count, char **words) {
    long row;
    if (count != 3 || !read_number(words[2], 0, INT64_MAX, &row)) {
        fprintf(stderr, "usage: cell FILE ROW\n");
        return 2;
    }
    length = read_file(words[1], message, sizeof message);
    uint64_t columns = found("table", chaloenpik_columns(message, length, 0));
    for (size_t column = 0; column < columns; column++) print_cell(static_cast<size_t>(row), column);
    return 0;
}
