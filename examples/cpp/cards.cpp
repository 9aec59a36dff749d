// cards FILE: makes the shortcut card of each column of a reply's first table, opens it there, and says how many of each kind there are.
//
// The header serves C++ as it is. This uses nothing but C's library, so that it builds with the kit alone.
#include "../c/input.h"

namespace {

uint8_t message[CHALOENPIK_MOST_BYTES + 1];
size_t length;

// The card of a column, by its name, made in a buffer of so many bytes.
struct Made {
    uint8_t card[CHALOENPIK_FAR_CARD];
    uint64_t answer;

    Made(size_t column, size_t size) {
        uint64_t name[2];
        found("name", chaloenpik_column_name(message, length, 0, column, name));
        answer = chaloenpik_make_card(message, length, 0, message + name[0], name[1], card, size);
    }
};

// Makes a column's card and opens it again.
void check(size_t column, size_t size) {
    Made made(column, size);
    found("card", made.answer);
    if (found("card", chaloenpik_open_card(message, length, 0, made.card, size)) != column) {
        printf("the card of column %lu opens another of its name\n", (unsigned long)column);
        exit(1);
    }
}

// Columns whose cards are of one kind: each has room in so many bytes, and none in a byte less.
void print_kind(const char *kind, size_t first, size_t end) {
    if (first == end) return;
    size_t size = chaloenpik_card_size(first);
    for (size_t column = first; column < end; column++) check(column, size);
    uint64_t shorter = Made(first, size - 1).answer;
    printf("%lu %s cards of %lu bytes; in a byte less refused %u at %lu\n", (unsigned long)(end - first), kind, (unsigned long)size,
           chaloenpik_refusal(shorter), (unsigned long)chaloenpik_value(shorter));
}

} // namespace

int main(int count, char **words) {
    if (count != 2) {
        fprintf(stderr, "usage: cards FILE\n");
        return 2;
    }
    length = read_file(words[1], message, sizeof message);
    size_t columns = found("table", chaloenpik_columns(message, length, 0));
    size_t near = CHALOENPIK_FAR_POSITION;
    if (columns < near) near = columns;
    print_kind("near", 0, near);
    print_kind("far", near, columns);
    return 0;
}
