/* Prints what messages say, by the exported functions, to be held against the second reader. Standard input is a row of frames: 4 bytes
   of size, big-endian, one byte of kind, a message; or instead of a kind the byte CARD_FRAME, and a card for the message before it, or MAKE_FRAME, one byte
   of room and a name whose card is made in it.
   tests/second/compare_shown.py says what is printed. */
#include "ask.h"
#include <stdlib.h>
#include <string.h>

enum { MOST_SIZE = 1 << 23, MOST_NUMBERS = 17, MOST_ENTRIES = 1 << 16, NAME_LENGTH = 46, MARK = 85, SPARE = 4, CARD_FRAME = 100, MAKE_FRAME };

static uint8_t message[MOST_SIZE], given[MOST_SIZE], card[CHALOENPIK_FAR_CARD + SPARE];
static uint64_t numbers[MOST_NUMBERS], entries[CHALOENPIK_ENTRY * MOST_ENTRIES];
static size_t length, entry_count;

/* Numbers to be written into, marked. */
static uint64_t *fresh(void) {
    memset(numbers, MARK, sizeof numbers);
    return numbers;
}

static bool all_marked(const void *from, const void *to) {
    for (const uint8_t *p = from; p < (const uint8_t *)to; p++)
        if (*p != MARK) return false;
    return true;
}

static bool refused(uint64_t answer) {
    if (chaloenpik_refusal(answer) == 0) return false;
    printf("refused %u %lu\n", chaloenpik_refusal(answer), chaloenpik_value(answer));
    return true;
}

/* Prints what was found, or the refusal; and gives it, or 0. */
static size_t found(uint64_t answer) {
    if (refused(answer)) return 0;
    printf("%lu\n", chaloenpik_value(answer));
    return chaloenpik_value(answer);
}

/* Prints so many numbers, or the refusal; and says if anything else was written. */
static bool told(uint64_t answer, size_t count) {
    bool no = refused(answer);
    if (!all_marked(numbers + (no ? 0 : count), numbers + MOST_NUMBERS)) printf("written past the end, or on a refusal\n");
    for (size_t i = 0; !no && i < count; i++) printf("%lu%c", numbers[i], i + 1 < count ? ' ' : '\n');
    return !no;
}

/* The field list, by its length and its sum; and from its end on, where there is none. */
static void fields(uint8_t kind) {
    memset(entries, MARK, sizeof *entries);
    uint64_t answer = ASK(fields, kind, message, length, 0, entries, CHALOENPIK_ENTRY * MOST_ENTRIES);
    entry_count = chaloenpik_refusal(answer) == 0 ? chaloenpik_value(answer) : 0;
    if (!refused(answer)) printf("%lu %08x\n", entry_count, checksum((uint8_t *)entries, entry_count * CHALOENPIK_ENTRY * sizeof *entries));
    else if (!all_marked(entries, entries + 1)) printf("written on a refusal\n");
    refused(ASK(fields, kind, message, length, entry_count, numbers, MOST_NUMBERS));
}

/* What can be asked of any message. */
static void any(uint8_t kind) {
    found(ASK(accept, kind, message, length));
    found(ASK(field_count, kind, message, length));
    fields(kind);
    found(ASK(owner, kind, message, length, 0));
    found(ASK(owner, kind, message, length, length / 2));
    found(ASK(owner, kind, message, length, length));
}

/* A parameter, and its elements, one more than it has. */
static void parameter(size_t p) {
    bool is_array = told(ASK(parameter, message, length, p, fresh()), 4) && numbers[1] == CHALOENPIK_MANY;
    size_t count = is_array ? numbers[3] : 0;
    for (size_t e = 0; e <= count; e++) told(ASK(element, message, length, p, e, fresh()), 4);
}

static void invocation(void) {
    size_t count = told(ASK(invocation, message, length, fresh()), 6) ? numbers[4] : 0;
    for (size_t p = 0; p <= count; p++) parameter(p);
}

/* Opens a card, and asks whether it fits. */
static void open_card(size_t table, const uint8_t *bytes, size_t size) {
    found(ASK(open_card, message, length, table, bytes, size));
    told(ASK(card_fit, message, length, table, bytes, size, fresh()), 3);
}

/* Makes the card of a name in so much room, and prints the answer and all bytes that can be written. */
static bool make_card(size_t table, const uint8_t *bytes, size_t size, size_t room) {
    memset(card, MARK, sizeof card);
    uint64_t answer = ASK(make_card, message, length, table, bytes, size, card, room);
    bool made = chaloenpik_refusal(answer) == 0;
    if (!made) printf("refused %u ", chaloenpik_refusal(answer));
    printf("%lu ", chaloenpik_value(answer));
    for (size_t i = 0; i < sizeof card; i++) printf("%02x", card[i]);
    printf("\n");
    return made;
}

/* The columns that have a name in its own table and in the next; its card, made in a byte too little and then in more than enough; and the columns that this
   opens in both tables, or why it doesn't. */
static void name(size_t table, const uint8_t *bytes, size_t size) {
    size_t needed = chaloenpik_card_size(found(ASK(find_column, message, length, table, bytes, size)));
    found(ASK(find_column, message, length, table + 1, bytes, size));
    make_card(table, bytes, size, needed - 1);
    if (!make_card(table, bytes, size, sizeof card)) return;
    open_card(table, card, needed);
    open_card(table + 1, card, needed);
}

static void names(size_t table) {
    for (uint64_t *e = entries; e < entries + 6 * entry_count; e += 6) {
        if (e[2] != NAME_LENGTH || e[3] != table) continue;
        bool long_one = e + 6 < entries + 6 * entry_count && e[8] == NAME_LENGTH + 1;
        name(table, message + e[0] + 4, long_one ? e[7] : 0);
    }
}

/* A cell, and where its bytes stand. */
static void cell(size_t table, size_t row, size_t column) {
    told(ASK(cell, message, length, table, row, column, fresh()), 4);
    told(ASK(cell_place, message, length, table, row, column, fresh()), 2);
}

/* All of a table, or of one that isn't there. */
static void table(size_t t) {
    static const uint8_t torn[] = {0xc3}; /* no column has this name, and it is no text: it is searched for all the same */
    size_t rows = found(ASK(rows, message, length, t)), columns = found(ASK(columns, message, length, t));
    names(t);
    name(t, torn, sizeof torn);
    open_card(t, card, sizeof card); /* what isn't even a card */
    for (size_t c = 0; c <= columns; c++) {
        found(ASK(column_type, message, length, t, c));
        told(ASK(column_name, message, length, t, c, fresh()), 2);
    }
    for (size_t r = 0; r <= rows; r++)
        for (size_t c = 0; c <= columns; c++) cell(t, r, c);
}

static void response(void) {
    told(ASK(response, message, length, fresh()), 17);
    size_t tables = found(ASK(tables, message, length));
    for (size_t t = 0; t <= tables; t++) table(t);
}

static void shown(uint8_t kind) {
    any(kind);
    switch (kind) {
    case CHALOENPIK_LOGIN_REQUEST: told(ASK(login_request, message, length, fresh()), 9); break;
    case CHALOENPIK_LOGIN_RESPONSE: told(ASK(login_response, message, length, fresh()), 9); break;
    case CHALOENPIK_INVOCATION: invocation(); break;
    case CHALOENPIK_RESPONSE: response(); break;
    }
}

int main(void) {
    uint8_t head[5];
    while (fread(head, 1, sizeof head, stdin) == sizeof head) {
        size_t size = ((size_t)head[0] << 24 | (size_t)head[1] << 16 | (size_t)head[2] << 8 | head[3]) - 1;
        bool is_card = head[4] == CARD_FRAME, is_name = head[4] == MAKE_FRAME;
        if (size > MOST_SIZE || fread(is_card || is_name ? given : message, 1, size, stdin) != size) return 1;
        if (is_card) open_card(0, given, size);
        else if (!is_name) length = size, shown(head[4]);
        else if (size == 0 || given[0] > sizeof card) return 1;
        else make_card(0, given + 1, size - 1, given[0]);
        printf(".\n");
    }
    return 0;
}
