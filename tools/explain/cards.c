/* What the proved library says of a shortcut card over a table of a response, for `explain`. Standard input: the table's number, 8 bytes, the highest first;
   one byte, the card's size; the card; and the message. Standard output, numbers of 8 bytes, the lowest first: the answer of opening the card; that of asking
   whether it fits; and the three numbers of the latter, which stay 0 if it is refused. */
#include <chaloenpik.h>
#include <stdio.h>

enum { TABLE = 8 /* bytes of a table's number */, FIT = 3, NUMBERS = 2 + FIT };

static uint8_t card[CHALOENPIK_FAR_CARD + 1];      /* one byte more than the longest, */
static uint8_t message[CHALOENPIK_MOST_BYTES + 1]; /* to see that it is longer */

static size_t number_of(const uint8_t *from, int size) {
    size_t number = 0;
    for (int i = 0; i < size; i++) number = number << 8 | from[i];
    return number;
}

static bool put(uint64_t number) {
    uint8_t bytes[8];
    for (int i = 0; i < 8; i++) bytes[i] = (uint8_t)(number >> 8 * i);
    return fwrite(bytes, 1, sizeof bytes, stdout) == sizeof bytes;
}

int main(void) {
    uint8_t head[TABLE + 1];
    if (fread(head, 1, sizeof head, stdin) != sizeof head) return 2;
    size_t table = number_of(head, TABLE), size = head[TABLE];
    if (size > sizeof card || fread(card, 1, size, stdin) != size) return 2;
    size_t length = fread(message, 1, sizeof message, stdin);
    uint64_t said[NUMBERS] = {0};
    said[0] = chaloenpik_open_card(message, length, table, card, size);
    said[1] = chaloenpik_card_fit(message, length, table, card, size, said + NUMBERS - FIT);
    for (int i = 0; i < NUMBERS; i++) {
        if (!put(said[i])) return 2;
    }
    return fflush(stdout) == 0 ? 0 : 2;
}
