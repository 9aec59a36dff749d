/* The field list of a message of any size, for `explain`. Standard input: one byte of kind, then the message. Standard output: the answer of the
   proved library, 8 bytes, and if it is no refusal six numbers of 4 bytes for each field, the lowest byte first. */
#include <chaloenpik.h>
#include <stdio.h>

enum { WINDOW = CHALOENPIK_ENTRY << 20 /* numbers asked for at once: each window is a walk over the message */ };

static uint8_t input[1 + CHALOENPIK_MOST_BYTES + 1]; /* one byte more than the longest, to see that it is longer */
static uint64_t window[WINDOW];
static uint8_t bytes[4 * WINDOW];

static void put(uint8_t *to, uint64_t number, int size) {
    for (int i = 0; i < size; i++) to[i] = (uint8_t)(number >> 8 * i);
}

static bool write_bytes(size_t size) { return fwrite(bytes, 1, size, stdout) == size; }

static bool put_fields(uint8_t kind, const uint8_t *message, size_t length, uint64_t count) {
    for (uint64_t first = 0; first < count; first += WINDOW / CHALOENPIK_ENTRY) {
        uint64_t answer = chaloenpik_fields(kind, message, length, first, window, WINDOW);
        if (chaloenpik_refusal(answer) != 0) return false;
        size_t numbers = CHALOENPIK_ENTRY * chaloenpik_value(answer);
        for (size_t i = 0; i < numbers; i++) put(bytes + 4 * i, window[i], 4);
        if (!write_bytes(4 * numbers)) return false;
    }
    return true;
}

int main(void) {
    size_t size = fread(input, 1, sizeof input, stdin);
    if (size == 0) return 2;
    uint64_t answer = chaloenpik_field_count(input[0], input + 1, size - 1);
    put(bytes, answer, 8);
    bool fine = write_bytes(8);
    if (fine && chaloenpik_refusal(answer) == 0) fine = put_fields(input[0], input + 1, size - 1, chaloenpik_value(answer));
    return fine && fflush(stdout) == 0 ? 0 : 2;
}
