/* The field lists of areas, which are bodies of geographies, for `explain`. Standard input is a row of frames: a size of 4 bytes, the highest first; one byte,
   1 if the holes are to be turned first; and the body. Standard output for each: the answer of the proved library, 8 bytes; and if it is no refusal six
   numbers of 4 bytes for each field, the lowest byte first, and the body as it stands now. */
#include <chaloenpik.h>
#include <stdio.h>

enum { MOST_BODY = 1 << 20 /* of a geography in a message */, MOST_NUMBERS = CHALOENPIK_ENTRY * MOST_BODY / 8 /* 8 bytes for a field, or more, on average */ };

static uint8_t frame[1 + MOST_BODY];
static uint64_t list[MOST_NUMBERS];
static uint8_t bytes[4 * MOST_NUMBERS];

static void put(uint8_t *to, uint64_t number, int size) {
    for (int i = 0; i < size; i++) to[i] = (uint8_t)(number >> 8 * i);
}

static bool write_bytes(const uint8_t *from, size_t size) { return fwrite(from, 1, size, stdout) == size; }

static bool put_answer(uint64_t answer) {
    put(bytes, answer, 8);
    return write_bytes(bytes, 8);
}

static bool put_area(uint8_t *body, size_t length, bool turned) {
    uint64_t answer = turned ? chaloenpik_area_turn_holes(body, length) : 0;
    if (chaloenpik_refusal(answer) == 0) answer = chaloenpik_area_fields(body, length, 0, list, MOST_NUMBERS);
    if (!put_answer(answer)) return false;
    if (chaloenpik_refusal(answer) != 0) return true;
    size_t numbers = CHALOENPIK_ENTRY * chaloenpik_value(answer);
    for (size_t i = 0; i < numbers; i++) put(bytes + 4 * i, list[i], 4);
    return write_bytes(bytes, 4 * numbers) && write_bytes(body, length);
}

int main(void) {
    uint8_t head[4];
    while (fread(head, 1, sizeof head, stdin) == sizeof head) {
        size_t size = (size_t)head[0] << 24 | (size_t)head[1] << 16 | (size_t)head[2] << 8 | head[3];
        if (size == 0 || size > sizeof frame || fread(frame, 1, size, stdin) != size) return 2;
        if (!put_area(frame + 1, size - 1, frame[0] == 1)) return 2;
    }
    return fflush(stdout) == 0 ? 0 : 2;
}
