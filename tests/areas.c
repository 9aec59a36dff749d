/* Carries out calls on the bodies of geographies, and steps of writing them, with the exported functions, to be held against the second
   reader and writer. Standard input is a row of frames, a call each; each answer is a line. tests/second/area_calls.py says which. */
#include "ask.h"
#include "frame.h"
#include <string.h>

/* The calls, by the byte that names them. */
enum {
    BODY, BUFFER, FORGE, TAKE, RINGS, RING, VERTEX, RING_KEPT, KEPT, FIELD_COUNT, FIELDS, OWNER, TURN, SHOW, BEGIN, OPEN_RING, ADD_VERTEX,
    CLOSE_RING, FINISH
};

enum {
    MOST_BYTES = 5 << 20, MOST_ENTRIES = MOST_BYTES / 8, MOST_SHOWN = 1 << 16, PATTERN = 251, MARK = 85,
    SPARE = 32 /* behind all that is lent, marked, to see that nothing is written there */
};

static uint8_t frame[MOST_BYTES], body[MOST_BYTES + SPARE], out[MOST_BYTES + SPARE];
static uint64_t list[CHALOENPIK_ENTRY * MOST_ENTRIES + SPARE], state[CHALOENPIK_AREA_STATE];
static size_t length, size; /* of the body, and of the buffer */

/* Bytes that must be so many. */
static const uint8_t *block(size_t bytes) {
    if (big_endian(4) != bytes) fail("a block has another size");
    return take(bytes);
}

/* ---- Answers. */

static void print_bytes(const uint8_t *bytes, size_t count) {
    if (count > MOST_SHOWN) printf("%08x", checksum(bytes, count));
    for (size_t i = 0; count <= MOST_SHOWN && i < count; i++) printf("%02x", bytes[i]);
    if (count == 0) printf("-");
}

/* Says whether a call was carried out, and what was found, or its refusal. */
static bool answered(uint64_t answer) {
    bool fine = chaloenpik_refusal(answer) == 0;
    if (fine) printf("fine %lu", chaloenpik_value(answer));
    else printf("refused %u %lu", chaloenpik_refusal(answer), chaloenpik_value(answer));
    return fine;
}

static void mark(void *from, size_t bytes) { memset(from, MARK, bytes); }

static void check_marked(const void *from, size_t bytes) {
    for (size_t i = 0; i < bytes; i++)
        if (((const uint8_t *)from)[i] != MARK) {
            printf(" written past the end, or on a refusal");
            return;
        }
}

/* ---- Calls on a body. */

static uint64_t *lent(size_t numbers) {
    mark(list, (numbers + SPARE) * sizeof *list);
    return list;
}

/* Prints the numbers that were written into so many lent ones, and says if any other was. */
static void print_list(size_t written, size_t numbers) {
    for (size_t i = 0; i < written; i++) printf(" %lu", list[i]);
    check_marked(list + written, (numbers + SPARE - written) * sizeof *list);
}

static void told(uint64_t answer, size_t numbers) { print_list(answered(answer) ? numbers : 0, numbers); }

static void ring(void) { told(ASK(area_ring, body, length, number(), lent(3)), 3); }

static void vertex(void) {
    size_t r = number(), v = number();
    told(ASK(area_vertex, body, length, r, v, lent(3)), 3);
}

static void fields(void) {
    size_t first = number(), numbers = number();
    if (numbers > CHALOENPIK_ENTRY * MOST_ENTRIES) fail("a list is too long");
    uint64_t answer = ASK(area_fields, body, length, first, lent(numbers), numbers);
    size_t written = answered(answer) ? CHALOENPIK_ENTRY * chaloenpik_value(answer) : 0;
    print_list(written < numbers ? written : numbers, numbers);
}

static void turn(void) {
    answered(ASK(area_turn_holes, body, length));
    putchar(' ');
    print_bytes(body, length);
    check_marked(body + length, SPARE);
}

/* ---- Steps. */

static uint64_t stepped(uint8_t name) {
    if (name == BEGIN) {
        uint8_t edition = byte(), internal = byte();
        return ASK(area_begin, out, size, state, edition, internal);
    }
    if (name == OPEN_RING) return ASK(area_open_ring, out, size, state, byte());
    if (name == ADD_VERTEX) {
        uint64_t x = number(), y = number(), z = number();
        return ASK(area_add_vertex, out, size, state, x, y, z);
    }
    if (name == CLOSE_RING) return ASK(area_close_ring, out, size, state, block(CHALOENPIK_RING_KEPT));
    return ASK(area_finish, out, size, state, block(CHALOENPIK_AREA_KEPT));
}

static void step(uint8_t name) {
    answered(stepped(name));
    for (size_t i = 0; i < CHALOENPIK_AREA_STATE; i++) printf(" %lu", state[i]);
    if (size <= MOST_SHOWN) printf(" %08x", checksum(out, size));
    check_marked(out + size, SPARE);
}

/* ---- What is no call. */

static void take_body(const uint8_t *from, size_t bytes) {
    if (bytes > MOST_BYTES) fail("a body is too long");
    length = bytes;
    memcpy(body, from, length);
    mark(body + length, SPARE);
}

static void buffer(void) {
    size = number();
    if (size > MOST_BYTES) fail("a buffer is too long");
    for (size_t i = 0; i < size; i++) out[i] = i % PATTERN;
    mark(out + size, SPARE);
    memset(state, 0, sizeof state);
}

static void forge(void) {
    for (size_t i = 0; i < CHALOENPIK_AREA_STATE; i++) state[i] = number();
}

static bool silent(uint8_t name) {
    if (name == BODY) {
        size_t bytes = big_endian(4);
        take_body(take(bytes), bytes);
    } else if (name == BUFFER) buffer();
    else if (name == FORGE) forge();
    else if (name == TAKE) take_body(out, state[1]);
    else return false;
    return true;
}

static void call(uint8_t name) {
    if (silent(name)) return;
    switch (name) {
    case RINGS: answered(ASK(area_rings, body, length)); break;
    case RING: ring(); break;
    case VERTEX: vertex(); break;
    case RING_KEPT: told(ASK(area_ring_kept, body, length, number(), lent(2)), 2); break;
    case KEPT: told(ASK(area_kept, body, length, lent(2)), 2); break;
    case FIELD_COUNT: answered(ASK(area_field_count, body, length)); break;
    case FIELDS: fields(); break;
    case OWNER: answered(ASK(area_owner, body, length, number())); break;
    case TURN: turn(); break;
    case SHOW: print_bytes(out, size); break;
    default: step(name); break;
    }
    putchar('\n');
}

int main(void) {
    while (next_frame(frame, MOST_BYTES) != 0) {
        uint8_t name = *take(1);
        if (name > FINISH) fail("no such call");
        call(name);
    }
    return 0;
}
