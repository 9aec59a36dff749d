/* Carries out scripts of writer steps with the exported steps, to be held against the second writer. Standard input is a row of
   frames, a step each; each answer is a line. tests/second/steps.py says which. */
#include "ask.h"
#include "frame.h"
#include <string.h>

/* The steps, by the byte that names them. */
enum {
    BUFFER, FORGE, SHOW, LOGIN, LOGIN_REPLY, BEGIN_INVOCATION, BEGIN_REPLY, ADD_NULL, ADD_VALUE, ADD_BYTE_ARRAY, OPEN_ARRAY, ADD_ELEMENT,
    CLOSE_ARRAY, FINISH_INVOCATION, OPEN_TABLE, OPEN_ROW, ADD_CELL, CLOSE_ROW, WHOLE_ROW, CLOSE_TABLE, FINISH_REPLY
};

enum { MOST_FRAME = 1 << 22, MOST_BUFFER = 1 << 23, MOST_COLUMNS = 2 * CHALOENPIK_TYPES, MOST_NUMBERS = 2 * MOST_COLUMNS, PATTERN = 251 };

static uint8_t frame[MOST_FRAME], out[MOST_BUFFER], types[CHALOENPIK_TYPES];
static uint64_t state[CHALOENPIK_STATE];
static size_t size;

/* ---- The arguments, one after the other. */

typedef struct {
    bool null;
    const uint8_t *bytes;
    size_t size;
} part;

/* A null has bytes too, which aren't even text: nothing looks at them. */
static part counted(void) {
    static const uint8_t torn[] = {0xc3};
    uint32_t bytes = (uint32_t)big_endian(4);
    bool null = bytes == UINT32_MAX;
    part p = {null, null ? torn : take(bytes), null ? sizeof torn : bytes};
    return p;
}

/* A value by its bits, or by its bytes. */
typedef struct {
    uint8_t type;
    bool is_body;
    part body;
    uint64_t upper, lower;
} value;

static value taken_value(void) {
    value v = {.type = *take(1)};
    v.is_body = *take(1) == 1;
    if (v.is_body) v.body = counted();
    else v.upper = big_endian(8), v.lower = big_endian(8);
    return v;
}

/* ---- Steps. */

static uint64_t login(void) {
    uint8_t version = byte(), hash_version = byte();
    part service = counted(), user = counted(), hash = counted();
    return ASK(write_login_request, out, size, version, hash_version, service.bytes, service.size, user.bytes, user.size, hash.bytes, hash.size);
}

static uint64_t login_reply(void) {
    uint8_t version = byte(), result = byte();
    uint32_t host = (uint32_t)number();
    uint64_t connection = number(), start = number();
    big_endian(4); /* the leader's size, always 4 */
    uint32_t leader = (uint32_t)big_endian(4);
    part build = counted();
    return ASK(write_login_response, out, size, version, result, host, connection, start, leader, build.bytes, build.size);
}

static uint64_t begin_invocation(void) {
    uint8_t version = byte();
    part procedure = counted(), client = counted();
    return ASK(begin_call, out, size, state, version, procedure.bytes, procedure.size, client.bytes);
}

static uint64_t begin_reply(void) {
    uint8_t version = byte();
    part client = counted();
    uint8_t flags = byte(), status = byte();
    part status_string = counted();
    uint8_t application = byte();
    part application_string = counted();
    uint32_t round_trip = (uint32_t)number();
    part exception = counted();
    return ASK(begin_reply, out, size, state, version, client.bytes, flags, status, status_string.null, status_string.bytes, status_string.size,
               application, application_string.null, application_string.bytes, application_string.size, round_trip, exception.bytes, exception.size);
}

static uint64_t add_byte_array(void) {
    part body = counted();
    return ASK(bytes_param, out, size, state, body.bytes, body.size);
}

/* Values go to the step for their form, whatever their type. */

static uint64_t add_value(value v) {
    if (v.is_body) return ASK(body_param, out, size, state, v.type, v.body.null, v.body.bytes, v.body.size);
    return ASK(fixed_param, out, size, state, v.type, v.upper, v.lower);
}

static uint64_t add_element(value v) {
    if (v.is_body) return ASK(body_element, out, size, state, v.type, v.body.null, v.body.bytes, v.body.size);
    return ASK(fixed_element, out, size, state, v.type, v.upper, v.lower);
}

static uint64_t add_cell(value v) {
    if (v.is_body) return ASK(body_cell, out, size, state, types, v.type, v.body.null, v.body.bytes, v.body.size);
    return ASK(fixed_cell, out, size, state, types, v.type, v.upper, v.lower);
}

static uint64_t open_array(void) { return ASK(open_array, out, size, state, byte()); }

static uint64_t open_table(void) {
    static uint64_t columns[3 * MOST_COLUMNS];
    uint8_t status = byte();
    size_t count = big_endian(4);
    if (count > MOST_COLUMNS) exit(1);
    for (size_t k = 0; k < count; k++) {
        columns[3 * k] = *take(1);
        columns[3 * k + 1] = number();
        columns[3 * k + 2] = number();
    }
    part names = counted();
    return ASK(open_table, out, size, state, types, status, columns, 3 * count, names.bytes, names.size);
}

static bool is_body(uint8_t type) { return type == CHALOENPIK_STRING || type == CHALOENPIK_VARBINARY || type == CHALOENPIK_GEOGRAPHY; }

/* A cell of a whole row, by its own step. */
static uint64_t next_cell(uint8_t *to, uint64_t *at, uint8_t type, uint64_t first, uint64_t second, part lent) {
    if (!is_body(type)) return chaloenpik_fixed_cell(to, size, at, types, type, first, second);
    if (second == CHALOENPIK_NULL_SIZE) return chaloenpik_body_cell(to, size, at, types, type, true, lent.bytes, lent.size);
    if (first > lent.size || second > lent.size - first) return CHALOENPIK_PAST_END;
    return chaloenpik_body_cell(to, size, at, types, type, false, lent.bytes + first, second);
}

static uint64_t row_by_steps(uint8_t *to, uint64_t *at, const uint64_t *cells, size_t count, part lent) {
    uint64_t columns = at[10], answer = chaloenpik_open_row(to, size, at, types);
    for (size_t k = 0; k < count / 2 && chaloenpik_refusal(answer) == 0; k++)
        answer = next_cell(to, at, k < columns ? types[k] : 0, cells[2 * k], cells[2 * k + 1], lent);
    return chaloenpik_refusal(answer) == 0 ? chaloenpik_close_row(to, size, at, types) : answer;
}

/* Beside it the row by its steps, on a buffer and a state of their own. It must answer what they do, and leave all that they do, in numbers that mean
   nothing at its stage too; if it is refused, `step` and the checksum tell what it left. */
static uint64_t whole_row(void) {
    static uint64_t cells[MOST_NUMBERS], other_state[CHALOENPIK_STATE];
    static uint8_t other[MOST_BUFFER];
    size_t count = big_endian(4);
    if (count > MOST_NUMBERS) exit(1);
    for (size_t k = 0; k < count; k++) cells[k] = number();
    part lent = counted();
    memcpy(other, out, size);
    memcpy(other_state, state, sizeof state);
    uint64_t wanted = row_by_steps(other, other_state, cells, count, lent);
    uint64_t answer = ASK(whole_row, out, size, state, types, cells, count, lent.bytes, lent.size);
    bool alike = chaloenpik_refusal(answer) != 0 || (memcmp(other, out, size) == 0 && memcmp(other_state, state, sizeof state) == 0);
    if (answer != wanted || !alike) printf("not as by its steps ");
    return answer;
}

/* ---- What is no step. */

static void buffer(void) {
    size = number();
    if (size > MOST_BUFFER) exit(1);
    for (size_t i = 0; i < size; i++) out[i] = i % PATTERN;
    memset(state, 0, sizeof state);
    memset(types, 0, sizeof types);
}

static void forge(void) {
    for (size_t i = 0; i < CHALOENPIK_STATE; i++) state[i] = number();
    part forged = counted();
    if (forged.size != sizeof types) exit(1);
    memcpy(types, forged.bytes, sizeof types);
}

static void show(void) {
    static char hex[2 * MOST_BUFFER + 1];
    for (size_t i = 0; i < size; i++) {
        hex[2 * i] = "0123456789abcdef"[out[i] >> 4];
        hex[2 * i + 1] = "0123456789abcdef"[out[i] & 15];
    }
    hex[2 * size] = 0;
    printf("%lu %s\n", state[1], size == 0 ? "-" : hex);
}

/* The stage, the position, what is open at that stage, and the checksums of all types, whatever is open, and of the buffer. */
static void print_left(void) {
    enum { CALL = 1, ARRAY = 2, TABLE = 4, ROW = 5 };
    uint64_t stage = state[0];
    printf("%lu %lu", stage, state[1]);
    if (stage >= CALL && stage <= ROW) printf(" %lu %lu", state[2], state[3]);
    if (stage == ARRAY) printf(" %lu %lu %lu", state[4], state[5], state[6]);
    if (stage == ROW) printf(" %lu %lu", state[4], state[6]);
    if (stage == TABLE || stage == ROW) printf(" %lu %lu %lu %lu", state[7], state[8], state[9], state[10]);
    printf(" %08x %08x\n", checksum(types, sizeof types), checksum(out, size));
}

static uint64_t stepped(uint8_t name) {
    switch (name) {
    case LOGIN: return login();
    case LOGIN_REPLY: return login_reply();
    case BEGIN_INVOCATION: return begin_invocation();
    case BEGIN_REPLY: return begin_reply();
    case ADD_NULL: return ASK(null_param, out, size, state);
    case ADD_VALUE: return add_value(taken_value());
    case ADD_BYTE_ARRAY: return add_byte_array();
    case OPEN_ARRAY: return open_array();
    case ADD_ELEMENT: return add_element(taken_value());
    case CLOSE_ARRAY: return ASK(close_array, out, size, state);
    case FINISH_INVOCATION: return ASK(finish_call, out, size, state);
    case OPEN_TABLE: return open_table();
    case OPEN_ROW: return ASK(open_row, out, size, state, types);
    case ADD_CELL: return add_cell(taken_value());
    case CLOSE_ROW: return ASK(close_row, out, size, state, types);
    case WHOLE_ROW: return whole_row();
    case CLOSE_TABLE: return ASK(close_table, out, size, state, types);
    case FINISH_REPLY: return ASK(finish_reply, out, size, state);
    default: exit(1);
    }
}

/* Takes a step, and says what it answers and what it left. The answer must have the position that the state has then, but a login's, which keeps none. A
   refusal must leave every number of the state and every type as it was. */
static void step(uint8_t name) {
    uint64_t state_before[CHALOENPIK_STATE];
    uint8_t types_before[CHALOENPIK_TYPES];
    memcpy(state_before, state, sizeof state);
    memcpy(types_before, types, sizeof types);
    uint64_t answer = stepped(name);
    if (chaloenpik_refusal(answer) == 0) {
        printf("fine\n");
        if (name != LOGIN && name != LOGIN_REPLY && chaloenpik_value(answer) != state[1]) printf("answered another position\n");
    } else {
        printf("refused %u %lu\n", chaloenpik_refusal(answer), chaloenpik_value(answer));
        if (memcmp(state_before, state, sizeof state) != 0 || memcmp(types_before, types, sizeof types) != 0) printf("changed by a refusal\n");
    }
    print_left();
}

static void one(uint8_t name) {
    if (name == BUFFER) buffer();
    else if (name == FORGE) forge();
    else if (name == SHOW) show();
    else step(name);
}

int main(void) {
    while (next_frame(frame, MOST_FRAME) != 0) one(*take(1));
    return 0;
}
