/* name NAME BYTES: writes a call with a name of at most so many bytes, and prints what is left of it.

   A cut inside a character leaves no text: that is refused 20, nothing is written, and the step may be tried again. So the name is then cut where
   the character begins. */
#include "input.h"
#include <string.h>

static uint8_t out[4096];
static uint64_t state[CHALOENPIK_STATE];

static uint64_t write_name(const uint8_t *name, size_t size) {
    return chaloenpik_body_param(out, sizeof out, state, CHALOENPIK_STRING, false, name, size);
}

/* The place of a cut, or of the character that it tears: bytes from 0x80 to 0xbf go on with one. */
static size_t whole_characters(const uint8_t *name, size_t cut) {
    while (cut > 0 && (name[cut] & 0xc0) == 0x80) cut--;
    return cut;
}

/* Writes the name up to a cut, and gives how many bytes of it were written. */
static size_t write_cut(const uint8_t *name, size_t cut) {
    uint64_t answer = write_name(name, cut);
    if (chaloenpik_refusal(answer) == CHALOENPIK_BAD_TEXT) {
        printf("its first %lu bytes are no text\n", (unsigned long)cut);
        cut = whole_characters(name, cut);
        answer = write_name(name, cut);
    }
    found("name", answer);
    return cut;
}

int main(int count, char **words) {
    static const uint8_t procedure[] = "Hire", client[8] = {0};
    long most;
    if (count != 3 || !read_number(words[2], 0, INT64_MAX, &most)) {
        fprintf(stderr, "usage: name NAME BYTES\n");
        return 2;
    }
    size_t size = strlen(words[1]);
    found("call", chaloenpik_begin_call(out, sizeof out, state, 1, procedure, sizeof procedure - 1, client));
    size_t left = write_cut((const uint8_t *)words[1], size > (size_t)most ? (size_t)most : size);
    found("call", chaloenpik_finish_call(out, sizeof out, state));
    printf("%lu of %lu bytes: %.*s\n", (unsigned long)left, (unsigned long)size, (int)left, words[1]);
    return 0;
}
