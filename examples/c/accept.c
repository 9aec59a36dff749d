/* accept KIND FILE: says whether a file holds a message of a kind, and if not, the refusal's number, its place and what it means. */
#include "input.h"

static uint8_t message[CHALOENPIK_MOST_BYTES + 1];

int main(int count, char **words) {
    long kind;
    if (count != 3 || !read_number(words[1], 0, UINT8_MAX, &kind)) {
        fprintf(stderr, "usage: accept KIND FILE, with a kind from 1 to 4\n");
        return 2;
    }
    size_t length = read_file(words[2], message, sizeof message);
    found("message", chaloenpik_accept((uint8_t)kind, message, length));
    printf("accepted, %s of %lu bytes\n", chaloenpik_kind_text((uint64_t)kind), (unsigned long)length);
    return 0;
}
