/* What the examples are given: files, numbers and answers. What can't be read ends the program with status 2, a refusal with 1. */
#pragma once
#include <chaloenpik_words.h>
#include <errno.h>
#include <stdio.h>
#include <stdlib.h>

/* Reads a file, or its first `most` bytes, and gives their number. With room for one byte more than a message or a card may have, the
   library refuses a longer file as it refuses those bytes. */
static inline size_t read_file(const char *name, uint8_t *to, size_t most) {
    FILE *file = fopen(name, "rb");
    size_t size = file == NULL ? 0 : fread(to, 1, most, file);
    if (file == NULL || ferror(file)) {
        perror(name);
        exit(2);
    }
    fclose(file);
    return size;
}

/* Whether a word is a whole number from `least` to `most`, and it. */
static inline bool read_number(const char *word, long least, long most, long *number) {
    char *end;
    errno = 0;
    *number = strtol(word, &end, 10);
    return errno == 0 && end != word && *end == '\0' && least <= *number && *number <= most;
}

/* What was found; a refusal is told, and ends the program. */
static inline uint64_t found(const char *what, uint64_t answer) {
    unsigned refusal = chaloenpik_refusal(answer);
    if (refusal != 0) {
        printf("%s: refused %u at %lu: %s\n", what, refusal, (unsigned long)chaloenpik_value(answer), chaloenpik_refusal_text(refusal));
        exit(1);
    }
    return chaloenpik_value(answer);
}
