/* What the programs share that carry out a row of calls from standard input: a frame for each call, and its arguments one after the other. */
#ifndef FRAME_H
#define FRAME_H

#include <stddef.h>
#include <stdint.h>
#include <stdio.h>
#include <stdlib.h>

static const uint8_t *next, *end;

static void fail(const char *what) {
    fprintf(stderr, "%s\n", what);
    exit(1);
}

static const uint8_t *take(size_t bytes) {
    if ((size_t)(end - next) < bytes) fail("a frame ends too early");
    next += bytes;
    return next - bytes;
}

static uint64_t big_endian(size_t bytes) {
    const uint8_t *from = take(bytes);
    uint64_t n = 0;
    for (size_t i = 0; i < bytes; i++) n = n << 8 | from[i];
    return n;
}

static uint64_t number(void) { return big_endian(8); }

static uint8_t byte(void) { return (uint8_t)number(); }

/* The size of the next frame, read into so many bytes; 0 where the input ends. */
static size_t next_frame(uint8_t *frame, size_t most) {
    uint8_t head[4];
    if (fread(head, 1, sizeof head, stdin) != sizeof head) return 0;
    next = head, end = head + sizeof head;
    size_t bytes = big_endian(4);
    if (bytes == 0 || bytes > most || fread(frame, 1, bytes, stdin) != bytes) fail("a frame is empty, too long or cut short");
    next = frame, end = frame + bytes;
    return bytes;
}

#endif
