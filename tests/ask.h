/* What the programs share that print what the interface answers: a function is called with its name in front of its answer, so that answers can be
   counted by function; and the sum of some bytes. */
#ifndef ASK_H
#define ASK_H

#include <chaloenpik.h>
#include <stdint.h>
#include <stdio.h>

/* Prints a function's name without its prefix, and calls it. */
#define ASK(name, ...) (printf(#name " "), chaloenpik_##name(__VA_ARGS__))

/* The CRC-32 of some bytes, as zip files have it. */
static uint32_t checksum(const uint8_t *bytes, size_t count) {
    static uint32_t sums[256];
    for (uint32_t b = 0; sums[255] == 0 && b < 256; b++) {
        uint32_t sum = b;
        for (int i = 0; i < 8; i++) sum = sum >> 1 ^ (sum & 1 ? 0xedb88320 : 0);
        sums[b] = sum;
    }
    uint32_t sum = UINT32_MAX;
    for (size_t i = 0; i < count; i++) sum = sum >> 8 ^ sums[(sum ^ bytes[i]) & 255];
    return ~sum;
}

#endif
