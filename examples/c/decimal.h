/* Prints a decimal by its upper and lower 64 bits. It counts units of 10^-12, and -2^127 is null. */
#pragma once
#include <stdbool.h>
#include <stdint.h>
#include <stdio.h>

static inline void print_decimal(uint64_t upper, uint64_t lower) {
    __extension__ typedef unsigned __int128 wide;
    const wide one = 1000000000000;
    wide units = (wide)upper << 64 | lower;
    if (units == (wide)1 << 127) {
        printf("null");
        return;
    }
    bool negative = upper >> 63 != 0;
    if (negative) units = -units;
    char digits[40];
    int count = 0;
    wide whole = units / one;
    do digits[count++] = (char)('0' + (int)(whole % 10)); while ((whole /= 10) != 0);
    if (negative) printf("-");
    while (count > 0) printf("%c", digits[--count]);
    printf(".%012lu", (unsigned long)(units % one));
}
