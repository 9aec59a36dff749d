/* What the plain reader and the plain writer share: numbers, limits and the rules of values. */
#pragma once
#include "plain.h"
#include <string.h>

enum {
    NO_ROOM = 1, BAD_SIGN = 2, LIMIT = 3, LEFT_OVER = 4, BAD_VERSION = 5, BAD_TYPE = 6, OUTPUT = 8, NO_COLUMN = 9, STALE = 10, PAST_END = 11, CARD_FORM = 12,
    STAGE = 13, BAD_TEXT = 20, BAD_DECIMAL = 21, BAD_POINT = 22, BAD_FLAGS = 23, BAD_NAME = 24, BAD_GEOGRAPHY = 25
};

enum { MOST_MESSAGE = 4194304, MOST_BODY = 1048576, MOST_ROW = 2097152, MOST_ITEMS = 32767 };

enum { FLAG_STATUS = 32, FLAG_EXCEPTION = 64, FLAG_APPLICATION = 128, OTHER_FLAGS = 31 };

/* A shortcut card: its kind, a position of one byte (near) or of two (far), the type, the name's length, and a place for the name. */
enum { NEAR_KIND = 1, FAR_KIND = 2, NEAR_CARD = 36, FAR_CARD = 37, FAR_POSITION = 64, CARD_NAME = 32 };
enum { FITS, COLUMN_PAST, OTHER_TYPE, OTHER_NAME };

/* An area: where its parts stand and how many bytes they have. */
enum { HOLES_AT = 2, RINGS_AT = 3, AREA_HEAD = 7, RING_HEAD = 5, VERTEX = 24, RING_KEPT = 38, AREA_KEPT = 33, LEAST_VERTICES = 3 };

static inline uint32_t load16(const uint8_t *p) { return (uint32_t)p[0] << 8 | p[1]; }

static inline uint32_t load32(const uint8_t *p) {
    uint32_t bits;
    memcpy(&bits, p, 4);
    return __builtin_bswap32(bits);
}

static inline uint64_t load64(const uint8_t *p) {
    uint64_t bits;
    memcpy(&bits, p, 8);
    return __builtin_bswap64(bits);
}

static inline void store16(uint8_t *p, uint32_t n) {
    p[0] = (uint8_t)(n >> 8);
    p[1] = (uint8_t)n;
}

static inline void store32(uint8_t *p, uint32_t n) {
    n = __builtin_bswap32(n);
    memcpy(p, &n, 4);
}

static inline void store64(uint8_t *p, uint64_t n) {
    n = __builtin_bswap64(n);
    memcpy(p, &n, 8);
}

/* The size of a value of a fixed type; 0 for a counted or unknown one. */
static inline size_t fixed_size(uint8_t type) {
    switch (type) {
    case PLAIN_TINYINT: return 1;
    case PLAIN_SMALLINT: return 2;
    case PLAIN_INTEGER: return 4;
    case PLAIN_BIGINT: case PLAIN_FLOAT: case PLAIN_TIMESTAMP: return 8;
    case PLAIN_DECIMAL: case PLAIN_POINT: return 16;
    default: return 0;
    }
}

static inline bool is_counted(uint8_t type) { return type == PLAIN_STRING || type == PLAIN_VARBINARY || type == PLAIN_GEOGRAPHY; }

static inline bool is_column_type(uint8_t type) { return fixed_size(type) != 0 || is_counted(type); }

static inline bool decimal_fine(uint64_t upper, uint64_t lower) {
    __extension__ typedef __int128 wide;
    __extension__ typedef unsigned __int128 bits;
    const wide ten_to_19 = 10000000000000000000ULL, most = ten_to_19 * ten_to_19 - 1;
    wide units = (wide)((bits)upper << 64 | lower);
    bool is_null = upper == (uint64_t)1 << 63 && lower == 0;
    return (-most <= units && units <= most) || is_null;
}

static inline double float_of(uint64_t bits) {
    double x;
    memcpy(&x, &bits, 8);
    return x;
}

static inline bool is_null_point(uint64_t first, uint64_t second) { return float_of(first) == 360.0 && float_of(second) == 360.0; }

static inline bool point_fine(uint64_t first, uint64_t second) {
    double longitude = float_of(first), latitude = float_of(second);
    bool is_position = -180.0 <= longitude && longitude <= 180.0 && -90.0 <= latitude && latitude <= 90.0;
    return is_position || is_null_point(first, second);
}

/* The high bits of eight bytes: none if all are ASCII. */
static inline uint64_t high_bits(const uint8_t *p) {
    uint64_t bits;
    memcpy(&bits, p, 8);
    return bits & 0x8080808080808080;
}

static inline size_t first_high(uint64_t bits) { return (size_t)__builtin_ctzll(bits) / 8; }

/* How many bytes of ASCII a text begins with. Eight are looked at together, the last eight too, though some of these were seen before. */
static inline size_t ascii_run(const uint8_t *text, size_t size) {
    size_t at = 0;
    if (size < 8) {
        while (at < size && text[at] < 0x80) at++;
        return at;
    }
    for (; size - at >= 8; at += 8) {
        uint64_t high = high_bits(text + at);
        if (high != 0) return at + first_high(high);
    }
    uint64_t high = high_bits(text + size - 8);
    return high == 0 ? size : size - 8 + first_high(high);
}

static inline bool continues(uint8_t byte) { return (byte & 0xc0) == 0x80; }

/* The size of the well-formed sequence of several bytes that a text begins with; 0 if there is none. Its first two bytes tell overlong forms,
   surrogates and what is above U+10FFFF. */
static inline size_t sequence(const uint8_t *text, size_t size) {
    uint8_t lead = text[0];
    if (lead < 0xc2 || lead > 0xf4) return 0;
    if (lead < 0xe0) return size >= 2 && continues(text[1]) ? 2 : 0;
    if (lead < 0xf0) {
        if (size < 3 || !continues(text[1]) || !continues(text[2])) return 0;
        return (lead == 0xe0 && text[1] < 0xa0) || (lead == 0xed && text[1] > 0x9f) ? 0 : 3;
    }
    if (size < 4 || !continues(text[1]) || !continues(text[2]) || !continues(text[3])) return 0;
    return (lead == 0xf0 && text[1] < 0x90) || (lead == 0xf4 && text[1] > 0x8f) ? 0 : 4;
}

/* How many bytes of a text, from its first on, are well-formed UTF-8 by RFC 3629. */
static inline size_t well_formed(const uint8_t *text, size_t size) {
    size_t at = 0;
    while (at < size) {
        size_t passed = text[at] < 0x80 ? ascii_run(text + at, size - at) : sequence(text + at, size - at);
        if (passed == 0) return at;
        at += passed;
    }
    return at;
}
