/* The field list of a message or an area, and the numbers at its entries. */
#pragma once
#include "input.h"

/* An entry, as the library writes it. */
struct field {
    uint64_t offset, size, number, i, j, k;
};

struct fields {
    struct field *first, *end;
};

/* Room for so many entries. */
static inline struct fields new_fields(size_t count) {
    struct field *first = (struct field *)calloc(count, sizeof *first);
    if (first == NULL) {
        perror("field list");
        exit(2);
    }
    return (struct fields){first, first + count};
}

/* All fields of a message, in one pass: one call says how many there are, and one writes them. */
static inline struct fields list_fields(uint8_t kind, const uint8_t *message, size_t length) {
    size_t count = found("message", chaloenpik_field_count(kind, message, length));
    struct fields list = new_fields(count);
    found("message", chaloenpik_fields(kind, message, length, 0, (uint64_t *)list.first, count * CHALOENPIK_ENTRY));
    return list;
}

/* All fields of an area; their places are in its body. */
static inline struct fields list_area(const uint8_t *body, size_t length) {
    size_t count = found("area", chaloenpik_area_field_count(body, length));
    struct fields list = new_fields(count);
    found("area", chaloenpik_area_fields(body, length, 0, (uint64_t *)list.first, count * CHALOENPIK_ENTRY));
    return list;
}

/* The bits of a number of at most 8 bytes. */
static inline uint64_t bits_at(const uint8_t *bytes, size_t size) {
    uint64_t bits = 0;
    for (size_t i = 0; i < size; i++) bits = bits << 8 | bytes[i];
    return bits;
}
