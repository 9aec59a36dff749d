/* Writes a response anew, value by value, from its own bytes: by the plain writer, and by the proved one. What is read for it, and how, is
   the same for both. The response has no flags set, as those of shapes.c. */
#pragma once
#include <stddef.h>
#include <stdint.h>

/* The size of what was written, above the low 8 bits; or the first refusal, as the C interface answers one. */
uint64_t rewrite_plain(const uint8_t *message, size_t size, uint8_t *out, size_t room);
uint64_t rewrite_proved(const uint8_t *message, size_t size, uint8_t *out, size_t room);

/* The same, but the cells of a row are listed, and it is written by one call. */
uint64_t rewrite_rows_plain(const uint8_t *message, size_t size, uint8_t *out, size_t room);
uint64_t rewrite_rows_proved(const uint8_t *message, size_t size, uint8_t *out, size_t room);

/* An area, vertex by vertex. */
uint64_t rewrite_area_plain(const uint8_t *body, size_t size, uint8_t *out, size_t room);
uint64_t rewrite_area_proved(const uint8_t *body, size_t size, uint8_t *out, size_t room);
