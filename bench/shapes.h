/* The messages that are measured, and the bodies of geographies: one maker for each shape, for any size (those for
   questions about columns have one of their own). */
#pragma once
#include <stddef.h>
#include <stdint.h>

typedef struct {
    const char *name;
    const char *what;
    size_t (*make)(uint8_t *buffer, size_t size); /* at most `size` bytes; gives how many, 0 where there is no room for one */
} shape;

extern const shape shapes[], column_shapes[], report_shapes[], wide_shapes[], area_shapes[];
extern const size_t shape_count, column_shape_count, report_shape_count, wide_shape_count, area_shape_count;
