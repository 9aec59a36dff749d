/* The kit's clang brings no C headers. These few, in tools/c/include, have what the C files of this repository use. */
#pragma once
typedef __UINT8_TYPE__ uint8_t;
typedef __UINT16_TYPE__ uint16_t;
typedef __UINT32_TYPE__ uint32_t;
typedef __UINT64_TYPE__ uint64_t;
typedef __INT8_TYPE__ int8_t;
typedef __INT16_TYPE__ int16_t;
typedef __INT32_TYPE__ int32_t;
typedef __INT64_TYPE__ int64_t;
#define INT32_MAX 2147483647
#define INT64_MAX 9223372036854775807L
#define UINT32_MAX 4294967295U
#define UINT8_MAX 255
#define UINT16_MAX 65535
#define UINT64_MAX 18446744073709551615UL
#define INT64_MIN (-9223372036854775807L - 1)
