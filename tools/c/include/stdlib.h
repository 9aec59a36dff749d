#pragma once
#include <stddef.h>
#ifdef __cplusplus
extern "C" {
#endif
void *malloc(size_t size);
void *calloc(size_t count, size_t size);
void free(void *place);
void qsort(void *first, size_t count, size_t size, int (*compare)(const void *, const void *));
long strtol(const char *__restrict text, char **__restrict end, int base);
__attribute__((noreturn)) void exit(int status);
#ifdef __cplusplus
}
#endif
