#pragma once
#include <stddef.h>
#ifdef __cplusplus
extern "C" {
#endif
typedef struct _IO_FILE FILE;
extern FILE *stdin, *stdout, *stderr;
FILE *fopen(const char *__restrict path, const char *__restrict mode);
size_t fread(void *__restrict to, size_t size, size_t count, FILE *__restrict from);
size_t fwrite(const void *__restrict from, size_t size, size_t count, FILE *__restrict to);
int ferror(FILE *file);
int fclose(FILE *file);
int fflush(FILE *file);
int putchar(int byte);
void perror(const char *what);
int printf(const char *__restrict format, ...) __attribute__((format(printf, 1, 2)));
int fprintf(FILE *__restrict file, const char *__restrict format, ...) __attribute__((format(printf, 2, 3)));
#ifdef __cplusplus
}
#endif
