#pragma once
#include <stddef.h>
typedef struct File FILE;
extern FILE *stdout, *stderr;
int fclose(FILE *file);
int feof(FILE *file);
int ferror(FILE *file);
FILE *fopen(const char *name, const char *mode);
size_t fread(void *to, size_t size, size_t count, FILE *file);
size_t fwrite(const void *from, size_t size, size_t count, FILE *file);
int fprintf(FILE *file, const char *format, ...) __attribute__((format(printf, 2, 3)));
int printf(const char *format, ...) __attribute__((format(printf, 1, 2)));
int putchar(int c);
int puts(const char *line);
