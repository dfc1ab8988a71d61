#pragma once
#include <stddef.h>
void free(void *memory);
void *realloc(void *memory, size_t size);
unsigned long long strtoull(const char *text, char **end, int base);
