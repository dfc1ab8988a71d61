#pragma once
#include <stddef.h>
int strcmp(const char *one, const char *other);
size_t strlen(const char *text);
size_t strspn(const char *text, const char *accepted);
int memcmp(const void *one, const void *other, size_t n);
void *memcpy(void *to, const void *from, size_t n);
