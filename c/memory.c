/* The names that rustc and LLVM call for copies and comparisons of memory. tools/build_c makes them names of the archive's
 * own. With HAS_MEMMOVE, memmove is that of memmove.c. */
#include <stddef.h>

void *memcpy(void *to, const void *from, size_t n);
void *memmove(void *to, const void *from, size_t n);
void *memset(void *to, int byte, size_t n);
int memcmp(const void *one, const void *other, size_t n);
int bcmp(const void *one, const void *other, size_t n);

void *memcpy(void *to, const void *from, size_t n) {
    unsigned char *a = to;
    const unsigned char *b = from;
    for (size_t i = 0; i < n; i++)
        a[i] = b[i];
    return to;
}

#ifndef HAS_MEMMOVE
void *memmove(void *to, const void *from, size_t n) {
    unsigned char *a = to;
    const unsigned char *b = from;
    if ((size_t)a - (size_t)b >= n)
        return memcpy(to, from, n);
    while (n--)
        a[n] = b[n];
    return to;
}
#endif

void *memset(void *to, int byte, size_t n) {
    unsigned char *a = to;
    for (size_t i = 0; i < n; i++)
        a[i] = (unsigned char)byte;
    return to;
}

int memcmp(const void *one, const void *other, size_t n) {
    const unsigned char *a = one, *b = other;
    for (size_t i = 0; i < n; i++)
        if (a[i] != b[i])
            return a[i] - b[i];
    return 0;
}

int bcmp(const void *one, const void *other, size_t n) {
    return memcmp(one, other, n);
}
