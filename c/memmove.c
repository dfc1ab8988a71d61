/* The one name that LLVM calls for copies, so that libuefi_formats_user.a wants none. tools/build_c makes it a
 * name of the archive's own.
 */
#include <stddef.h>

void *memmove(void *to, const void *from, size_t n) {
    void *end = to;
    if ((size_t)to - (size_t)from >= n) {
        __asm__ volatile("rep movsb" : "+D"(end), "+S"(from), "+c"(n) : : "memory");
    } else {
        end = (char *)to + n - 1;
        from = (const char *)from + n - 1;
        __asm__ volatile("std\n\trep movsb\n\tcld" : "+D"(end), "+S"(from), "+c"(n) : : "memory");
    }
    return to;
}
