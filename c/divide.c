/* The name that rustc calls to divide numbers of 64 bits where the processor divides those of 32. rust/capi/build_archive
 * makes it a name of the archive's own. */
unsigned long long __udivdi3(unsigned long long number, unsigned long long divisor);

unsigned long long __udivdi3(unsigned long long number, unsigned long long divisor) {
    unsigned long long quotient = 0, rest = 0;
    for (int bit = 63; bit >= 0; bit--) {
        unsigned long long is_more = rest >> 63;
        rest = rest << 1 | (number >> bit & 1);
        if (is_more || rest >= divisor) {
            rest -= divisor;
            quotient |= 1ull << bit;
        }
    }
    return quotient;
}
