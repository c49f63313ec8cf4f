/* What the compiler calls where it has no instruction: copies, fills and comparisons of bytes, and
 * the product of two numbers of 128 bits. helpers_test.c tries them.
 */
typedef unsigned long size;

void *memcpy(void *to, const void *from, size count) {
    char *at = to;
    const char *next = from;
    while (count--) *at++ = *next++;
    return to;
}

void *memmove(void *to, const void *from, size count) {
    char *at = to;
    const char *next = from;
    if (at <= next) return memcpy(to, from, count);
    while (count--) at[count] = next[count];
    return to;
}

void *memset(void *to, int fill, size count) {
    char *at = to;
    while (count--) *at++ = (char)fill;
    return to;
}

int memcmp(const void *one, const void *other, size count) {
    const unsigned char *a = one, *b = other;
    for (; count; count--, a++, b++)
        if (*a != *b) return *a < *b ? -1 : 1;
    return 0;
}

int bcmp(const void *one, const void *other, size count) { return memcmp(one, other, count); }

typedef union {
    __int128 whole;
    struct {
        size low, high;
    } half;
} wide;

/* By quarters of 32 bits, whose products have 64. */
__int128 __multi3(__int128 one, __int128 other) {
    wide a = {one}, b = {other}, product;
    size quarter = 0xffffffff;
    size a0 = a.half.low & quarter, a1 = a.half.low >> 32, b0 = b.half.low & quarter, b1 = b.half.low >> 32;
    size none = a0 * b0, left = a1 * b0, right = a0 * b1;
    size middle = (none >> 32) + (left & quarter) + (right & quarter);
    product.half.low = middle << 32 | (none & quarter);
    product.half.high = a1 * b1 + (left >> 32) + (right >> 32) + (middle >> 32)
        + a.half.low * b.half.high + a.half.high * b.half.low;
    return product.whole;
}
