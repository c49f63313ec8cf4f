/* Tries helpers.c beside the C library and the compiler of this machine: says `all as wanted`, or
 * what was not.
 */
#include <stdio.h>
#include <stdlib.h>
#include <string.h>

#define size helper_size
#define memcpy helper_memcpy
#define memmove helper_memmove
#define memset helper_memset
#define memcmp helper_memcmp
#define bcmp helper_bcmp
#define __multi3 helper_multi3
#include "helpers.c"
#undef memcpy
#undef memmove
#undef memset
#undef memcmp

static void want(int holds, const char *what) {
    if (holds) return;
    printf("FAILED %s\n", what);
    exit(1);
}

static unsigned long long chance(void) {
    static unsigned long long state = 1;
    state = state * 6364136223846793005ULL + 1442695040888963407ULL;
    return state >> 31 ^ state << 33;
}

/* A number of any length. */
static __int128 some(void) {
    unsigned __int128 it = (unsigned __int128)chance() << 64 | chance();
    return (__int128)it >> chance() % 128;
}

static int sign(int it) { return (it > 0) - (it < 0); }

int main(void) {
    char mine[64], theirs[64];
    for (int i = 0; i < 64; i++) mine[i] = theirs[i] = (char)chance();
    for (int i = 0; i < 100000; i++) {
        size_t from = chance() % 32, to = chance() % 32, count = chance() % 32;
        helper_memmove(mine + to, mine + from, count);
        memmove(theirs + to, theirs + from, count);
        want(memcmp(mine, theirs, 64) == 0, "memmove");
        want(sign(helper_memcmp(mine + from, mine + to, count)) == sign(memcmp(mine + from, mine + to, count)), "memcmp");
        helper_memset(mine + to, i, count % 4);
        memset(theirs + to, i, count % 4);
        __int128 a = some(), b = some();
        want(helper_multi3(a, b) == (__int128)((unsigned __int128)a * (unsigned __int128)b), "__multi3");
    }
    printf("all as wanted\n");
    return 0;
}
