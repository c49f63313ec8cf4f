/* Tries heap.c: random requests beside a model of what each block holds, over a memory that refuses
 * to grow at times and has a limit. Says `all as wanted`, or what was not.
 *
 *     cc -std=c11 -o heap_test heap_test.c && ./heap_test
 */
#define _DEFAULT_SOURCE
#include <stdio.h>
#include <stdlib.h>
#include <string.h>
#include <sys/mman.h>

#include "heap.c"

enum { LIMIT = 2048, BLOCKS = 400, ROUNDS = 40000 };

static byte *memory;
static size grown = 2;          /* pages */
static int refuses;             /* the memory refuses to grow */

size pages(void) { return grown; }
byte *base(void) { return memory + 40; }
byte *end_of(size count) { return memory + count * PAGE; }
int grows(size more) {
    if (refuses || more > LIMIT - grown) return 0;
    grown += more;
    return 1;
}

/* What the model says of a block: where, how long, and the byte that fills it. */
typedef struct {
    byte *at;
    size length;
    byte fill;
} known;

static known blocks[BLOCKS];
static unsigned long long state = 1;

static size chance(size below) {
    state = state * 6364136223846793005ULL + 1442695040888963407ULL;
    return (state >> 33) % below;
}

static void want(int holds, const char *what) {
    if (holds) return;
    printf("FAILED %s\n", what);
    exit(1);
}

static size some_length(void) {
    size kinds[] = {chance(80), chance(1200), chance(40000), chance(400000)};
    return kinds[chance(40) == 0 ? 3 : chance(3)];
}

static void is_filled(known it, size length) {
    for (size i = 0; i < length; i++) want(it.at[i] == it.fill, "a block keeps what is in it");
}

/* The block lies in the memory, beside all others. */
static void lies_alone(size which) {
    known it = blocks[which];
    want((size)it.at % 16 == 0, "a block begins at a multiple of 16");
    want(it.at >= base() && it.at + it.length <= end_of(grown), "a block lies in the memory");
    for (size i = 0; i < BLOCKS; i++) {
        known other = blocks[i];
        if (i == which || !other.at) continue;
        want(it.at + it.length <= other.at || other.at + other.length <= it.at, "blocks lie apart");
    }
}

static void fill(size which, byte *at, size length) {
    blocks[which] = (known){at, length, (byte)chance(256)};
    lies_alone(which);
    memset(at, blocks[which].fill, length);
}

/* A request for a block that is not there, or for one that is: more, less, or its end. */
static size refused;
static void request(size which) {
    known it = blocks[which];
    size length = some_length();
    if (!it.at) {
        answer a = rattle_alloc(length, 8);
        refused += !a.is_there;
        if (a.is_there) fill(which, a.at, length);
    } else if (chance(2)) {
        answer a = rattle_realloc(it.at, it.length, length, 8);
        refused += !a.is_there;
        is_filled(a.is_there ? (known){a.at, length, it.fill} : it,
                  a.is_there && length < it.length ? length : it.length);
        if (a.is_there) fill(which, a.at, length);
    } else {
        is_filled(it, it.length);
        rattle_dealloc(it.at);
        blocks[which].at = 0;
    }
}

/* What was given back serves again, so one request over and over takes no more memory. */
static void serves_again(void) {
    rattle_dealloc(rattle_alloc(50000, 8).at);
    size before = grown;
    for (int i = 0; i < 10000; i++) rattle_dealloc(rattle_alloc(50000, 8).at);
    want(grown == before, "a block that was given back is taken again");
}

/* Near its limit the memory grows by what is needed alone, so all of it is used. */
static void fills_up(void) {
    while (rattle_alloc(10 * PAGE, 8).is_there) {}
    want(LIMIT - grown < 12, "the memory is used up to its limit");
}

/* The classes are as near to what is asked for as is said, whatever is asked for. */
static void classes_are_near(void) {
    for (size asked = 1; asked < (size)1 << 36; asked += 1 + asked / 1000) {
        size whole = bytes_of(class_of(asked));
        want(whole >= asked, "a class has room");
        want(whole - asked <= 15 || (whole - asked) * 5 <= whole, "a class has little more");
        want(class_of(whole) == class_of(asked) && class_of(asked) < CLASSES, "a class ends there");
    }
}

int main(void) {
    memory = mmap(0, (size)LIMIT * PAGE, PROT_READ | PROT_WRITE, MAP_PRIVATE | MAP_ANONYMOUS, -1, 0);
    want(memory != MAP_FAILED, "there is memory for the test");
    classes_are_near();
    for (int i = 0; i < ROUNDS; i++) {
        refuses = i % 1000 > 700;
        request(chance(BLOCKS));
    }
    refuses = 0;
    want(refused > 0 && grown <= LIMIT, "some requests are refused, and the limit holds");
    want(!rattle_alloc((size)1 << 40, 8).is_there, "what no memory has is refused");
    want(!rattle_alloc((size)LIMIT * PAGE, 8).is_there, "what is above the limit is refused");
    want(!rattle_alloc(8, 32).is_there, "an alignment above 16 is refused");
    want(rattle_alloc(8, 8).is_there, "after a refusal a smaller request is served");
    serves_again();
    fills_up();
    printf("all as wanted\n");
    return 0;
}
