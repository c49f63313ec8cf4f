/* The heap of the module: what the crates ask of the C library, over a memory of WebAssembly. Each
 * block stands behind a word with its class; a block that is given back waits in its class's list
 * until it is taken again. Blocks are 16, 32, 48 and 64 bytes, and from there on four classes for
 * each doubling, so that at most a fifth of a block is more than was asked for. Nothing of this is
 * proved: heap_test.c tries it.
 */
typedef unsigned char byte;
typedef unsigned long long size;

/* What the crates are answered: whether there is room, and where; a place that is no pointer of
 * theirs where there is none. */
typedef struct {
    size is_there;
    byte *at;
} answer;

enum { PAGE = 65536, HEAD = 16, FIRST = 16, CLASSES = 132 };

#ifdef __wasm__
extern byte __heap_base;
static size pages(void) { return __builtin_wasm_memory_size(0); }
/* Where the memory has become one of 32 bits, a refusal has its upper half empty. */
static int grows(size more) { return (unsigned)__builtin_wasm_memory_grow(0, more) != ~0u; }
static byte *base(void) { return &__heap_base; }
static byte *end_of(size count) { return (byte *)(count * PAGE); }
#else
size pages(void);
int grows(size more);
byte *base(void);
byte *end_of(size count);
#endif

static byte *fresh;             /* the first byte that was never in a block */
static byte *lists[CLASSES];    /* the blocks of a class that were given back, each with the next in it */
static byte nowhere[HEAD];

/* The class of a request, and the bytes of a class's blocks. */
static unsigned class_of(size asked) {
    if (asked <= 4 * FIRST) return asked == 0 ? 0 : (unsigned)((asked - 1) / FIRST);
    unsigned doubling = 61 - (unsigned)__builtin_clzll(asked - 1);
    return 4 * (doubling - 4) + (unsigned)((asked - 1) >> doubling);
}

static size bytes_of(unsigned class) {
    if (class < 4) return (class + 1) * FIRST;
    return (size)(class % 4 + 5) << (class / 4 + 3);
}

/* So many bytes more are there behind `fresh`, for which the memory may have to grow: by an eighth
 * where it can, since an engine may copy it each time. */
static int has_fresh(size wanted) {
    if (!fresh) fresh = (byte *)(((size)base() + HEAD - 1) & ~(size)(HEAD - 1));
    size room = (size)(end_of(pages()) - fresh);
    if (room >= wanted) return 1;
    size least = (wanted - room + PAGE - 1) / PAGE, eighth = pages() / 8;
    return (eighth > least && grows(eighth)) || grows(least);
}

static byte *take(size asked) {
    if (asked > (size)1 << 36) return 0;
    unsigned class = class_of(asked);
    byte *block = lists[class];
    if (block) {
        lists[class] = *(byte **)block;
        return block;
    }
    size whole = HEAD + bytes_of(class);
    if (!has_fresh(whole)) return 0;
    block = fresh + HEAD;
    fresh += whole;
    *(size *)(block - HEAD) = class;
    return block;
}

static void give(byte *block) {
    size class = *(size *)(block - HEAD);
    *(byte **)block = lists[class];
    lists[class] = block;
}

answer rattle_alloc(size asked, size alignment) {
    byte *block = alignment > HEAD ? 0 : take(asked);
    return (answer){block != 0, block ? block : nowhere};
}

answer rattle_realloc(byte *block, size kept, size asked, size alignment) {
    if (alignment > HEAD) return (answer){0, nowhere};
    if (*(size *)(block - HEAD) == class_of(asked)) return (answer){1, block};
    byte *other = take(asked);
    if (!other) return (answer){0, nowhere};
    __builtin_memcpy(other, block, kept < asked ? kept : asked);
    give(block);
    return (answer){1, other};
}

void rattle_dealloc(byte *block) { give(block); }

#ifdef __wasm__
/* For the host: room for a text, or 0. */
__attribute__((export_name("room"))) size room(size asked) { return (size)take(asked); }
#endif
