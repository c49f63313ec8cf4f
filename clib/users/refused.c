/* Refuses each request for memory in turn, in each call that makes requests, and looks that the call answers
 * PSILT_NOMEM or does without, that the handle is as it was, that the same call then does its work, and that all
 * memory goes back. Linked with --wrap for malloc, realloc and free. */
#include "../percalesilt.h"
#include <stdio.h>
#include <stdlib.h>
#include <string.h>

void *__real_malloc(size_t size);
void *__real_realloc(void *at, size_t size);
void __real_free(void *at);
void *__wrap_malloc(size_t size);
void *__wrap_realloc(void *at, size_t size);
void __wrap_free(void *at);

static long asked = 0, refused_at = 0, blocks = 0;
static int failures = 0;

static bool refuses(void)
{
    return ++asked == refused_at;
}

void *__wrap_malloc(size_t size)
{
    void *at = refuses() ? NULL : __real_malloc(size);
    blocks += at != NULL;
    return at;
}

void *__wrap_realloc(void *at, size_t size)
{
    void *to = refuses() ? NULL : __real_realloc(at, size);
    blocks += to != NULL && at == NULL;
    return to;
}

void __wrap_free(void *at)
{
    blocks -= at != NULL;
    __real_free(at);
}

#define BYTES(text) (const uint8_t *)(text), strlen(text)

/* Addition, with three terms to evaluate, and with one. */
#define ADD "REC-SPEC Add SORTS Nat CONS z : -> Nat s : Nat -> Nat OPNS plus : Nat Nat -> Nat VARS X Y : Nat " \
            "RULES plus(z,Y) -> Y plus(s(X),Y) -> s(plus(X,Y)) EVAL "
static const char three[] = ADD "plus(s(z),s(z)) z s(z) END-SPEC", one[] = ADD "z END-SPEC";

/* What a handle shows: its cells, its text, its place and rule, how many terms are specified, the texts of four
 * terms, its binding, whether its pattern and its symbol are known. */
struct shown {
    uint32_t cells, place, rule, specified, bound, matched, applied;
    char text[64], terms[4][64];
};

static psilt_term terms[4], inside[3], values[2];
static size_t pattern, whole, symbol, plus;

static void text_of(psilt *p, char *into)
{
    memset(into, 0, 64);
    psilt_text(p, (uint8_t *)into, 63);
}

static void show(psilt *p, struct shown *it)
{
    size_t len;
    psilt_term out;
    int i;
    memset(it, 0, sizeof *it);
    psilt_cells(p, &it->cells);
    if (psilt_bound(p, 0, &it->bound) != PSILT_OK)
        it->bound = 4242;
    it->matched = psilt_make(p, pattern, terms, 2, &out);
    it->applied = psilt_apply(p, symbol, terms, 1, &out);
    psilt_place(p, &it->place);
    psilt_rule(p, &it->rule);
    psilt_eval_terms(p, &it->specified);
    text_of(p, it->text);
    for (i = 0; i < 4; i++)
        if (psilt_print(p, terms[i], &len) == PSILT_OK)
            text_of(p, it->terms[i]);
    psilt_print(p, terms[0], &len);
}

static bool begin(psilt *p)
{
    uint32_t out;
    size_t len;
    return psilt_open(p, 100000) == PSILT_OK && psilt_read(p, BYTES("f(1,[2],<int>)"), &terms[0]) == PSILT_OK
        && psilt_read(p, BYTES("[at(3)]"), &terms[1]) == PSILT_OK && psilt_read(p, BYTES("7"), &terms[2]) == PSILT_OK
        && psilt_read(p, BYTES("plus(s(z),s(z))"), &terms[3]) == PSILT_OK
        && psilt_spec(p, BYTES(three), 1000, 100) == PSILT_OK
        && psilt_symbol(p, BYTES("g"), false, 2, &symbol) == PSILT_OK
        && psilt_symbol(p, BYTES("plus"), false, 2, &plus) == PSILT_OK
        && psilt_read(p, BYTES("s(s(s(z)))"), &values[0]) == PSILT_OK
        && psilt_pattern(p, BYTES("<int>"), &pattern) == PSILT_OK
        && psilt_pattern(p, BYTES("h(<term>,[<int>,<list>])"), &whole) == PSILT_OK
        && psilt_match(p, pattern, terms[2], &len) == PSILT_OK
        && psilt_read(p, BYTES("f(,)"), &out) == PSILT_SYNTAX && psilt_print(p, terms[0], &len) == PSILT_OK;
}

/* 2,000 elements, a name of 3,000 bytes, and a table that has one element 1,000 times in the last one. */
static uint8_t long_text[5000], long_name[3000], long_table[5000];
static psilt_term many[2000];

static uint32_t calls(psilt *p, int call, uint32_t *out)
{
    static psilt other;
    psilt fresh = PSILT_INIT;
    uint32_t code;
    uint64_t taken = 0;
    size_t len = 0, number = 0;
    switch (call) {
    case 0:
        other = fresh;
        code = psilt_open(&other, 1000);
        if (code == PSILT_OK)
            psilt_close(&other);
        return code;
    case 1: return psilt_read(p, long_text, 4998, out);
    case 2: return psilt_print(p, terms[0], &len);
    case 3: return psilt_name(p, terms[0], &len);
    case 4: return psilt_int(p, 77, out);
    case 5: return psilt_cons(p, terms[2], terms[1], out);
    case 6: return psilt_appl(p, long_name, sizeof long_name, false, many, 2000, out);
    case 7: return psilt_hole(p, terms[0], out);
    case 8: return psilt_annotate(p, terms[0], terms[1], out);
    case 9: return psilt_reserve(p, 50000);
    case 10: return psilt_reclaim(p, terms, 3);
    case 11: return psilt_spec(p, BYTES(one), 1000, 100);
    case 12: return psilt_normalise(p, terms[3], 1000, out, &taken);
    case 13: return psilt_eval_term(p, 0, out);
    case 14: return psilt_symbol(p, long_name, sizeof long_name, false, 2, &number);
    case 15: return psilt_apply(p, symbol, many, 2, out);
    case 16: return psilt_pattern(p, long_text, 4998, &number);
    case 17: return psilt_match(p, pattern, terms[2], &len);
    case 18: return psilt_make(p, pattern, &terms[2], 1, out);
    case 19: return psilt_make(p, whole, inside, 3, out);
    case 20:
        /* at the limit a second table of the names is made, to find this one */
        code = psilt_limit_names(p, 0);
        return code == PSILT_OK ? psilt_symbol(p, BYTES("g"), false, 2, &number) : code;
    case 21: return psilt_print_within(p, terms[0], 100, &len);
    case 22:
        other = fresh;
        refused_at = -refused_at;
        code = psilt_open(&other, 1000);
        refused_at = -refused_at;
        asked = 0;
        if (code == PSILT_OK)
            code = psilt_obey(p, &other);
        psilt_close(&other);
        return code;
    case 23: return psilt_call(p, plus, values, 2, 1000, out, &taken);
    case 24: return psilt_print_table(p, terms[0], &len);
    case 25: return psilt_read_table(p, BYTES((const char *)long_table), out);
    default: return psilt_nil(p, out);
    }
}

static const char *const NAMES[] = {"open", "read", "print", "name", "int", "cons", "appl", "hole", "annotate",
    "reserve", "reclaim", "spec", "normalise", "eval_term", "symbol", "apply", "pattern", "match", "make", "whole",
    "known", "print_within", "obey", "call", "print_table", "read_table", "nil"};

static void fails(const char *what, const char *name, long n)
{
    printf("%s: %s where request %ld is refused\n", name, what, n);
    failures++;
}

/* Whether the call may leave what it made up to the refusal. */
static bool may_leave_parts(int call)
{
    switch (call) {
    case 1: case 6: case 12: case 13: case 15: case 19: case 23: case 25: return true;
    default: return false;
    }
}

/* Whether the call, of whose requests the n-th is refused, makes so many. */
static bool is_tried(int call, long n)
{
    psilt p = PSILT_INIT;
    struct shown before, after;
    uint32_t out = 4242, again = 0, code;
    bool reached;
    if (!begin(&p))
        fails("no beginning", NAMES[call], n);
    for (int i = 0; i < 2000; i++)
        many[i] = terms[i % 3];
    inside[0] = terms[0];
    inside[1] = terms[2];
    inside[2] = terms[1];
    values[1] = values[0];
    show(&p, &before);
    asked = 0;
    refused_at = n;
    code = calls(&p, call, &out);
    reached = asked >= n;
    refused_at = 0;
    if (reached && code != PSILT_OK) {
        if (code != PSILT_NOMEM)
            fails("another code", NAMES[call], n);
        if (out != 4242)
            fails("a number is written", NAMES[call], n);
        show(&p, &after);
        /* what was made, up to the refusal, may stay, and an evaluation forgets bindings */
        if (may_leave_parts(call)) {
            if (after.cells < before.cells)
                fails("fewer cells", NAMES[call], n);
            after.cells = before.cells;
        }
        if (call == 12 || call == 13 || call == 23)
            after.bound = before.bound;
        if (memcmp(&before, &after, sizeof before) != 0)
            fails("the handle changed", NAMES[call], n);
    }
    if (calls(&p, call, &again) != PSILT_OK)
        fails("no answer afterwards", NAMES[call], n);
    psilt_close(&p);
    if (blocks != 0)
        fails("memory is kept", NAMES[call], n);
    return reached;
}

/* Codes that are asked before memory is requested. */
static void asks_first(void)
{
    static uint8_t text[16777217];
    psilt p = PSILT_INIT;
    size_t number = 0;
    psilt_term out = 0, none = 4294967295u, stale[2] = {4294967295u, 4294967295u};
    uint64_t taken;
    bool right;
    if (!begin(&p))
        fails("no beginning", "codes", 0);
    memset(text, ' ', sizeof text);
    refused_at = 1;
#define FIRST(call) (asked = 0, call)
    right = FIRST(psilt_read(&p, text, sizeof text, &out)) == PSILT_RANGE
        && FIRST(psilt_read_table(&p, text, sizeof text, &out)) == PSILT_RANGE
        && FIRST(psilt_pattern(&p, text, sizeof text, &number)) == PSILT_RANGE
        && FIRST(psilt_spec(&p, text, sizeof text, 0, 1)) == PSILT_RANGE
        && FIRST(psilt_spec(&p, text, 1, 0, 0)) == PSILT_RANGE
        && FIRST(psilt_appl(&p, BYTES("0"), false, &none, 1, &out)) == PSILT_NAME
        && FIRST(psilt_appl(&p, BYTES("new"), false, &none, 1, &out)) == PSILT_STALE
        && FIRST(psilt_symbol(&p, BYTES("0"), false, 1, &number)) == PSILT_NAME
        && FIRST(psilt_apply(&p, 99, &none, 1, &out)) == PSILT_UNKNOWN
        && FIRST(psilt_apply(&p, symbol, &none, 1, &out)) == PSILT_RANGE
        && FIRST(psilt_match(&p, 99, none, &number)) == PSILT_UNKNOWN
        && FIRST(psilt_match(&p, pattern, none, &number)) == PSILT_STALE
        && FIRST(psilt_make(&p, 99, &none, 1, &out)) == PSILT_UNKNOWN
        && FIRST(psilt_make(&p, pattern, &none, 0, &out)) == PSILT_RANGE
        && FIRST(psilt_make(&p, pattern, &none, 1, &out)) == PSILT_STALE
        && FIRST(psilt_reclaim(&p, &none, 1)) == PSILT_STALE
        && FIRST(psilt_normalise(&p, none, 1, &out, &taken)) == PSILT_STALE
        && FIRST(psilt_call(&p, 99, &none, 1, 1, &out, &taken)) == PSILT_UNKNOWN
        && FIRST(psilt_call(&p, plus, &none, 1, 1, &out, &taken)) == PSILT_RANGE
        && FIRST(psilt_call(&p, symbol, stale, 2, 1, &out, &taken)) == PSILT_STALE
        && FIRST(psilt_print(&p, none, &number)) == PSILT_STALE
        && FIRST(psilt_print_within(&p, none, 9, &number)) == PSILT_STALE
        && FIRST(psilt_print_table(&p, none, &number)) == PSILT_STALE;
    refused_at = 0;
    if (!right)
        fails("another code comes first", "codes", 1);
    psilt_close(&p);
}

int main(void)
{
    int call, i;
    long tried = 0, n;
    for (i = 0; i < 2499; i++)
        memcpy(long_text + 2 * i, i == 2498 ? "7]" : i == 0 ? "[1" : ",7", 2);
    memset(long_name, 'n', sizeof long_name);
    strcpy((char *)long_table, "[pair(u,\"v\"){w},h([<0>");
    for (i = 0; i < 1000; i++)
        strcat((char *)long_table, ",<0>");
    strcat((char *)long_table, "],<[<0>]>){<0>}]");
    asks_first();
    for (call = 0; call < 27; call++)
        for (n = 1; is_tried(call, n); n++)
            tried++;
    if (failures)
        printf("%d failed\n", failures);
    else
        printf("all as wanted: %ld requests refused\n", tried);
    return failures ? 1 : 0;
}
