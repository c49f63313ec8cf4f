/* Uses every call once and more, and compares what it answers with what was worked out by hand. */
#include "../percalesilt.h"
#include <stdio.h>
#include <stdlib.h>
#include <string.h>

static int failures = 0;

#define SAME(want, have) same(__LINE__, #have, (long long)(want), (long long)(have))

static void same(int line, const char *what, long long want, long long have)
{
    if (want != have) {
        printf("line %d: %s is %lld, not %lld\n", line, what, have, want);
        failures++;
    }
}

#define BYTES(text) (const uint8_t *)(text), strlen(text)

static psilt_term reads(psilt *p, const char *text)
{
    psilt_term term = 0;
    SAME(PSILT_OK, psilt_read(p, BYTES(text), &term));
    return term;
}

/* Compares the handle's text, which has len bytes. */
static void is_text(int line, psilt *p, const char *want, size_t len)
{
    uint8_t buffer[200];
    memset(buffer, '#', sizeof buffer);
    same(line, "length", (long long)strlen(want), (long long)len);
    same(line, "psilt_text", PSILT_OK, psilt_text(p, buffer, sizeof buffer));
    if (len >= sizeof buffer || memcmp(buffer, want, len) != 0 || buffer[len] != '#') {
        printf("line %d: the text is %.*s, not %s\n", line, (int)len, (char *)buffer, want);
        failures++;
    }
}

static void prints(int line, psilt *p, psilt_term term, const char *want)
{
    size_t len = 0;
    same(line, "psilt_print", PSILT_OK, psilt_print(p, term, &len));
    is_text(line, p, want, len);
}

#define PRINTS(term, want) prints(__LINE__, &p, term, want)

/* What each call answers of a handle that is closed. */
static void closed(void)
{
    psilt p = PSILT_INIT, q = PSILT_INIT;
    uint32_t out = 77, kind = 77;
    int32_t value = 77;
    uint64_t taken = 77;
    size_t len = 77;
    bool flag = true;
    uint8_t bytes[1] = {0};
    psilt_term terms[1] = {0};
    SAME(PSILT_CLOSED, psilt_close(&p));
    SAME(PSILT_CLOSED, psilt_cells(&p, &out));
    SAME(PSILT_CLOSED, psilt_spare(&p, &out));
    SAME(PSILT_CLOSED, psilt_reserve(&p, 1));
    SAME(PSILT_CLOSED, psilt_names(&p, &out));
    SAME(PSILT_CLOSED, psilt_limit_names(&p, 1));
    SAME(PSILT_CLOSED, psilt_read(&p, bytes, 0, &out));
    SAME(PSILT_CLOSED, psilt_place(&p, &out));
    SAME(PSILT_CLOSED, psilt_print(&p, 0, &len));
    SAME(PSILT_CLOSED, psilt_print_within(&p, 0, 9, &len));
    SAME(PSILT_CLOSED, psilt_print_table(&p, 0, &len));
    SAME(PSILT_CLOSED, psilt_read_table(&p, bytes, 0, &out));
    SAME(PSILT_CLOSED, psilt_text(&p, bytes, 1));
    SAME(PSILT_CLOSED, psilt_int(&p, 1, &out));
    SAME(PSILT_CLOSED, psilt_nil(&p, &out));
    SAME(PSILT_CLOSED, psilt_cons(&p, 0, 0, &out));
    SAME(PSILT_CLOSED, psilt_appl(&p, bytes, 0, false, terms, 0, &out));
    SAME(PSILT_CLOSED, psilt_hole(&p, 0, &out));
    SAME(PSILT_CLOSED, psilt_annotate(&p, 0, 0, &out));
    SAME(PSILT_CLOSED, psilt_kind(&p, 0, &kind, &value));
    SAME(PSILT_CLOSED, psilt_head(&p, 0, &out));
    SAME(PSILT_CLOSED, psilt_tail(&p, 0, &out));
    SAME(PSILT_CLOSED, psilt_args(&p, 0, &out));
    SAME(PSILT_CLOSED, psilt_arg(&p, 0, 0, &out));
    SAME(PSILT_CLOSED, psilt_arity(&p, 0, &out));
    SAME(PSILT_CLOSED, psilt_name(&p, 0, &len));
    SAME(PSILT_CLOSED, psilt_quoted(&p, 0, &flag));
    SAME(PSILT_CLOSED, psilt_inner(&p, 0, &out));
    SAME(PSILT_CLOSED, psilt_annotations(&p, 0, &out));
    SAME(PSILT_CLOSED, psilt_holds(&p, 0));
    SAME(PSILT_CLOSED, psilt_protect(&p, 0));
    SAME(PSILT_CLOSED, psilt_unprotect(&p, 0));
    SAME(PSILT_CLOSED, psilt_reclaim(&p, terms, 0));
    SAME(PSILT_CLOSED, psilt_rule(&p, &out));
    SAME(PSILT_CLOSED, psilt_spec(&p, bytes, 0, 0, 1));
    SAME(PSILT_CLOSED, psilt_spec_free(&p));
    SAME(PSILT_CLOSED, psilt_normalise(&p, 0, 1, &out, &taken));
    SAME(PSILT_CLOSED, psilt_call(&p, 0, terms, 0, 1, &out, &taken));
    SAME(PSILT_CLOSED, psilt_eval_terms(&p, &out));
    SAME(PSILT_CLOSED, psilt_eval_term(&p, 0, &out));
    SAME(PSILT_CLOSED, psilt_obey(&p, &q));
    SAME(PSILT_CLOSED, psilt_interrupt(&p, true));
    SAME(PSILT_CLOSED, psilt_symbol(&p, bytes, 0, false, 0, &len));
    SAME(PSILT_CLOSED, psilt_apply(&p, 0, terms, 0, &out));
    SAME(PSILT_CLOSED, psilt_pattern(&p, bytes, 0, &len));
    SAME(PSILT_CLOSED, psilt_pattern_free(&p, 0));
    SAME(PSILT_CLOSED, psilt_match(&p, 0, 0, &len));
    SAME(PSILT_CLOSED, psilt_bound(&p, 0, &out));
    SAME(PSILT_CLOSED, psilt_make(&p, 0, terms, 0, &out));
    SAME(77, taken);
    SAME(77, out);
    SAME(77, kind);
    SAME(77, value);
    SAME(77, len);
    SAME(true, flag);
}

static void opens_and_closes(void)
{
    psilt p = PSILT_INIT;
    uint32_t out = 77;
    SAME(PSILT_RANGE, psilt_open(&p, 0));
    SAME(PSILT_RANGE, psilt_open(&p, 1073741825));
    SAME(PSILT_RANGE, psilt_open(&p, 4294967295));
    SAME(PSILT_CLOSED, psilt_cells(&p, &out));
    SAME(PSILT_OK, psilt_open(&p, 1073741824));
    SAME(PSILT_OPEN, psilt_open(&p, 5));
    SAME(PSILT_OK, psilt_cells(&p, &out));
    SAME(0, out);
    SAME(PSILT_OK, psilt_close(&p));
    SAME(PSILT_CLOSED, psilt_close(&p));
    SAME(PSILT_OK, psilt_open(&p, 1));
    SAME(PSILT_OK, psilt_close(&p));
}

static void makes(void)
{
    psilt p = PSILT_INIT;
    psilt_term seven, again, nil, list, both, hole, noted, name, notes, none = 4294967295u;
    SAME(PSILT_OK, psilt_open(&p, 100));
    SAME(PSILT_OK, psilt_int(&p, -7, &seven));
    SAME(PSILT_OK, psilt_int(&p, -7, &again));
    SAME(seven, again);
    PRINTS(seven, "-7");
    SAME(PSILT_OK, psilt_nil(&p, &nil));
    PRINTS(nil, "[]");
    SAME(PSILT_OK, psilt_cons(&p, seven, nil, &list));
    PRINTS(list, "[-7]");
    psilt_term args[3] = {list, seven, 4294967295u};
    SAME(PSILT_OK, psilt_appl(&p, BYTES("f"), false, args, 2, &both));
    PRINTS(both, "f([-7],-7)");
    SAME(reads(&p, " f ( [ -007 ] , -7 ) "), both);
    SAME(PSILT_OK, psilt_appl(&p, BYTES("two words"), true, args, 0, &name));
    PRINTS(name, "\"two words\"");
    SAME(PSILT_OK, psilt_appl(&p, BYTES(""), false, args, 1, &name));
    PRINTS(name, "([-7])");
    SAME(PSILT_OK, psilt_hole(&p, both, &hole));
    PRINTS(hole, "<f([-7],-7)>");
    notes = reads(&p, "[at(3,7),x]");
    SAME(PSILT_OK, psilt_annotate(&p, both, notes, &noted));
    PRINTS(noted, "f([-7],-7){at(3,7),x}");
    SAME(PSILT_OK, psilt_annotate(&p, noted, nil, &again));
    SAME(both, again);
    /* what is wrong */
    again = 77;
    SAME(PSILT_STALE, psilt_cons(&p, none, nil, &again));
    SAME(PSILT_STALE, psilt_cons(&p, seven, none, &again));
    SAME(PSILT_KIND, psilt_cons(&p, seven, seven, &again));
    SAME(PSILT_KIND, psilt_cons(&p, seven, both, &again));
    SAME(PSILT_KIND, psilt_cons(&p, seven, reads(&p, "[1]{x}"), &again));
    SAME(PSILT_STALE, psilt_hole(&p, none, &again));
    SAME(PSILT_STALE, psilt_annotate(&p, none, nil, &again));
    SAME(PSILT_STALE, psilt_annotate(&p, both, none, &again));
    SAME(PSILT_KIND, psilt_annotate(&p, both, seven, &again));
    SAME(PSILT_KIND, psilt_annotate(&p, both, reads(&p, "[]{x}"), &again));
    SAME(PSILT_STALE, psilt_appl(&p, BYTES("f"), false, args, 3, &again));
    SAME(PSILT_NAME, psilt_appl(&p, BYTES("two words"), false, args, 0, &again));
    SAME(PSILT_NAME, psilt_appl(&p, BYTES("0"), false, args, 0, &again));
    SAME(77, again);
    SAME(PSILT_OK, psilt_close(&p));
}

static void takes_apart(void)
{
    psilt p = PSILT_INIT;
    psilt_term term, part, none = 4294967295u;
    uint32_t kind = 77, out = 77;
    int32_t value = 77;
    size_t len = 77;
    bool flag = false;
    SAME(PSILT_OK, psilt_open(&p, 1000));
    term = reads(&p, "\"a b\"(1,[2,3],<int>){n(1),m}");
    SAME(PSILT_OK, psilt_kind(&p, term, &kind, &value));
    SAME(PSILT_KIND_APPL, kind);
    SAME(77, value);
    SAME(PSILT_OK, psilt_arity(&p, term, &out));
    SAME(3, out);
    SAME(PSILT_OK, psilt_quoted(&p, term, &flag));
    SAME(true, flag);
    SAME(PSILT_OK, psilt_name(&p, term, &len));
    is_text(__LINE__, &p, "a b", len);
    SAME(PSILT_OK, psilt_annotations(&p, term, &part));
    PRINTS(part, "[n(1),m]");
    SAME(PSILT_OK, psilt_args(&p, term, &part));
    PRINTS(part, "[1,[2,3],<int>]");
    SAME(PSILT_OK, psilt_arg(&p, term, 0, &part));
    SAME(PSILT_OK, psilt_kind(&p, part, &kind, &value));
    SAME(PSILT_KIND_INT, kind);
    SAME(1, value);
    SAME(PSILT_OK, psilt_arg(&p, term, 1, &part));
    SAME(PSILT_OK, psilt_kind(&p, part, &kind, &value));
    SAME(PSILT_KIND_CONS, kind);
    SAME(PSILT_OK, psilt_head(&p, part, &out));
    PRINTS(out, "2");
    SAME(PSILT_OK, psilt_tail(&p, part, &out));
    PRINTS(out, "[3]");
    SAME(PSILT_OK, psilt_tail(&p, out, &out));
    SAME(PSILT_OK, psilt_kind(&p, out, &kind, &value));
    SAME(PSILT_KIND_NIL, kind);
    SAME(PSILT_OK, psilt_arg(&p, term, 2, &part));
    SAME(PSILT_OK, psilt_kind(&p, part, &kind, &value));
    SAME(PSILT_KIND_HOLE, kind);
    SAME(PSILT_OK, psilt_inner(&p, part, &out));
    PRINTS(out, "int");
    SAME(PSILT_OK, psilt_quoted(&p, out, &flag));
    SAME(false, flag);
    SAME(PSILT_OK, psilt_tail(&p, reads(&p, "[1,2]{x}"), &out));
    PRINTS(out, "[2]");
    /* what is wrong */
    out = 77;
    SAME(PSILT_RANGE, psilt_arg(&p, term, 3, &out));
    SAME(PSILT_RANGE, psilt_arg(&p, term, 4294967295u, &out));
    SAME(PSILT_KIND, psilt_head(&p, term, &out));
    SAME(PSILT_KIND, psilt_tail(&p, reads(&p, "[]"), &out));
    SAME(PSILT_KIND, psilt_args(&p, part, &out));
    SAME(PSILT_KIND, psilt_arg(&p, part, 0, &out));
    SAME(PSILT_KIND, psilt_arity(&p, part, &out));
    SAME(PSILT_KIND, psilt_quoted(&p, part, &flag));
    SAME(PSILT_KIND, psilt_name(&p, part, &len));
    SAME(PSILT_KIND, psilt_inner(&p, term, &out));
    SAME(PSILT_KIND, psilt_annotations(&p, part, &out));
    SAME(PSILT_STALE, psilt_kind(&p, none, &kind, &value));
    SAME(PSILT_STALE, psilt_head(&p, none, &out));
    SAME(PSILT_STALE, psilt_tail(&p, none, &out));
    SAME(PSILT_STALE, psilt_args(&p, none, &out));
    SAME(PSILT_STALE, psilt_arg(&p, none, 0, &out));
    SAME(PSILT_STALE, psilt_arity(&p, none, &out));
    SAME(PSILT_STALE, psilt_quoted(&p, none, &flag));
    SAME(PSILT_STALE, psilt_name(&p, none, &len));
    SAME(PSILT_STALE, psilt_inner(&p, none, &out));
    SAME(PSILT_STALE, psilt_annotations(&p, none, &out));
    SAME(PSILT_STALE, psilt_print(&p, none, &len));
    SAME(77, out);
    SAME(PSILT_OK, psilt_close(&p));
}

static void reads_texts(void)
{
    psilt p = PSILT_INIT;
    uint32_t out = 77, cells = 0;
    uint8_t short_one[2] = {'#', '#'};
    static uint8_t long_one[16777217];
    size_t len = 0;
    SAME(PSILT_OK, psilt_open(&p, 100));
    SAME(PSILT_OK, psilt_place(&p, &out));
    SAME(0, out);
    out = 77;
    SAME(PSILT_SYNTAX, psilt_read(&p, BYTES("f(1,,2)"), &out));
    SAME(77, out);
    SAME(PSILT_OK, psilt_place(&p, &out));
    SAME(4, out);
    SAME(PSILT_SYNTAX, psilt_read(&p, BYTES(""), &out));
    SAME(PSILT_OK, psilt_place(&p, &out));
    SAME(0, out);
    SAME(PSILT_OK, psilt_cells(&p, &cells));
    SAME(0, cells);
    memset(long_one, ' ', sizeof long_one);
    SAME(PSILT_RANGE, psilt_read(&p, long_one, sizeof long_one, &out));
    long_one[0] = '5';
    SAME(PSILT_OK, psilt_read(&p, long_one, sizeof long_one - 1, &out));
    PRINTS(out, "5");
    SAME(PSILT_OK, psilt_print(&p, reads(&p, "[1,2]"), &len));
    SAME(5, len);
    SAME(PSILT_RANGE, psilt_text(&p, short_one, 2));
    SAME('#', short_one[0]);
    SAME(PSILT_OK, psilt_close(&p));
}

static void keeps(void)
{
    psilt p = PSILT_INIT;
    psilt_term kept, rooted, gone, part;
    uint32_t cells = 0, spare = 0, i;
    SAME(PSILT_OK, psilt_open(&p, 100));
    kept = reads(&p, "f(1)");
    rooted = reads(&p, "[2,3]");
    gone = reads(&p, "g(4)");
    SAME(PSILT_OK, psilt_head(&p, rooted, &part));
    /* f(1), [1], 1, []; [2,3], [3], 2, 3; g(4), [4], 4 */
    SAME(PSILT_OK, psilt_cells(&p, &cells));
    SAME(11, cells);
    SAME(PSILT_OK, psilt_protect(&p, rooted));
    SAME(PSILT_OK, psilt_protect(&p, rooted));
    SAME(PSILT_OK, psilt_reclaim(&p, &kept, 1));
    SAME(PSILT_OK, psilt_cells(&p, &cells));
    SAME(8, cells);
    SAME(PSILT_OK, psilt_holds(&p, kept));
    SAME(PSILT_OK, psilt_holds(&p, part));
    SAME(PSILT_STALE, psilt_holds(&p, gone));
    SAME(PSILT_STALE, psilt_protect(&p, gone));
    SAME(PSILT_UNPROTECTED, psilt_unprotect(&p, gone));
    SAME(PSILT_UNPROTECTED, psilt_unprotect(&p, kept));
    SAME(PSILT_UNPROTECTED, psilt_unprotect(&p, 4294967295u));
    SAME(PSILT_STALE, psilt_reclaim(&p, &gone, 1));
    SAME(PSILT_OK, psilt_unprotect(&p, rooted));
    SAME(PSILT_OK, psilt_reclaim(&p, &kept, 0));
    SAME(PSILT_STALE, psilt_holds(&p, kept));
    PRINTS(rooted, "[2,3]");
    SAME(PSILT_OK, psilt_unprotect(&p, rooted));
    SAME(PSILT_UNPROTECTED, psilt_unprotect(&p, rooted));
    SAME(PSILT_OK, psilt_reclaim(&p, &kept, 0));
    SAME(PSILT_OK, psilt_cells(&p, &cells));
    SAME(0, cells);
    kept = reads(&p, "7");
    for (i = 0; i < 65535; i++)
        if (psilt_protect(&p, kept) != PSILT_OK)
            failures++;
    SAME(PSILT_ROOTS, psilt_protect(&p, kept));
    SAME(PSILT_OK, psilt_reserve(&p, 99));
    SAME(PSILT_OK, psilt_spare(&p, &spare));
    SAME(true, spare >= 99);
    SAME(PSILT_FULL, psilt_reserve(&p, 100));
    SAME(PSILT_FULL, psilt_reserve(&p, 4294967295u));
    SAME(PSILT_OK, psilt_close(&p));
}

/* A store of four cells, in which a fifth is refused, and one that is there is not. */
static void fills(void)
{
    psilt p = PSILT_INIT;
    psilt_term nil, one, list, longer, out = 77;
    SAME(PSILT_OK, psilt_open(&p, 4));
    SAME(PSILT_OK, psilt_nil(&p, &nil));
    SAME(PSILT_OK, psilt_int(&p, 1, &one));
    SAME(PSILT_OK, psilt_cons(&p, one, nil, &list));
    SAME(PSILT_OK, psilt_cons(&p, one, list, &longer));
    SAME(PSILT_FULL, psilt_int(&p, 2, &out));
    SAME(PSILT_FULL, psilt_hole(&p, one, &out));
    SAME(PSILT_FULL, psilt_cons(&p, list, nil, &out));
    SAME(PSILT_FULL, psilt_annotate(&p, one, list, &out));
    SAME(PSILT_FULL, psilt_appl(&p, BYTES("f"), false, &one, 1, &out));
    SAME(PSILT_FULL, psilt_read(&p, BYTES("f(1)"), &out));
    SAME(77, out);
    SAME(PSILT_OK, psilt_cons(&p, one, nil, &out));
    SAME(list, out);
    SAME(PSILT_OK, psilt_close(&p));
}

/* Reads a text in a store of cap cells, which has the cells of that text then. */
static void takes(int line, const char *text, uint32_t cap, uint32_t parts)
{
    psilt p = PSILT_INIT;
    psilt_term term = 77, again = 77;
    uint32_t cells = 77;
    same(line, "psilt_open", PSILT_OK, psilt_open(&p, cap));
    same(line, "psilt_read", PSILT_OK, psilt_read(&p, BYTES(text), &term));
    same(line, "psilt_cells", PSILT_OK, psilt_cells(&p, &cells));
    same(line, "cells", cap, cells);
    /* a collection leaves the parts */
    same(line, "psilt_reclaim", PSILT_OK, psilt_reclaim(&p, &term, 1));
    same(line, "psilt_cells", PSILT_OK, psilt_cells(&p, &cells));
    same(line, "parts", parts, cells);
    same(line, "psilt_read", PSILT_OK, psilt_read(&p, BYTES(text), &again));
    same(line, "the same term", term, again);
    same(line, "psilt_close", PSILT_OK, psilt_close(&p));
    /* one cell less is not enough */
    if (cap == 1)
        return;
    again = 77;
    same(line, "psilt_open", PSILT_OK, psilt_open(&p, cap - 1));
    same(line, "psilt_read", PSILT_FULL, psilt_read(&p, BYTES(text), &again));
    same(line, "out", 77, again);
    same(line, "psilt_close", PSILT_OK, psilt_close(&p));
}

/* A part with annotations is first made without them. */
static void takes_cells(void)
{
    psilt p = PSILT_INIT;
    psilt_term term, kept, again = 77;
    size_t pattern;
    uint32_t cells = 77;
    takes(__LINE__, "a{b}", 5, 4);
    takes(__LINE__, "f(x){1}", 7, 6);
    takes(__LINE__, "1{}", 1, 1);
    takes(__LINE__, "1", 1, 1);
    takes(__LINE__, "[]{}", 1, 1);
    takes(__LINE__, "a{}", 2, 2);
    takes(__LINE__, "[a]{b}", 6, 5);
    takes(__LINE__, "a{a}", 4, 4);
    takes(__LINE__, "[a{b},a]", 7, 7);
    takes(__LINE__, "<7>{7}", 5, 4);
    takes(__LINE__, "a{b{c}}", 8, 6);
    /* a term that is there, whose part without annotations is not */
    SAME(PSILT_OK, psilt_open(&p, 5));
    term = reads(&p, "a{b}");
    SAME(PSILT_OK, psilt_protect(&p, term));
    SAME(PSILT_OK, psilt_reclaim(&p, &term, 0));
    SAME(PSILT_OK, psilt_int(&p, 7, &kept));
    SAME(PSILT_FULL, psilt_read(&p, BYTES("a{b}"), &again));
    SAME(77, again);
    SAME(PSILT_OK, psilt_holds(&p, term));
    SAME(PSILT_OK, psilt_reclaim(&p, &kept, 0));
    SAME(PSILT_OK, psilt_read(&p, BYTES("a{b}"), &again));
    SAME(term, again);
    SAME(PSILT_OK, psilt_close(&p));
    /* a make of a pattern with annotations */
    SAME(PSILT_OK, psilt_open(&p, 5));
    SAME(PSILT_OK, psilt_pattern(&p, BYTES("a{b}"), &pattern));
    SAME(PSILT_OK, psilt_make(&p, pattern, &kept, 0, &term));
    PRINTS(term, "a{b}");
    SAME(PSILT_OK, psilt_cells(&p, &cells));
    SAME(5, cells);
    SAME(PSILT_OK, psilt_close(&p));
    SAME(PSILT_OK, psilt_open(&p, 4));
    SAME(PSILT_OK, psilt_pattern(&p, BYTES("a{b}"), &pattern));
    SAME(PSILT_FULL, psilt_make(&p, pattern, &kept, 0, &again));
    SAME(PSILT_OK, psilt_close(&p));
}

static uint32_t names(psilt *p)
{
    uint32_t out = 77;
    SAME(PSILT_OK, psilt_names(p, &out));
    return out;
}

/* Which calls add names, that none is freed, and that there are no more than may be. */
static void keeps_names(void)
{
    psilt p = PSILT_INIT;
    psilt_term a, term = 77, value, pair[2];
    size_t pattern, count, symbol = 4242, f;
    uint64_t taken;
    static const char spec[] = "REC-SPEC N SORTS S CONS z : -> S s : S -> S END-SPEC";
    SAME(PSILT_OK, psilt_open(&p, 1000));
    SAME(0, names(&p));
    a = reads(&p, "f(a,\"a\",f,f(1),f(2)){a}");
    /* a, "a", f of 0, 1 and 5 arguments */
    SAME(5, names(&p));
    SAME(PSILT_OK, psilt_appl(&p, BYTES("g"), false, &a, 1, &term));
    SAME(6, names(&p));
    SAME(PSILT_OK, psilt_symbol(&p, BYTES("g"), false, 2, &f));
    SAME(7, names(&p));
    SAME(PSILT_OK, psilt_symbol(&p, BYTES("g"), false, 2, &f));
    SAME(PSILT_OK, psilt_pattern(&p, BYTES("h(<term>,<list>)"), &pattern));
    SAME(7, names(&p));
    SAME(PSILT_UNMATCHED, psilt_match(&p, pattern, a, &count));
    SAME(7, names(&p));
    pair[0] = a;
    pair[1] = reads(&p, "[1,2]");
    SAME(PSILT_OK, psilt_make(&p, pattern, pair, 2, &term));
    SAME(8, names(&p));
    SAME(PSILT_OK, psilt_spec(&p, BYTES(spec), 0, 100));
    SAME(10, names(&p));
    SAME(PSILT_SYNTAX, psilt_read(&p, BYTES("unread(,)"), &term));
    SAME(PSILT_SYNTAX, psilt_read_table(&p, BYTES("[unread(,)]"), &term));
    SAME(PSILT_RULE, psilt_read_table(&p, BYTES("unread"), &term));
    SAME(10, names(&p));
    SAME(PSILT_OK, psilt_reclaim(&p, &a, 0));
    SAME(10, names(&p));
    /* at the limit names that are there are taken, and no other ones */
    SAME(PSILT_OK, psilt_limit_names(&p, 11));
    SAME(PSILT_OK, psilt_appl(&p, BYTES("last"), false, &a, 0, &term));
    SAME(11, names(&p));
    term = 77;
    SAME(PSILT_FULL, psilt_appl(&p, BYTES("new"), false, &a, 0, &term));
    SAME(PSILT_FULL, psilt_appl(&p, BYTES("last"), true, &a, 0, &term));
    SAME(PSILT_FULL, psilt_read(&p, BYTES("last(1)"), &term));
    SAME(PSILT_FULL, psilt_read(&p, BYTES("[z,s(z),other]"), &term));
    SAME(PSILT_FULL, psilt_read_table(&p, BYTES("[z,s(<0>),other(<1>)]"), &term));
    SAME(PSILT_FULL, psilt_read_table(&p, BYTES("[other,z]"), &term));
    SAME(77, term);
    SAME(PSILT_OK, psilt_read_table(&p, BYTES("[z,s(<0>),f(<1>)]"), &term));
    PRINTS(term, "f(s(z))");
    SAME(PSILT_FULL, psilt_symbol(&p, BYTES("new"), false, 0, &symbol));
    SAME(4242, symbol);
    pair[0] = reads(&p, "a");
    pair[1] = reads(&p, "[1]");
    SAME(PSILT_FULL, psilt_make(&p, pattern, pair, 2, &term));
    SAME(PSILT_FULL, psilt_spec(&p, BYTES("REC-SPEC M SORTS S CONS z : -> S y : -> S EVAL z END-SPEC"), 0, 100));
    SAME(11, names(&p));
    /* what was specified still is */
    SAME(PSILT_OK, psilt_normalise(&p, reads(&p, "s(z)"), 9, &value, &taken));
    SAME(PSILT_OK, psilt_symbol(&p, BYTES("g"), false, 2, &symbol));
    SAME(f, symbol);
    pair[0] = pair[1] = value;
    SAME(PSILT_OK, psilt_apply(&p, f, pair, 2, &term));
    PRINTS(term, "g(s(z),s(z))");
    term = reads(&p, "f(\"a\",a,f,last,f(g(1)))");
    PRINTS(term, "f(\"a\",a,f,last,f(g(1)))");
    SAME(PSILT_OK, psilt_spec(&p, BYTES(spec), 0, 100));
    SAME(11, names(&p));
    /* a limit below what is there, and a higher one */
    SAME(PSILT_OK, psilt_limit_names(&p, 0));
    SAME(PSILT_OK, psilt_read(&p, BYTES("last"), &term));
    SAME(PSILT_FULL, psilt_read(&p, BYTES("more"), &term));
    SAME(PSILT_OK, psilt_limit_names(&p, 12));
    SAME(PSILT_OK, psilt_read(&p, BYTES("more"), &term));
    SAME(PSILT_FULL, psilt_read(&p, BYTES("too"), &term));
    SAME(PSILT_OK, psilt_read(&p, BYTES("[more,last,f(f(f))]"), &term));
    SAME(12, names(&p));
    SAME(PSILT_OK, psilt_limit_names(&p, 4294967295u));
    SAME(PSILT_OK, psilt_read(&p, BYTES("too(much)"), &term));
    SAME(14, names(&p));
    SAME(PSILT_OK, psilt_close(&p));
    SAME(PSILT_OK, psilt_open(&p, 10));
    SAME(0, names(&p));
    SAME(PSILT_OK, psilt_close(&p));
}

/* Where several codes would fit, the first of the list in the header is answered. */
static void orders_codes(void)
{
    psilt p = PSILT_INIT;
    size_t pattern, symbol, none = 4242, count = 4242;
    psilt_term list, stale = 4294967295u, out = 77, value = 77;
    psilt_term both[2] = {4294967295u, 4294967295u}, wrong[2];
    uint64_t taken = 77;
    static uint8_t long_one[16777217];
    SAME(PSILT_OK, psilt_open(&p, 100));
    list = reads(&p, "[1]");
    wrong[0] = list;
    wrong[1] = stale;
    SAME(PSILT_OK, psilt_pattern(&p, BYTES("f(<int>)"), &pattern));
    SAME(PSILT_OK, psilt_symbol(&p, BYTES("f"), false, 1, &symbol));
    /* opened, and a wrong number of cells */
    SAME(PSILT_OPEN, psilt_open(&p, 0));
    /* no such pattern or symbol, the wrong count, a stale reference, and a wrong kind */
    SAME(PSILT_UNKNOWN, psilt_match(&p, none, stale, &count));
    SAME(PSILT_UNKNOWN, psilt_make(&p, none, both, 2, &out));
    SAME(PSILT_UNKNOWN, psilt_apply(&p, none, both, 2, &out));
    SAME(PSILT_RANGE, psilt_make(&p, pattern, both, 2, &out));
    SAME(PSILT_RANGE, psilt_apply(&p, symbol, both, 2, &out));
    SAME(PSILT_RANGE, psilt_make(&p, pattern, both, 0, &out));
    SAME(PSILT_RANGE, psilt_apply(&p, symbol, both, 0, &out));
    SAME(PSILT_STALE, psilt_match(&p, pattern, stale, &count));
    SAME(PSILT_STALE, psilt_make(&p, pattern, both, 1, &out));
    SAME(PSILT_STALE, psilt_apply(&p, symbol, both, 1, &out));
    SAME(PSILT_OK, psilt_pattern(&p, BYTES("f(<int>,<term>)"), &pattern));
    SAME(PSILT_STALE, psilt_make(&p, pattern, wrong, 2, &out));
    wrong[1] = list;
    SAME(PSILT_KIND, psilt_make(&p, pattern, wrong, 2, &out));
    /* a name, and a stale reference */
    SAME(PSILT_NAME, psilt_appl(&p, BYTES("0"), false, both, 2, &out));
    SAME(PSILT_STALE, psilt_appl(&p, BYTES("f"), false, both, 2, &out));
    /* a stale reference, and a wrong kind */
    SAME(PSILT_STALE, psilt_cons(&p, stale, reads(&p, "7"), &out));
    SAME(PSILT_STALE, psilt_annotate(&p, stale, reads(&p, "7"), &out));
    SAME(PSILT_STALE, psilt_arg(&p, stale, 9, &out));
    SAME(PSILT_KIND, psilt_arg(&p, list, 9, &out));
    /* nothing specified, a stale reference, and an integer */
    SAME(PSILT_UNSPECIFIED, psilt_normalise(&p, stale, 0, &value, &taken));
    SAME(PSILT_UNSPECIFIED, psilt_eval_term(&p, 4294967295u, &value));
    SAME(PSILT_UNSPECIFIED, psilt_call(&p, none, both, 2, 0, &value, &taken));
    SAME(PSILT_RANGE, psilt_spec(&p, BYTES("?"), 0, 0));
    SAME(PSILT_RANGE, psilt_spec(&p, long_one, sizeof long_one, 0, 1));
    SAME(PSILT_RANGE, psilt_read(&p, long_one, sizeof long_one, &out));
    SAME(PSILT_RANGE, psilt_read_table(&p, long_one, sizeof long_one, &out));
    SAME(PSILT_RANGE, psilt_pattern(&p, long_one, sizeof long_one, &none));
    SAME(PSILT_OK, psilt_spec(&p, BYTES("REC-SPEC E SORTS S CONS z : -> S EVAL z END-SPEC"), 0, 1));
    SAME(PSILT_STALE, psilt_normalise(&p, stale, 0, &value, &taken));
    SAME(PSILT_RULE, psilt_normalise(&p, list, 0, &value, &taken));
    /* no such symbol, the wrong count, a stale reference, and a symbol that is not declared */
    SAME(PSILT_UNKNOWN, psilt_call(&p, 4242, both, 2, 0, &value, &taken));
    SAME(PSILT_RANGE, psilt_call(&p, symbol, both, 2, 0, &value, &taken));
    SAME(PSILT_RANGE, psilt_call(&p, symbol, both, 0, 0, &value, &taken));
    SAME(PSILT_STALE, psilt_call(&p, symbol, both, 1, 0, &value, &taken));
    SAME(PSILT_RULE, psilt_call(&p, symbol, &list, 1, 0, &value, &taken));
    SAME(77, out);
    SAME(77, value);
    SAME(77, taken);
    SAME(4242, count);
    SAME(PSILT_OK, psilt_close(&p));
    /* a full store, and each of those */
    SAME(PSILT_OK, psilt_open(&p, 3));
    list = reads(&p, "[1]");
    SAME(PSILT_OK, psilt_limit_names(&p, 0));
    SAME(PSILT_NAME, psilt_appl(&p, BYTES("0"), false, both, 2, &out));
    SAME(PSILT_STALE, psilt_appl(&p, BYTES("f"), false, both, 2, &out));
    SAME(PSILT_STALE, psilt_cons(&p, stale, list, &out));
    SAME(PSILT_KIND, psilt_cons(&p, list, reads(&p, "1"), &out));
    SAME(PSILT_SYNTAX, psilt_read(&p, BYTES("f(new"), &out));
    SAME(PSILT_FULL, psilt_read(&p, BYTES("f(new)"), &out));
    SAME(PSILT_SYNTAX, psilt_read_table(&p, BYTES("[f(new]"), &out));
    SAME(PSILT_RULE, psilt_read_table(&p, BYTES("f(new)"), &out));
    SAME(PSILT_FULL, psilt_read_table(&p, BYTES("[f(new),<1>]"), &out));
    SAME(PSILT_NAME, psilt_symbol(&p, BYTES("0"), false, 0, &none));
    SAME(PSILT_OK, psilt_pattern(&p, BYTES("f(<int>)"), &pattern));
    SAME(PSILT_KIND, psilt_make(&p, pattern, &list, 1, &out));
    SAME(PSILT_STALE, psilt_make(&p, pattern, both, 1, &out));
    SAME(PSILT_OK, psilt_close(&p));
}

/* The longest text that is read again, and one that is longer. */
static void prints_long_texts(void)
{
    static uint8_t name[16777215], text[16777217];
    psilt p = PSILT_INIT;
    psilt_term term, again = 77;
    size_t len = 0;
    SAME(PSILT_OK, psilt_open(&p, 100));
    memset(name, 'n', sizeof name);
    SAME(PSILT_OK, psilt_appl(&p, name, sizeof name - 1, true, &term, 0, &term));
    SAME(PSILT_OK, psilt_print(&p, term, &len));
    SAME(16777216, len);
    SAME(PSILT_OK, psilt_text(&p, text, sizeof text));
    SAME(PSILT_OK, psilt_read(&p, text, len, &again));
    SAME(term, again);
    again = 77;
    SAME(PSILT_OK, psilt_appl(&p, name, sizeof name, true, &term, 0, &term));
    SAME(PSILT_OK, psilt_print(&p, term, &len));
    SAME(16777217, len);
    SAME(PSILT_OK, psilt_text(&p, text, sizeof text));
    SAME(PSILT_RANGE, psilt_read(&p, text, len, &again));
    SAME(77, again);
    SAME(PSILT_OK, psilt_close(&p));
}

static void has_versions(void)
{
    char version[40];
    snprintf(version, sizeof version, "%d.%d.%d", PSILT_VERSION_MAJOR, PSILT_VERSION_MINOR, PSILT_VERSION_PATCH);
    SAME(0, strcmp(version, psilt_version()));
    SAME(PSILT_VERSION_NUMBER, psilt_version_number());
}

/* Addition, with two terms to evaluate. */
static const char add[] = "REC-SPEC Add SORTS Nat CONS z : -> Nat s : Nat -> Nat OPNS plus : Nat Nat -> Nat "
                          "VARS X Y : Nat RULES plus(z,Y) -> Y plus(s(X),Y) -> s(plus(X,Y)) "
                          "EVAL plus(s(s(z)),s(z)) z END-SPEC";

static void evaluates(void)
{
    psilt p = PSILT_INIT;
    psilt_term term, value = 77;
    uint32_t out = 77, none = 4294967295u;
    uint64_t taken = 77;
    SAME(PSILT_OK, psilt_open(&p, 1000));
    term = reads(&p, "plus(s(z),s(z)){note}");
    SAME(PSILT_OK, psilt_protect(&p, term));
    /* nothing is specified yet */
    SAME(PSILT_UNSPECIFIED, psilt_normalise(&p, term, 10, &value, &taken));
    SAME(PSILT_UNSPECIFIED, psilt_normalise(&p, none, 10, &value, &taken));
    SAME(PSILT_UNSPECIFIED, psilt_eval_terms(&p, &out));
    SAME(PSILT_UNSPECIFIED, psilt_eval_term(&p, 0, &out));
    SAME(PSILT_UNSPECIFIED, psilt_spec_free(&p));
    /* terms made before the specification are evaluated by it */
    SAME(PSILT_OK, psilt_spec(&p, BYTES(add), 0, 1000));
    SAME(PSILT_LIMIT, psilt_normalise(&p, term, 1, &value, &taken));
    SAME(PSILT_LIMIT, psilt_normalise(&p, term, 0, &value, &taken));
    SAME(PSILT_STALE, psilt_normalise(&p, none, 10, &value, &taken));
    SAME(77, value);
    SAME(77, taken);
    SAME(PSILT_OK, psilt_normalise(&p, term, 2, &value, &taken));
    SAME(2, taken);
    PRINTS(value, "s(s(z)){note}");
    SAME(reads(&p, "s(s(z)){note}"), value);
    SAME(PSILT_OK, psilt_normalise(&p, value, 18446744073709551615u, &value, &taken));
    SAME(0, taken);
    PRINTS(value, "s(s(z)){note}");
    SAME(PSILT_OK, psilt_eval_terms(&p, &out));
    SAME(2, out);
    SAME(PSILT_OK, psilt_eval_term(&p, 0, &out));
    PRINTS(out, "plus(s(s(z)),s(z))");
    SAME(PSILT_OK, psilt_normalise(&p, out, 100, &value, &taken));
    SAME(3, taken);
    PRINTS(value, "s(s(s(z)))");
    SAME(PSILT_OK, psilt_eval_term(&p, 1, &out));
    PRINTS(out, "z");
    SAME(PSILT_RANGE, psilt_eval_term(&p, 2, &out));
    SAME(PSILT_RANGE, psilt_eval_term(&p, none, &out));
    /* which stay beside another specification, and beside none */
    SAME(PSILT_OK, psilt_spec(&p, BYTES("REC-SPEC B SORTS S CONS a : -> S EVAL a END-SPEC"), 1048576, 1073741824));
    SAME(PSILT_OK, psilt_eval_terms(&p, &out));
    SAME(1, out);
    SAME(PSILT_RULE, psilt_normalise(&p, term, 10, &value, &taken));
    SAME(PSILT_OK, psilt_spec_free(&p));
    SAME(PSILT_UNSPECIFIED, psilt_spec_free(&p));
    PRINTS(term, "plus(s(z),s(z)){note}");
    SAME(PSILT_OK, psilt_close(&p));
}

/* The rule of a term that is given. */
static void breaks(int line, psilt *p, const char *text, uint32_t rule)
{
    psilt_term value = 77;
    uint32_t out = 77;
    uint64_t taken = 77;
    same(line, "psilt_normalise", PSILT_RULE, psilt_normalise(p, reads(p, text), 10, &value, &taken));
    same(line, "psilt_rule", PSILT_OK, psilt_rule(p, &out));
    same(line, "rule", rule, out);
    same(line, "value", 77, value);
    same(line, "taken", 77, (long long)taken);
}

/* A specification that is refused, and that the one before it still is there. */
static void refuses(int line, psilt *p, const char *text, uint32_t code, uint32_t place, uint32_t rule)
{
    uint32_t out = 77;
    same(line, "psilt_spec", code, psilt_spec(p, BYTES(text), 0, 1));
    same(line, "psilt_place", PSILT_OK, psilt_place(p, &out));
    same(line, "place", place, out);
    same(line, "psilt_rule", PSILT_OK, psilt_rule(p, &out));
    same(line, "rule", rule, out);
    same(line, "psilt_eval_terms", PSILT_OK, psilt_eval_terms(p, &out));
    same(line, "terms", 2, out);
}

static void judges(void)
{
    psilt p = PSILT_INIT;
    uint32_t out = 77;
    static uint8_t long_one[16777217];
    SAME(PSILT_OK, psilt_open(&p, 1000));
    SAME(PSILT_OK, psilt_rule(&p, &out));
    SAME(0, out);
    SAME(PSILT_OK, psilt_spec(&p, BYTES(add), 100, 16));
    breaks(__LINE__, &p, "plus(s(z),4)", 2);
    breaks(__LINE__, &p, "[z]", 2);
    breaks(__LINE__, &p, "<z>", 2);
    breaks(__LINE__, &p, "s(z{note})", 3);
    breaks(__LINE__, &p, "s(q)", 4);
    breaks(__LINE__, &p, "\"z\"", 4);
    breaks(__LINE__, &p, "plus(z)", 5);
    refuses(__LINE__, &p, "REC-SPEC A SORTS B B", PSILT_SYNTAX, 20, 0);
    refuses(__LINE__, &p, "", PSILT_SYNTAX, 0, 0);
    refuses(__LINE__, &p, "REC-SPEC A SORTS B B END-SPEC", PSILT_RULE, 19, 1);
    refuses(__LINE__, &p, "REC-SPEC A SORTS B CONS c : -> C END-SPEC", PSILT_RULE, 31, 4);
    SAME(PSILT_SYNTAX, psilt_read(&p, BYTES("f("), &out));
    SAME(PSILT_OK, psilt_rule(&p, &out));
    SAME(0, out);
    SAME(PSILT_RANGE, psilt_spec(&p, BYTES(add), 1048577, 1));
    SAME(PSILT_RANGE, psilt_spec(&p, BYTES(add), 4294967295u, 1));
    SAME(PSILT_RANGE, psilt_spec(&p, BYTES(add), 0, 0));
    SAME(PSILT_RANGE, psilt_spec(&p, BYTES(add), 0, 1073741825));
    SAME(PSILT_RANGE, psilt_spec(&p, BYTES(add), 0, 4294967295u));
    memset(long_one, ' ', sizeof long_one);
    SAME(PSILT_RANGE, psilt_spec(&p, long_one, sizeof long_one, 0, 1));
    SAME(PSILT_SYNTAX, psilt_spec(&p, long_one, sizeof long_one - 1, 0, 1));
    SAME(PSILT_OK, psilt_eval_terms(&p, &out));
    SAME(2, out);
    SAME(PSILT_OK, psilt_close(&p));
}

/* What is not needed is given up, and what is remembered of it is forgotten. */
static void gives_up(void)
{
    psilt p = PSILT_INIT;
    psilt_term term, gone, value = 77;
    uint32_t out = 77;
    uint64_t taken = 77;
    SAME(PSILT_OK, psilt_open(&p, 12));
    SAME(PSILT_OK, psilt_spec(&p, BYTES(add), 16, 1));
    gone = reads(&p, "[7,8,9]");
    SAME(PSILT_OK, psilt_reclaim(&p, &gone, 0));
    SAME(PSILT_OK, psilt_cells(&p, &out));
    SAME(0, out);
    gone = reads(&p, "[7,8]");
    term = reads(&p, "s(s(z))");
    SAME(PSILT_OK, psilt_protect(&p, term));
    SAME(PSILT_OK, psilt_normalise(&p, term, 9, &value, &taken));
    SAME(term, value);
    SAME(0, taken);
    SAME(PSILT_OK, psilt_unprotect(&p, term));
    SAME(PSILT_OK, psilt_reclaim(&p, &gone, 0));
    SAME(PSILT_STALE, psilt_holds(&p, term));
    SAME(PSILT_STALE, psilt_normalise(&p, term, 9, &value, &taken));
    SAME(PSILT_OK, psilt_eval_term(&p, 0, &out));
    SAME(PSILT_OK, psilt_normalise(&p, out, 9, &value, &taken));
    SAME(3, taken);
    PRINTS(value, "s(s(s(z)))");
    SAME(PSILT_OK, psilt_close(&p));
    /* z and [] are two cells; the other term takes eight */
    SAME(PSILT_OK, psilt_open(&p, 5));
    SAME(PSILT_OK, psilt_spec(&p, BYTES(add), 16, 1));
    SAME(PSILT_FULL, psilt_eval_term(&p, 0, &out));
    SAME(PSILT_OK, psilt_eval_term(&p, 1, &out));
    SAME(PSILT_OK, psilt_normalise(&p, out, 9, &value, &taken));
    SAME(out, value);
    term = reads(&p, "s(z)");
    SAME(PSILT_OK, psilt_protect(&p, term));
    SAME(PSILT_OK, psilt_reclaim(&p, &term, 0));
    SAME(PSILT_OK, psilt_int(&p, 7, &gone));
    SAME(PSILT_OK, psilt_normalise(&p, term, 9, &value, &taken));
    SAME(term, value);
    SAME(PSILT_STALE, psilt_holds(&p, gone));
    SAME(PSILT_OK, psilt_close(&p));
    SAME(PSILT_OK, psilt_open(&p, 2));
    SAME(PSILT_OK, psilt_spec(&p, BYTES(add), 16, 1));
    term = reads(&p, "z");
    SAME(PSILT_FULL, psilt_normalise(&p, term, 9, &value, &taken));
    SAME(PSILT_OK, psilt_holds(&p, term));
    SAME(PSILT_OK, psilt_close(&p));
}

/* Pairs of numbers beside addition. */
static const char pairs[] = "REC-SPEC Pairs SORTS Nat Pair CONS z : -> Nat s : Nat -> Nat p : Nat Nat -> Pair "
                            "OPNS dup : Nat -> Pair plus : Nat Nat -> Nat VARS X Y : Nat RULES dup(X) -> p(X,X) "
                            "plus(z,Y) -> Y plus(s(X),Y) -> s(plus(X,Y)) END-SPEC";

/* The rule that a call violates. */
static void breaks_call(int line, psilt *p, const char *name, bool quoted, const char *text, uint32_t rule)
{
    psilt_term given = reads(p, text), value = 77;
    uint32_t out = 77;
    uint64_t taken = 77;
    size_t symbol;
    same(line, "psilt_symbol", PSILT_OK, psilt_symbol(p, BYTES(name), quoted, 1, &symbol));
    same(line, "psilt_call", PSILT_RULE, psilt_call(p, symbol, &given, 1, 10, &value, &taken));
    same(line, "psilt_rule", PSILT_OK, psilt_rule(p, &out));
    same(line, "rule", rule, out);
    same(line, "value", 77, value);
    same(line, "taken", 77, (long long)taken);
}

/* Symbols are called on values, which are not evaluated. */
static void calls(void)
{
    psilt p = PSILT_INIT;
    psilt_term one, two, term, args[2], value = 77, none = 4294967295u;
    size_t plus, dup, s, other, pattern, count;
    uint32_t out = 77;
    uint64_t taken = 77;
    SAME(PSILT_OK, psilt_open(&p, 1000));
    SAME(PSILT_OK, psilt_spec(&p, BYTES(pairs), 0, 1));
    SAME(PSILT_OK, psilt_symbol(&p, BYTES("plus"), false, 2, &plus));
    SAME(PSILT_OK, psilt_symbol(&p, BYTES("dup"), false, 1, &dup));
    SAME(PSILT_OK, psilt_symbol(&p, BYTES("s"), false, 1, &s));
    one = reads(&p, "s(z)");
    SAME(PSILT_OK, psilt_protect(&p, one));
    two = reads(&p, "s(s(z))");
    SAME(PSILT_OK, psilt_protect(&p, two));
    args[0] = args[1] = one;
    SAME(PSILT_LIMIT, psilt_call(&p, plus, args, 2, 1, &value, &taken));
    SAME(77, value);
    SAME(77, taken);
    SAME(PSILT_OK, psilt_call(&p, plus, args, 2, 2, &value, &taken));
    SAME(two, value);
    SAME(2, taken);
    SAME(PSILT_OK, psilt_call(&p, plus, args, 2, 18446744073709551615u, &value, &taken));
    SAME(two, value);
    SAME(2, taken);
    /* a constructor takes no step */
    SAME(PSILT_OK, psilt_call(&p, s, &one, 1, 0, &value, &taken));
    SAME(two, value);
    SAME(0, taken);
    /* an argument that is no value is not evaluated, and one with annotations keeps them */
    term = reads(&p, "plus(z,z)");
    SAME(PSILT_OK, psilt_call(&p, dup, &term, 1, 1, &value, &taken));
    PRINTS(value, "p(plus(z,z),plus(z,z))");
    SAME(1, taken);
    PRINTS(term, "plus(z,z)");
    args[1] = reads(&p, "s(f(1){a}){b}");
    SAME(PSILT_OK, psilt_call(&p, plus, args, 2, 9, &value, &taken));
    PRINTS(value, "s(s(f(1){a}){b})");
    SAME(2, taken);
    /* a symbol without arguments */
    SAME(PSILT_OK, psilt_symbol(&p, BYTES("z"), false, 0, &other));
    SAME(PSILT_OK, psilt_call(&p, other, args, 0, 0, &value, &taken));
    PRINTS(value, "z");
    SAME(0, taken);
    value = 77;
    taken = 77;
    SAME(PSILT_UNKNOWN, psilt_call(&p, SIZE_MAX, args, 2, 9, &value, &taken));
    SAME(PSILT_RANGE, psilt_call(&p, plus, args, 1, 9, &value, &taken));
    args[1] = none;
    SAME(PSILT_STALE, psilt_call(&p, plus, args, 2, 9, &value, &taken));
    /* the rules of the call itself */
    breaks_call(__LINE__, &p, "minus", false, "z", 4);
    breaks_call(__LINE__, &p, "plus", false, "z", 5);
    breaks_call(__LINE__, &p, "dup", true, "z", 4);
    breaks_call(__LINE__, &p, "dup", false, "p(z,z)", 6);
    breaks_call(__LINE__, &p, "dup", false, "q", 6);
    breaks_call(__LINE__, &p, "dup", false, "\"z\"", 6);
    breaks_call(__LINE__, &p, "dup", false, "7", 6);
    breaks_call(__LINE__, &p, "dup", false, "[z]", 6);
    breaks_call(__LINE__, &p, "dup", false, "<z>", 6);
    /* after another code the place and the rule stay */
    SAME(PSILT_SYNTAX, psilt_read(&p, BYTES("f(,"), &out));
    SAME(PSILT_LIMIT, psilt_call(&p, dup, &one, 1, 0, &value, &taken));
    SAME(PSILT_OK, psilt_rule(&p, &out));
    SAME(0, out);
    SAME(PSILT_OK, psilt_place(&p, &out));
    SAME(2, out);
    /* bindings are forgotten by what may free terms */
    SAME(PSILT_OK, psilt_pattern(&p, BYTES("<term>"), &pattern));
    SAME(PSILT_OK, psilt_match(&p, pattern, one, &count));
    SAME(PSILT_UNKNOWN, psilt_call(&p, SIZE_MAX, args, 2, 9, &value, &taken));
    SAME(PSILT_RANGE, psilt_call(&p, plus, args, 1, 9, &value, &taken));
    SAME(PSILT_STALE, psilt_call(&p, plus, args, 2, 9, &value, &taken));
    SAME(77, value);
    SAME(77, taken);
    SAME(PSILT_OK, psilt_bound(&p, 0, &out));
    SAME(one, out);
    SAME(PSILT_OK, psilt_call(&p, s, &one, 1, 0, &value, &taken));
    SAME(PSILT_RANGE, psilt_bound(&p, 0, &out));
    SAME(PSILT_OK, psilt_spec_free(&p));
    SAME(PSILT_UNSPECIFIED, psilt_call(&p, s, &one, 1, 0, &value, &taken));
    SAME(PSILT_OK, psilt_close(&p));
}

/* The call of a symbol on s(z), twice if it takes two, in a store of cap cells that has s(z) and 7. */
static void calls_in(int line, uint32_t cap, const char *name, uint32_t arity, uint32_t code, uint32_t cells)
{
    psilt p = PSILT_INIT;
    psilt_term args[2], seven, value = 77;
    uint32_t out = 77, kind = 77;
    int32_t number = 77;
    uint64_t taken = 77;
    size_t symbol;
    bool kept;
    same(line, "psilt_open", PSILT_OK, psilt_open(&p, cap));
    same(line, "psilt_spec", PSILT_OK, psilt_spec(&p, BYTES(pairs), 0, 1000));
    args[0] = args[1] = reads(&p, "s(z)");
    same(line, "psilt_int", PSILT_OK, psilt_int(&p, 7, &seven));
    same(line, "psilt_symbol", PSILT_OK, psilt_symbol(&p, BYTES(name), false, arity, &symbol));
    same(line, "psilt_call", code, psilt_call(&p, symbol, args, arity, 9, &value, &taken));
    same(line, "psilt_cells", PSILT_OK, psilt_cells(&p, &out));
    same(line, "cells", cells, out);
    if (code == PSILT_OK)
        prints(line, &p, value, "s(s(z))");
    else
        same(line, "value", 77, value);
    prints(line, &p, args[0], "s(z)");
    /* the number of a term that is freed may be that of another one */
    kept = psilt_kind(&p, seven, &kind, &number) == PSILT_OK && kind == PSILT_KIND_INT;
    same(line, "7 is there", cells == 9, kept);
    same(line, "psilt_close", PSILT_OK, psilt_close(&p));
}

/* s(z) takes four cells; the application of s to it takes two more, and is its own value; that of plus to it twice
 * takes three more, and its value one more. 7 is freed before a call is refused. */
static void calls_in_few_cells(void)
{
    calls_in(__LINE__, 5, "s", 1, PSILT_FULL, 5);
    calls_in(__LINE__, 6, "s", 1, PSILT_OK, 6);
    calls_in(__LINE__, 6, "plus", 2, PSILT_FULL, 6);
    calls_in(__LINE__, 7, "plus", 2, PSILT_FULL, 7);
    calls_in(__LINE__, 8, "plus", 2, PSILT_OK, 8);
    calls_in(__LINE__, 9, "plus", 2, PSILT_OK, 9);
}

/* Symbols by their numbers. */
static void applies(void)
{
    psilt p = PSILT_INIT;
    size_t f, again, quoted, unary, none = 4242;
    psilt_term a, term, args[2], out = 4242;
    SAME(PSILT_OK, psilt_open(&p, 100));
    SAME(PSILT_OK, psilt_symbol(&p, BYTES("f"), false, 2, &f));
    SAME(PSILT_OK, psilt_symbol(&p, BYTES("f"), true, 2, &quoted));
    SAME(PSILT_OK, psilt_symbol(&p, BYTES("f"), false, 1, &unary));
    SAME(PSILT_OK, psilt_symbol(&p, BYTES("f"), false, 2, &again));
    SAME(f, again);
    SAME(true, f != quoted && f != unary && quoted != unary);
    SAME(PSILT_NAME, psilt_symbol(&p, BYTES("a b"), false, 0, &none));
    SAME(4242, none);
    a = reads(&p, "a");
    args[0] = args[1] = a;
    SAME(PSILT_OK, psilt_apply(&p, f, args, 2, &term));
    PRINTS(term, "f(a,a)");
    SAME(reads(&p, "f(a,a)"), term);
    SAME(PSILT_OK, psilt_apply(&p, quoted, args, 2, &term));
    PRINTS(term, "\"f\"(a,a)");
    SAME(PSILT_OK, psilt_apply(&p, unary, &term, 1, &term));
    PRINTS(term, "f(\"f\"(a,a))");
    SAME(PSILT_RANGE, psilt_apply(&p, f, args, 1, &out));
    SAME(PSILT_RANGE, psilt_apply(&p, f, args, 0, &out));
    SAME(PSILT_UNKNOWN, psilt_apply(&p, 3, args, 2, &out));
    SAME(PSILT_UNKNOWN, psilt_apply(&p, SIZE_MAX, args, 2, &out));
    args[1] = 4294967295u;
    SAME(PSILT_STALE, psilt_apply(&p, f, args, 2, &out));
    SAME(4242, out);
    SAME(PSILT_OK, psilt_reclaim(&p, args, 0));
    args[0] = args[1] = reads(&p, "b");
    SAME(PSILT_OK, psilt_apply(&p, f, args, 2, &term));
    PRINTS(term, "f(b,b)");
    SAME(PSILT_OK, psilt_close(&p));
    SAME(PSILT_OK, psilt_open(&p, 100));
    SAME(PSILT_UNKNOWN, psilt_apply(&p, f, args, 0, &out));
    SAME(PSILT_OK, psilt_close(&p));
}

/* Two patterns at once, of which one is given up. */
static void matches(void)
{
    psilt p = PSILT_INIT;
    size_t pair, any, count = 4242, again;
    psilt_term term, other, args[2], made, out = 4242;
    SAME(PSILT_OK, psilt_open(&p, 100));
    SAME(PSILT_RANGE, psilt_bound(&p, 0, &out));
    SAME(PSILT_OK, psilt_pattern(&p, BYTES("f(<int>,<list>)"), &pair));
    SAME(PSILT_OK, psilt_pattern(&p, BYTES("<appl>"), &any));
    term = reads(&p, "f(7,[a]{n},b)");
    other = reads(&p, "f(a)");
    SAME(PSILT_OK, psilt_match(&p, pair, term, &count));
    SAME(2, count);
    SAME(PSILT_OK, psilt_bound(&p, 0, &args[0]));
    SAME(PSILT_OK, psilt_bound(&p, 1, &args[1]));
    SAME(PSILT_RANGE, psilt_bound(&p, 2, &out));
    SAME(PSILT_RANGE, psilt_bound(&p, SIZE_MAX, &out));
    PRINTS(args[0], "7");
    PRINTS(args[1], "[[a]{n},b]");
    SAME(PSILT_OK, psilt_make(&p, pair, args, 2, &made));
    SAME(term, made);
    count = 4242;
    SAME(PSILT_UNMATCHED, psilt_match(&p, pair, other, &count));
    SAME(PSILT_STALE, psilt_match(&p, pair, 4294967295u, &count));
    SAME(PSILT_UNKNOWN, psilt_match(&p, any + 1, term, &count));
    SAME(4242, count);
    SAME(PSILT_OK, psilt_bound(&p, 0, &made));
    SAME(args[0], made);
    SAME(PSILT_OK, psilt_match(&p, any, other, &count));
    SAME(1, count);
    SAME(PSILT_OK, psilt_bound(&p, 0, &made));
    SAME(other, made);
    SAME(PSILT_OK, psilt_pattern_free(&p, pair));
    SAME(PSILT_UNKNOWN, psilt_pattern_free(&p, pair));
    SAME(PSILT_UNKNOWN, psilt_match(&p, pair, term, &count));
    SAME(PSILT_UNKNOWN, psilt_make(&p, pair, args, 2, &out));
    SAME(PSILT_OK, psilt_match(&p, any, term, &count));
    SAME(PSILT_OK, psilt_pattern(&p, BYTES("[<term>]"), &again));
    SAME(pair, again);
    SAME(PSILT_UNMATCHED, psilt_match(&p, pair, term, &count));
    /* [a]{n} without its annotation is new */
    SAME(PSILT_OK, psilt_pattern(&p, BYTES("[<list>]{<term>}"), &again));
    term = reads(&p, "[a]{n}");
    SAME(PSILT_OK, psilt_match(&p, again, term, &count));
    SAME(2, count);
    SAME(PSILT_OK, psilt_bound(&p, 0, &made));
    PRINTS(made, "[a]");
    SAME(4242, out);
    SAME(PSILT_OK, psilt_close(&p));
}

/* What is refused of a pattern and of a make, and when bindings are forgotten. */
static void refuses_patterns(void)
{
    psilt p = PSILT_INIT;
    size_t pattern = 4242, count;
    psilt_term term, value, out = 4242;
    uint32_t place, rule;
    uint64_t taken;
    SAME(PSILT_OK, psilt_open(&p, 100));
    SAME(PSILT_SYNTAX, psilt_pattern(&p, BYTES("f(1,,2)"), &pattern));
    SAME(PSILT_OK, psilt_place(&p, &place));
    SAME(4, place);
    SAME(PSILT_RULE, psilt_pattern(&p, BYTES("f(<int>{n},<integer>)"), &pattern));
    SAME(PSILT_OK, psilt_rule(&p, &rule));
    SAME(1, rule);
    SAME(PSILT_RULE, psilt_pattern(&p, BYTES("f(<int>{n})"), &pattern));
    SAME(PSILT_OK, psilt_rule(&p, &rule));
    SAME(2, rule);
    SAME(PSILT_SYNTAX, psilt_pattern(&p, BYTES(""), &pattern));
    SAME(PSILT_OK, psilt_rule(&p, &rule));
    SAME(0, rule);
    SAME(4242, pattern);
    SAME(PSILT_OK, psilt_cells(&p, &out));
    SAME(0, out);
    out = 4242;
    SAME(PSILT_UNKNOWN, psilt_pattern_free(&p, 0));
    SAME(PSILT_OK, psilt_pattern(&p, BYTES("s(<appl>)"), &pattern));
    term = reads(&p, "s(z)");
    SAME(PSILT_RANGE, psilt_make(&p, pattern, &term, 0, &out));
    value = reads(&p, "7");
    SAME(PSILT_KIND, psilt_make(&p, pattern, &value, 1, &out));
    value = 4294967295u;
    SAME(PSILT_STALE, psilt_make(&p, pattern, &value, 1, &out));
    SAME(4242, out);
    SAME(PSILT_OK, psilt_match(&p, pattern, term, &count));
    SAME(PSILT_UNSPECIFIED, psilt_normalise(&p, term, 9, &value, &taken));
    SAME(PSILT_STALE, psilt_reclaim(&p, &value, 1));
    SAME(PSILT_OK, psilt_bound(&p, 0, &value));
    SAME(PSILT_OK, psilt_reclaim(&p, &term, 1));
    SAME(PSILT_RANGE, psilt_bound(&p, 0, &out));
    SAME(PSILT_OK, psilt_spec(&p, BYTES("REC-SPEC N SORTS S CONS z : -> S s : S -> S EVAL z END-SPEC"), 0, 1));
    SAME(PSILT_OK, psilt_match(&p, pattern, term, &count));
    SAME(PSILT_RANGE, psilt_eval_term(&p, 1, &out));
    SAME(PSILT_OK, psilt_bound(&p, 0, &value));
    SAME(PSILT_OK, psilt_eval_term(&p, 0, &value));
    SAME(PSILT_RANGE, psilt_bound(&p, 0, &out));
    term = reads(&p, "s(z)");
    SAME(PSILT_OK, psilt_match(&p, pattern, term, &count));
    SAME(PSILT_OK, psilt_normalise(&p, term, 9, &value, &taken));
    SAME(PSILT_RANGE, psilt_bound(&p, 0, &out));
    SAME(PSILT_OK, psilt_close(&p));
}

/* A print is done exactly if its text is no longer than the bound, and else the text before stays. */
static void prints_within(void)
{
    psilt p = PSILT_INIT;
    psilt_term term, pair[2];
    size_t len = 4242, node;
    int i;
    SAME(PSILT_OK, psilt_open(&p, 1000));
    term = reads(&p, "f(1,[a]{b},\"\\n\")");
    SAME(PSILT_OK, psilt_print_within(&p, term, 16, &len));
    is_text(__LINE__, &p, "f(1,[a]{b},\"\\n\")", len);
    len = 4242;
    SAME(PSILT_RANGE, psilt_print_within(&p, reads(&p, "abc"), 2, &len));
    SAME(PSILT_RANGE, psilt_print_within(&p, term, 15, &len));
    SAME(PSILT_RANGE, psilt_print_within(&p, term, 0, &len));
    SAME(PSILT_STALE, psilt_print_within(&p, 4294967295u, 0, &len));
    SAME(4242, len);
    is_text(__LINE__, &p, "f(1,[a]{b},\"\\n\")", 16);
    SAME(PSILT_OK, psilt_print_within(&p, term, SIZE_MAX, &len));
    SAME(16, len);
    SAME(PSILT_OK, psilt_symbol(&p, BYTES("node"), false, 2, &node));
    for (i = 0; i < 60; i++) {
        pair[0] = pair[1] = term;
        SAME(PSILT_OK, psilt_apply(&p, node, pair, 2, &term));
    }
    SAME(PSILT_RANGE, psilt_print_within(&p, term, 1000000, &len));
    SAME(16, len);
    SAME(PSILT_OK, psilt_close(&p));
}

/* The term of a table, and the table that is printed of it. */
static void opens(int line, psilt *p, const char *text, const char *term, const char *table)
{
    psilt_term out = 77, again = 77;
    size_t len = 0;
    same(line, "psilt_read_table", PSILT_OK, psilt_read_table(p, BYTES(text), &out));
    prints(line, p, out, term);
    same(line, "psilt_read", PSILT_OK, psilt_read(p, BYTES(term), &again));
    same(line, "the same term", again, out);
    same(line, "psilt_print_table", PSILT_OK, psilt_print_table(p, out, &len));
    is_text(line, p, table, len);
    same(line, "psilt_read_table", PSILT_OK, psilt_read_table(p, BYTES(table), &again));
    same(line, "the same term of the table", out, again);
}

/* A text that spells no table by a rule, after which the place stays. */
static void opens_not(int line, psilt *p, const char *text, uint32_t rule)
{
    psilt_term term = 77;
    uint32_t before = 77, out = 77;
    same(line, "psilt_place", PSILT_OK, psilt_place(p, &before));
    same(line, "psilt_read_table", PSILT_RULE, psilt_read_table(p, BYTES(text), &term));
    same(line, "term", 77, term);
    same(line, "psilt_rule", PSILT_OK, psilt_rule(p, &out));
    same(line, "rule", rule, out);
    same(line, "psilt_place", PSILT_OK, psilt_place(p, &out));
    same(line, "place", before, out);
}

static void has_tables(void)
{
    psilt p = PSILT_INIT;
    psilt_term out = 77;
    uint32_t number = 77;
    size_t len = 4242;
    SAME(PSILT_OK, psilt_open(&p, 1000));
    opens(__LINE__, &p, "[a]", "a", "[a]");
    opens(__LINE__, &p, "[7]", "7", "[7]");
    opens(__LINE__, &p, "[[]]", "[]", "[[]]");
    opens(__LINE__, &p, " [ pair(a,b) , f(<0>,<0>,<[7]>) ] ", "f(pair(a,b),pair(a,b),<7>)",
          "[pair(a,b),f(<0>,<0>,<[7]>)]");
    /* a text of 8 bytes is not shared, nor is one that is used once; an element may be used by none */
    opens(__LINE__, &p, "[pai(a,b),f(<0>,<0>)]", "f(pai(a,b),pai(a,b))", "[f(pai(a,b),pai(a,b))]");
    opens(__LINE__, &p, "[pair(a,b),f(<0>)]", "f(pair(a,b))", "[f(pair(a,b))]");
    opens(__LINE__, &p, "[pair(a,b),c]", "c", "[c]");
    opens(__LINE__, &p, "[a,<0>]", "a", "[a]");
    /* what contains a shared term comes after it; an annotation counts as a use */
    opens(__LINE__, &p, "[pair(a,b),g(<0>),h(<1>,<1>,<0>)]", "h(g(pair(a,b)),g(pair(a,b)),pair(a,b))",
          "[pair(a,b),g(<0>),h(<1>,<1>,<0>)]");
    opens(__LINE__, &p, "[f(1){pair(a,b)},pair(a,b),[<0>{},<1>]]", "[f(1){pair(a,b)},pair(a,b)]",
          "[pair(a,b),[f(1){<0>},<0>]]");
    opens(__LINE__, &p, "[pair(a,b){c},[<0>,<0>]{<0>}]", "[pair(a,b){c},pair(a,b){c}]{pair(a,b){c}}",
          "[pair(a,b){c},[<0>,<0>]{<0>}]");
    /* placeholders of the term, also of a number */
    opens(__LINE__, &p, "[<[0]>]", "<0>", "[<[0]>]");
    opens(__LINE__, &p, "[<[<[0]>]>{<[n]>}]", "<<0>>{<n>}", "[<[<[0]>]>{<[n]>}]");
    opens(__LINE__, &p, "[placeholder,[<[<0>]>,<[<0>]>]]", "[<placeholder>,<placeholder>]",
          "[<[placeholder]>,[<0>,<0>]]");
    opens(__LINE__, &p, "[<[[1]]>]", "<[1]>", "[<[[1]]>]");
    /* what spells no table */
    SAME(PSILT_SYNTAX, psilt_read_table(&p, BYTES("[a,,b]"), &out));
    SAME(PSILT_OK, psilt_rule(&p, &number));
    SAME(0, number);
    SAME(PSILT_OK, psilt_place(&p, &number));
    SAME(3, number);
    opens_not(__LINE__, &p, "a", 1);
    opens_not(__LINE__, &p, "7", 1);
    opens_not(__LINE__, &p, "[]", 1);
    opens_not(__LINE__, &p, "[a]{b}", 1);
    opens_not(__LINE__, &p, "f([a])", 1);
    opens_not(__LINE__, &p, "<[a]>", 1);
    opens_not(__LINE__, &p, "[<0>]{b}", 1);
    opens_not(__LINE__, &p, "[<0>]", 2);
    opens_not(__LINE__, &p, "[<0>,a]", 2);
    opens_not(__LINE__, &p, "[a,<1>]", 2);
    opens_not(__LINE__, &p, "[a,<-1>]", 2);
    opens_not(__LINE__, &p, "[a,f(<2147483647>),b]", 2);
    opens_not(__LINE__, &p, "[a,f(<-2147483648>)]", 2);
    opens_not(__LINE__, &p, "[a,<foo>]", 2);
    opens_not(__LINE__, &p, "[a,<0>{b}]", 2);
    opens_not(__LINE__, &p, "[a,<0{b}>]", 2);
    opens_not(__LINE__, &p, "[a,<[b,c]>]", 2);
    opens_not(__LINE__, &p, "[a,<[b]{c}>]", 2);
    opens_not(__LINE__, &p, "[a,<[]>]", 2);
    opens_not(__LINE__, &p, "[a,<<0>>]", 2);
    opens_not(__LINE__, &p, "[a,<[<1>]>]", 2);
    opens_not(__LINE__, &p, "[a,f(1){<1>}]", 2);
    SAME(PSILT_STALE, psilt_print_table(&p, 4294967295u, &len));
    SAME(4242, len);
    SAME(PSILT_OK, psilt_close(&p));
}

/* Reads a table in a store of cap cells, which is full then. */
static void takes_table(int line, const char *text, uint32_t cap)
{
    psilt p = PSILT_INIT;
    psilt_term term = 77;
    uint32_t cells = 77;
    same(line, "psilt_open", PSILT_OK, psilt_open(&p, cap));
    same(line, "psilt_read_table", PSILT_OK, psilt_read_table(&p, BYTES(text), &term));
    same(line, "psilt_cells", PSILT_OK, psilt_cells(&p, &cells));
    same(line, "cells", cap, cells);
    same(line, "psilt_close", PSILT_OK, psilt_close(&p));
    if (cap == 1)
        return;
    term = 77;
    same(line, "psilt_open", PSILT_OK, psilt_open(&p, cap - 1));
    same(line, "psilt_read_table", PSILT_FULL, psilt_read_table(&p, BYTES(text), &term));
    same(line, "term", 77, term);
    same(line, "psilt_close", PSILT_OK, psilt_close(&p));
}

/* A term of 2^60 leaves, whose table goes to another handle; and what tables take of a store. */
static void shares(void)
{
    static char table[2000];
    psilt p = PSILT_INIT, q = PSILT_INIT;
    psilt_term term, pair[2], again = 77, copy = 77;
    uint32_t cells = 77;
    size_t len = 0, node;
    char *end = table;
    int i;
    SAME(PSILT_OK, psilt_open(&p, 241));
    SAME(PSILT_OK, psilt_open(&q, 241));
    term = reads(&p, "leaf");
    SAME(PSILT_OK, psilt_symbol(&p, BYTES("node"), false, 2, &node));
    for (i = 0; i < 60; i++) {
        pair[0] = pair[1] = term;
        SAME(PSILT_OK, psilt_apply(&p, node, pair, 2, &term));
    }
    end += sprintf(end, "[node(leaf,leaf)");
    for (i = 0; i < 59; i++)
        end += sprintf(end, ",node(<%d>,<%d>)", i, i);
    end += sprintf(end, "]");
    SAME(PSILT_OK, psilt_print_table(&p, term, &len));
    SAME(strlen(table), len);
    SAME(PSILT_OK, psilt_text(&p, (uint8_t *)end + 1, len));
    SAME(0, memcmp(table, end + 1, len));
    /* each node takes three cells, and `leaf` two with the empty list */
    SAME(PSILT_OK, psilt_read_table(&p, BYTES(table), &again));
    SAME(term, again);
    SAME(PSILT_OK, psilt_read_table(&q, BYTES(table), &copy));
    SAME(PSILT_OK, psilt_cells(&q, &cells));
    SAME(182, cells);
    SAME(PSILT_OK, psilt_reclaim(&q, &copy, 1));
    SAME(PSILT_OK, psilt_cells(&q, &cells));
    SAME(182, cells);
    SAME(PSILT_OK, psilt_print_table(&q, copy, &len));
    SAME(strlen(table), len);
    SAME(PSILT_OK, psilt_close(&p));
    SAME(PSILT_OK, psilt_close(&q));
    takes_table(__LINE__, "[1]", 1);
    takes_table(__LINE__, "[[1,2]]", 5);
    /* pair(a,b), its arguments, a, b, []; f of it twice, and its arguments */
    takes_table(__LINE__, "[pair(a,b),f(<0>,<0>)]", 9);
    takes_table(__LINE__, "[1,2,3,<1>]", 3);
    /* 7, <7> */
    takes_table(__LINE__, "[7,<[<0>]>]", 2);
    /* a term with annotations is first made without them */
    takes_table(__LINE__, "[a{b}]", 5);
    takes_table(__LINE__, "[b,a{<0>}]", 5);
}

/* A request stands until it is withdrawn, and ends the evaluations of the handles that obey. */
static void stops(void)
{
    psilt p = PSILT_INIT, other = PSILT_INIT, stop = PSILT_INIT, second = PSILT_INIT;
    psilt_term term, value = 4242, kept;
    uint64_t taken = 4242;
    uint32_t place, rule;
    static const char loop[] = "REC-SPEC Loop SORTS S CONS a : -> S OPNS f : S -> S g : S -> S VARS X : S "
                               "RULES f(X) -> f(g(X)) g(X) -> X END-SPEC";
    SAME(PSILT_OK, psilt_open(&p, 1000));
    SAME(PSILT_CLOSED, psilt_obey(&p, &stop));
    SAME(PSILT_OK, psilt_open(&stop, 1));
    SAME(PSILT_OK, psilt_open(&second, 1));
    SAME(PSILT_OK, psilt_open(&other, 1000));
    SAME(PSILT_OK, psilt_interrupt(&stop, true));
    SAME(PSILT_OK, psilt_interrupt(&stop, false));
    SAME(PSILT_OK, psilt_obey(&p, &stop));
    SAME(PSILT_OK, psilt_obey(&p, &stop));
    SAME(PSILT_OK, psilt_spec(&p, BYTES(loop), 0, 100));
    SAME(PSILT_OK, psilt_spec(&other, BYTES(loop), 0, 100));
    term = reads(&p, "f(a){note}");
    kept = reads(&p, "h([1,2],f(a))");
    SAME(PSILT_OK, psilt_protect(&p, kept));
    SAME(PSILT_SYNTAX, psilt_read(&p, BYTES("f(,"), &value));
    SAME(PSILT_LIMIT, psilt_normalise(&p, term, 300000, &value, &taken));
    SAME(PSILT_OK, psilt_interrupt(&stop, true));
    SAME(PSILT_INTERRUPTED, psilt_normalise(&p, term, 18446744073709551615u, &value, &taken));
    SAME(PSILT_INTERRUPTED, psilt_normalise(&p, term, 65537, &value, &taken));
    SAME(4242, value);
    SAME(4242, taken);
    SAME(PSILT_OK, psilt_place(&p, &place));
    SAME(2, place);
    SAME(PSILT_OK, psilt_rule(&p, &rule));
    SAME(0, rule);
    PRINTS(term, "f(a){note}");
    PRINTS(kept, "h([1,2],f(a))");
    /* one of few steps reports nothing, and one that is not evaluated has its own code */
    SAME(PSILT_OK, psilt_normalise(&p, reads(&p, "g(a)"), 2, &value, &taken));
    PRINTS(value, "a");
    SAME(1, taken);
    SAME(PSILT_RULE, psilt_normalise(&p, reads(&p, "h"), 2, &value, &taken));
    SAME(PSILT_STALE, psilt_normalise(&p, 4294967295u, 2, &value, &taken));
    SAME(PSILT_LIMIT, psilt_normalise(&other, reads(&other, "f(a)"), 300000, &value, &taken));
    SAME(PSILT_OK, psilt_obey(&other, &stop));
    term = reads(&other, "f(a)");
    SAME(PSILT_INTERRUPTED, psilt_normalise(&other, term, 300000, &value, &taken));
    /* who obeys another handle does not obey the first one */
    SAME(PSILT_OK, psilt_obey(&other, &second));
    SAME(PSILT_LIMIT, psilt_normalise(&other, term, 300000, &value, &taken));
    SAME(PSILT_OK, psilt_interrupt(&second, true));
    SAME(PSILT_INTERRUPTED, psilt_normalise(&other, term, 300000, &value, &taken));
    SAME(PSILT_OK, psilt_interrupt(&second, false));
    SAME(PSILT_LIMIT, psilt_normalise(&other, term, 300000, &value, &taken));
    SAME(PSILT_OK, psilt_close(&other));
    SAME(PSILT_OK, psilt_interrupt(&second, true));
    /* a request stands when its handle is closed, and none ends it then but another handle */
    SAME(PSILT_OK, psilt_close(&stop));
    term = reads(&p, "f(a)");
    SAME(PSILT_INTERRUPTED, psilt_normalise(&p, term, 300000, &value, &taken));
    SAME(PSILT_OK, psilt_interrupt(&second, false));
    SAME(PSILT_OK, psilt_obey(&p, &second));
    SAME(PSILT_LIMIT, psilt_normalise(&p, term, 300000, &value, &taken));
    SAME(PSILT_OK, psilt_close(&second));
    SAME(PSILT_OK, psilt_close(&p));
}

int main(void)
{
    uint32_t code;
    closed();
    opens_and_closes();
    makes();
    takes_apart();
    reads_texts();
    keeps();
    fills();
    takes_cells();
    keeps_names();
    orders_codes();
    prints_long_texts();
    has_versions();
    evaluates();
    judges();
    gives_up();
    calls();
    calls_in_few_cells();
    applies();
    matches();
    refuses_patterns();
    prints_within();
    has_tables();
    shares();
    stops();
    for (code = PSILT_OK; code <= PSILT_INTERRUPTED; code++)
        SAME(0, strcmp(psilt_errstr(code), "no code of this library") == 0);
    SAME(0, strcmp(psilt_errstr(4294967295u), "no code of this library"));
    if (failures)
        printf("%d failed\n", failures);
    else
        printf("all as wanted\n");
    return failures ? 1 : 0;
}
