/* percalesilt.h: a store of annotated terms in which equal terms are one, and an engine that rewrites them.
 *
 * The header compiles without a warning as C99, C11 and C17 and as C++11, C++14, C++17 and C++20, by gcc and by
 * clang, with -Wall -Wextra -Wpedantic -Werror.
 *
 * A handle has one store. A term is known by its reference, a number of 32 bits: two references of one handle are the
 * same number exactly if their terms are equal, annotations included. References are numbers of one handle: in another
 * handle the same number means another term, or none. A reference stays valid from the call that made it until a call
 * that frees its term: psilt_reclaim, psilt_normalise, psilt_call, psilt_eval_term or psilt_close. Its number may then
 * be given to another term. The first four free no part of a protected term.
 *
 * Each call returns a code, PSILT_OK if it is done. A call writes through its out pointers if it returns PSILT_OK, and
 * only then. After any other code the handle is as it was before the call, with these exceptions:
 *  - PSILT_SYNTAX and PSILT_RULE set what psilt_place and psilt_rule return.
 *  - psilt_read, psilt_read_table, psilt_appl, psilt_apply and psilt_make may leave parts of the term, and names, after
 *    PSILT_NOMEM and PSILT_FULL; psilt_read_table also after PSILT_RULE; psilt_symbol and psilt_spec may leave names.
 *  - psilt_match may leave lists without their annotations, whatever it returns.
 *  - psilt_normalise, psilt_call and psilt_eval_term may free terms, may leave new ones, and forget bindings.
 *
 * If several codes would fit, the first one of this list is returned:
 *  1. PSILT_CLOSED, PSILT_OPEN
 *  2. PSILT_UNSPECIFIED; PSILT_UNKNOWN, of the number of a pattern or a symbol; PSILT_NAME
 *  3. PSILT_RANGE, of a number, a length or a count that is passed
 *  4. PSILT_STALE
 *  5. PSILT_KIND, PSILT_ROOTS, PSILT_UNPROTECTED, PSILT_SYNTAX
 *  6. PSILT_RANGE of psilt_arg, whose term has too few arguments, and of psilt_print_within, whose text is too long
 *  7. PSILT_RULE
 *  8. PSILT_UNMATCHED, PSILT_LIMIT, PSILT_INTERRUPTED
 * PSILT_NOMEM and PSILT_FULL are returned as soon as memory, cells or names run out, which can be before a code of the
 * lines 5 to 8 is found, but not in place of one of the lines 1 to 4.
 *
 * What the caller owes, and nothing tests: no pointer is NULL, not even if its length is 0; each points to as much
 * memory as its type or its length says; memory that a call reads or writes does not overlap what it writes; one call
 * at a time uses a handle; a handle is set by PSILT_INIT before its first call, and neither copied nor written after
 * that. Everything else that is wrong returns a code. The library keeps no pointer that it is passed.
 *
 * A handle owns memory from psilt_open to psilt_close, which it takes by malloc and realloc and returns by free. There
 * is no other state, and handles have nothing in common but the request that psilt_obey lets one make of another.
 */
#ifndef PERCALESILT_H
#define PERCALESILT_H

#include <stdbool.h>
#include <stddef.h>
#include <stdint.h>

/* The version of this header. */
#define PSILT_VERSION_MAJOR 0
#define PSILT_VERSION_MINOR 1
#define PSILT_VERSION_PATCH 0
#define PSILT_VERSION_NUMBER (1000000 * PSILT_VERSION_MAJOR + 1000 * PSILT_VERSION_MINOR + PSILT_VERSION_PATCH)

#ifdef __cplusplus
extern "C" {
#endif

/* A handle. Its fields are the library's own. */
typedef struct psilt {
    uint32_t state;
    uint8_t *held;
} psilt;

/* What a handle is before its first call: closed. */
#define PSILT_INIT {0, NULL}

/* A reference, which is a number of one handle. */
typedef uint32_t psilt_term;

/* What calls return: one of the numbers below. */
typedef uint32_t psilt_code;

enum {
    PSILT_OK = 0,           /* done */
    PSILT_NOMEM = 1,        /* memory ran out */
    PSILT_FULL = 2,         /* the store has as many cells, or as many names, as it may have */
    PSILT_CLOSED = 3,       /* the handle is not open */
    PSILT_STALE = 4,        /* a reference is not valid */
    PSILT_KIND = 5,         /* a term is of another kind than the call takes */
    PSILT_SYNTAX = 6,       /* a text is outside its grammar: psilt_place returns the offset */
    PSILT_RANGE = 7,        /* a number or a length is outside its range, or a buffer too short */
    PSILT_NAME = 8,         /* a name has to be quoted */
    PSILT_ROOTS = 9,        /* a term is protected 65,535 times */
    PSILT_UNPROTECTED = 10, /* a term is not protected */
    PSILT_OPEN = 11,        /* the handle is open already */
    PSILT_RULE = 12,        /* a text or a term violates a rule: psilt_rule returns which */
    PSILT_LIMIT = 13,       /* more steps are needed than were allowed */
    PSILT_UNSPECIFIED = 14, /* nothing is specified */
    PSILT_UNMATCHED = 15,   /* a term does not match a pattern */
    PSILT_UNKNOWN = 16,     /* no pattern, or no symbol, has a number */
    PSILT_INTERRUPTED = 17  /* the evaluation was stopped: psilt_interrupt */
};

/* What a term is. */
enum {
    PSILT_KIND_INT = 0,  /* an integer */
    PSILT_KIND_NIL = 1,  /* the empty list */
    PSILT_KIND_CONS = 2, /* a list with a first item */
    PSILT_KIND_APPL = 3, /* an application of a name to arguments, perhaps of none */
    PSILT_KIND_HOLE = 4  /* a placeholder with a term inside */
};

/* The words for a code. */
static inline const char *psilt_errstr(psilt_code code)
{
    switch (code) {
    case PSILT_OK: return "done";
    case PSILT_NOMEM: return "out of memory";
    case PSILT_FULL: return "out of cells or names";
    case PSILT_CLOSED: return "the handle is closed";
    case PSILT_STALE: return "no such reference";
    case PSILT_KIND: return "a term of another kind";
    case PSILT_SYNTAX: return "the text is outside its grammar";
    case PSILT_RANGE: return "a number outside its range";
    case PSILT_NAME: return "a name that has to be quoted";
    case PSILT_ROOTS: return "protected too often";
    case PSILT_UNPROTECTED: return "not protected";
    case PSILT_OPEN: return "the handle is open";
    case PSILT_RULE: return "a rule is broken";
    case PSILT_LIMIT: return "over the limit of steps";
    case PSILT_UNSPECIFIED: return "nothing is specified";
    case PSILT_UNMATCHED: return "no match";
    case PSILT_UNKNOWN: return "no such pattern or symbol";
    case PSILT_INTERRUPTED: return "interrupted";
    default: return "no code of this library";
    }
}

/* ---- the version */

#define PSILT_TEXT_OF(x) #x
#define PSILT_VERSION_TEXT(major, minor, patch) PSILT_TEXT_OF(major) "." PSILT_TEXT_OF(minor) "." PSILT_TEXT_OF(patch)

/* The version of this header as a string, such as "0.1.0". */
static inline const char *psilt_version(void)
{
    return PSILT_VERSION_TEXT(PSILT_VERSION_MAJOR, PSILT_VERSION_MINOR, PSILT_VERSION_PATCH);
}

/* The version of the library that the program runs with, as a number like PSILT_VERSION_NUMBER. The library is of this
 * header if the two are equal. */
uint32_t psilt_version_number(void);

/* ---- the handle. Every call below but psilt_open returns PSILT_CLOSED if the handle is closed. */

/* Opens a handle over an empty store of at most cap cells, from 1 to 1,073,741,824. Each different part of all terms
 * takes one cell. PSILT_OPEN if it is open, PSILT_RANGE if cap is outside that range, PSILT_NOMEM. */
psilt_code psilt_open(psilt *p, uint32_t cap);

/* Closes a handle, and frees all of its memory. It may be opened again. */
psilt_code psilt_close(psilt *p);

/* How many cells are in use; how many more can be without a request for memory. */
psilt_code psilt_cells(psilt *p, uint32_t *out);
psilt_code psilt_spare(psilt *p, uint32_t *out);

/* Reserves memory for count more cells, so that as many can be made without a request for memory. PSILT_FULL if that
 * would pass the limit, PSILT_NOMEM. */
psilt_code psilt_reserve(psilt *p, uint32_t count);

/* ---- names. A name counts once for each number of arguments, and once more if it is also used with quotes. Names are
 * freed by psilt_close alone: each takes about 100 bytes and its own bytes until then, even if no term has it any more,
 * and even if the call that added it then fails. These calls can add names: psilt_read, psilt_read_table, psilt_appl,
 * psilt_symbol, psilt_make and psilt_spec. */

/* How many names there are. */
psilt_code psilt_names(psilt *p, uint32_t *out);

/* From now on there may be most names; a call that would need more returns PSILT_FULL. If there are more already, none
 * is added. The limit of a handle that was opened is 4,294,967,295. */
psilt_code psilt_limit_names(psilt *p, uint32_t most);

/* ---- text */

/* The term of a text of len bytes. PSILT_RANGE if it has more than 16,777,216 bytes, PSILT_SYNTAX if it is outside the
 * grammar, PSILT_NOMEM, PSILT_FULL. May add names.
 *
 * These cells are needed: one for each part of the term, and one more for each part with annotations, since it is first
 * made without them. Each counts once, and only if the store does not have it. So in an empty store `a{b}` takes 5
 * cells, of which `a` is the one that is no part, and `f(x){1}` takes 7, of 6 parts. If fewer are left, PSILT_FULL is
 * returned, also of a term that is there: of `a{b}` if a collection freed `a`. */
psilt_code psilt_read(psilt *p, const uint8_t *text, size_t len, psilt_term *out);

/* Where the text that was refused last leaves its grammar or violates a rule, in bytes from 0; 0 before any was. */
psilt_code psilt_place(psilt *p, uint32_t *out);

/* Which rule was violated last: 1 to 11 of a specification, S1 to S11, 2 to 6 of a term, T2 to T6, 1 and 2 of a
 * pattern, P1 and P2, or of a table, R1 and R2. 0 if a text that was refused since is outside its grammar, and before
 * any was. The rules of terms, patterns and tables have no place: psilt_place returns what it did before. */
psilt_code psilt_rule(psilt *p, uint32_t *out);

/* Prints a term, and returns the length of its printed text in bytes; no 0 ends it. psilt_text copies the text, which
 * is kept until the next print or name. If it has at most 16,777,216 bytes, psilt_read reads it as the same term; if it
 * has more, psilt_read returns PSILT_RANGE. Parts that occur more than once are printed each time, so a text can be far
 * longer than its term has cells. PSILT_STALE, PSILT_NOMEM. */
psilt_code psilt_print(psilt *p, psilt_term term, size_t *len);

/* Prints a term if its text has at most most bytes, and else returns PSILT_RANGE and keeps the text before. Time and
 * memory are those of most + 1 bytes, however long the text is. PSILT_STALE, PSILT_NOMEM. */
psilt_code psilt_print_within(psilt *p, psilt_term term, size_t most, size_t *len);

/* Copies the bytes of the last print or name to the front of a buffer of size bytes. PSILT_RANGE if the buffer is
 * shorter than they are. */
psilt_code psilt_text(psilt *p, uint8_t *buffer, size_t size);

/* ---- tables. A table is a term written with one element for each subterm that it shares, so its text grows with the
 * number of different subterms, however often they occur. A table is an ordinary term, a list whose last element is the
 * term. In an element, `<k>` is the element with the number k, counted from 0, which comes earlier in the list, and a
 * placeholder `<t>` of the term is written `<[t]>`. So f(pair(a,b),pair(a,b),<7>) has the table
 * [pair(a,b),f(<0>,<0>,<[7]>)]. */

/* Prints the table of a term as psilt_print prints a term: its length in bytes is returned, and psilt_text copies it.
 * There is an element for each subterm that the different subterms use at least twice and whose text has more than 8
 * bytes, each after those inside of it, from left to right. So equal terms have equal tables, also in different
 * handles, and other terms have other tables. PSILT_STALE; PSILT_NOMEM, also if the table would take more than
 * 1,073,741,824 cells: it is made in a store of its own, which is freed. */
psilt_code psilt_print_table(psilt *p, psilt_term term, size_t *len);

/* The term of the table that a text of len bytes spells. Any table is taken, also one with elements that nothing uses.
 * PSILT_RANGE if the text has more than 16,777,216 bytes; PSILT_SYNTAX if it is outside the grammar of terms:
 * psilt_place returns where; PSILT_RULE if it is not a list without annotations that has an element, for which
 * psilt_rule returns 1 (R1), else if a placeholder is neither the number of an earlier element nor a list of one item,
 * or such a number, its placeholder or such a list has annotations, for which it returns 2 (R2); PSILT_NOMEM;
 * PSILT_FULL. May add names.
 *
 * The terms of all elements are made, with the cells that psilt_read needs for them; a collection frees what the term
 * does not use. Numbers in placeholders of the table, and lists around items, take no cells. */
psilt_code psilt_read_table(psilt *p, const uint8_t *text, size_t len, psilt_term *out);

/* ---- make. Each returns PSILT_STALE if a reference is not valid, and PSILT_NOMEM or PSILT_FULL if the term is not
 * there yet and there is no room for it. */

/* An integer. */
psilt_code psilt_int(psilt *p, int32_t value, psilt_term *out);

/* The empty list. */
psilt_code psilt_nil(psilt *p, psilt_term *out);

/* A list with one more item in front. PSILT_KIND if the tail is no list, or has annotations. */
psilt_code psilt_cons(psilt *p, psilt_term head, psilt_term tail, psilt_term *out);

/* The application of a name of len bytes to count terms. PSILT_NAME if the name is not quoted, not empty, and not a
 * letter or `_` followed by letters, digits and _ - + * $ . ; PSILT_RANGE if count is 2^32 or more. May add a name,
 * even of a term that is not made for want of cells. A name of any length is taken, also one whose printed text is too
 * long to be read. */
psilt_code psilt_appl(psilt *p, const uint8_t *name, size_t len, bool quoted,
                      const psilt_term *args, size_t count, psilt_term *out);

/* A placeholder with a term inside. */
psilt_code psilt_hole(psilt *p, psilt_term inner, psilt_term *out);

/* A term with the items of a list in place of its annotations; those of [] take them off. PSILT_KIND if anns is no
 * list, or has annotations. */
psilt_code psilt_annotate(psilt *p, psilt_term term, psilt_term anns, psilt_term *out);

/* ---- symbols, for programs that apply one name often. A symbol is a name, whether it is quoted, and a number of
 * arguments. It has a number from the first psilt_symbol until psilt_close, whatever is freed in between; equal symbols
 * have equal numbers, and others have other ones. */

/* The number of a symbol. PSILT_NAME as of psilt_appl; PSILT_NOMEM; PSILT_FULL if it is a new name and the limit of
 * names is reached. May add a name, and takes no cell. */
psilt_code psilt_symbol(psilt *p, const uint8_t *name, size_t len, bool quoted, uint32_t arity,
                        size_t *out);

/* The application of a symbol to count terms. PSILT_UNKNOWN if no symbol has the number, PSILT_RANGE if it has another
 * number of arguments than count, PSILT_STALE, PSILT_NOMEM, PSILT_FULL. Adds no name. */
psilt_code psilt_apply(psilt *p, size_t symbol, const psilt_term *args, size_t count,
                       psilt_term *out);

/* ---- read. Each returns PSILT_STALE if the reference is not valid, and PSILT_KIND if the term has no such part. None
 * requests memory, except psilt_name. */

/* What the term is. The value is written for an integer alone. */
psilt_code psilt_kind(psilt *p, psilt_term term, uint32_t *kind, int32_t *value);

/* A list's first item; the list without it, and without annotations. */
psilt_code psilt_head(psilt *p, psilt_term term, psilt_term *out);
psilt_code psilt_tail(psilt *p, psilt_term term, psilt_term *out);

/* An application's arguments, as a list; the one at place i, from 0, in time that grows with i: PSILT_RANGE if there
 * are i or fewer; how many there are. */
psilt_code psilt_args(psilt *p, psilt_term term, psilt_term *out);
psilt_code psilt_arg(psilt *p, psilt_term term, uint32_t i, psilt_term *out);
psilt_code psilt_arity(psilt *p, psilt_term term, uint32_t *out);

/* An application's name, which psilt_text copies, and its length in bytes; whether it is quoted. The first may return
 * PSILT_NOMEM. */
psilt_code psilt_name(psilt *p, psilt_term term, size_t *len);
psilt_code psilt_quoted(psilt *p, psilt_term term, bool *out);

/* The term inside a placeholder. */
psilt_code psilt_inner(psilt *p, psilt_term term, psilt_term *out);

/* The annotations, as a list. PSILT_KIND if there are none. */
psilt_code psilt_annotations(psilt *p, psilt_term term, psilt_term *out);

/* ---- keep */

/* PSILT_OK if the reference is valid, else PSILT_STALE. */
psilt_code psilt_holds(psilt *p, psilt_term term);

/* Protects a term once more, so that no call but psilt_close frees it or its parts. PSILT_STALE, PSILT_ROOTS. */
psilt_code psilt_protect(psilt *p, psilt_term term);

/* Protects it once less. PSILT_UNPROTECTED if it is protected 0 times, or not valid. */
psilt_code psilt_unprotect(psilt *p, psilt_term term);

/* Frees all terms except the parts of protected ones and of the count kept ones. All other references are stale then,
 * and the bindings of the last match are forgotten. PSILT_STALE if a kept one is not valid, PSILT_NOMEM. */
psilt_code psilt_reclaim(psilt *p, const psilt_term *kept, size_t count);

/* ---- patterns. A pattern is a term with placeholders: <term>, <int>, <str>, <appl>, <placeholder> and <list>, which
 * as the last item or argument stands for all the rest. It has a number from psilt_pattern until psilt_pattern_free or
 * psilt_close; then the number may be given to another one. It takes no cells, has its names for itself, and stays when
 * terms are freed. */

/* The number of the pattern of a text of len bytes. PSILT_RANGE if it has more than 16,777,216 bytes; PSILT_SYNTAX if
 * it is outside the grammar of terms: psilt_place returns where; PSILT_RULE if a placeholder is not one of the six, for
 * which psilt_rule returns 1, else if one has annotations, for which it returns 2; PSILT_NOMEM. */
psilt_code psilt_pattern(psilt *p, const uint8_t *text, size_t len, size_t *out);

/* Frees a pattern. PSILT_UNKNOWN if none has the number. */
psilt_code psilt_pattern_free(psilt *p, size_t pattern);

/* Matches a pattern with a term. If it matches, the handle keeps the bindings, one for each placeholder in order, in
 * place of those of the match before, and their number is returned. PSILT_UNKNOWN, PSILT_STALE, PSILT_UNMATCHED if it
 * does not match, PSILT_NOMEM, PSILT_FULL: then the bindings of the match before stay. A match may make lists without
 * annotations, and nothing else; it adds no name. */
psilt_code psilt_match(psilt *p, size_t pattern, psilt_term term, size_t *count);

/* The binding at place i, from 0, of the last match. PSILT_RANGE if there are i or fewer. A binding is a reference like
 * all others, and not protected. What frees terms forgets the bindings: psilt_reclaim if it returns PSILT_OK, and
 * psilt_normalise and psilt_eval_term unless they return PSILT_UNSPECIFIED, PSILT_STALE or PSILT_RANGE. There are 0
 * from then on. */
psilt_code psilt_bound(psilt *p, size_t i, psilt_term *out);

/* The pattern with count terms in place of its placeholders, in order; a last <list> takes a list without annotations,
 * whose items it becomes. PSILT_UNKNOWN; PSILT_RANGE if there are not as many terms as placeholders; PSILT_STALE;
 * PSILT_KIND if a placeholder does not take its term; PSILT_NOMEM; PSILT_FULL. May add names. A part of the pattern
 * with annotations is first made without them, as by psilt_read. */
psilt_code psilt_make(psilt *p, size_t pattern, const psilt_term *args, size_t count,
                      psilt_term *out);

/* ---- evaluate. A handle has one specification at a time. Terms are evaluated in the store of the handle: those made
 * before it and those made after it, and values are terms like all others. */

/* The specification of a text of len bytes in the language REC takes the place of the one before, if any. A table of
 * memo entries, from 0 to 1,048,576, stores results; garbage is collected after reclaim new cells at the latest, from 1
 * to 1,073,741,824. PSILT_RANGE if the text has more than 16,777,216 bytes, or memo or reclaim is outside its range.
 * PSILT_SYNTAX and PSILT_RULE if the text is rejected: psilt_place and psilt_rule return where and why. PSILT_NOMEM;
 * PSILT_FULL if the limit of names is reached. After all of these the specification before stays. Terms stay. May add
 * names, and takes no cell. */
psilt_code psilt_spec(psilt *p, const uint8_t *text, size_t len, uint32_t memo, uint32_t reclaim);

/* Removes the specification. Terms stay. PSILT_UNSPECIFIED if there is none. */
psilt_code psilt_spec_free(psilt *p);

/* The value of a term, and the number of its steps. PSILT_UNSPECIFIED; PSILT_STALE; PSILT_RULE if the term violates a
 * rule of terms: it holds an integer, a list or a placeholder, a node below its root has annotations, a name is not
 * declared, or is with other arguments; PSILT_LIMIT if it needs more than steps steps, or has no value;
 * PSILT_INTERRUPTED if it was stopped, as psilt_interrupt says; PSILT_NOMEM; PSILT_FULL if no cell is left after a
 * collection: for the list of the term alone, up to two cells, by which the rules are checked; or for the evaluation,
 * after the table of results was emptied too. Evaluation frees what neither a protected term nor it itself needs. The
 * given term stays in any case, and the value until the next call that evaluates or reclaims, unless it is protected.
 * Adds no name.
 *
 * The rules are checked once for each different subterm. Evaluation takes each occurrence of a subterm by itself, but
 * if there are more than 1,048,576: then arguments in which no symbol has rules are taken as they are, and a term with
 * others is PSILT_NOMEM if it has more than 4,294,967,295 occurrences. */
psilt_code psilt_normalise(psilt *p, psilt_term term, uint64_t steps, psilt_term *value,
                           uint64_t *taken);

/* The value of the call of a symbol on count values, and the number of its steps. The values are not evaluated: each
 * stands for itself, whatever it is, so nothing walks it, and the time is that of count and of the steps. If they
 * have only constructors and no annotations, psilt_normalise of the application gives the same. PSILT_UNSPECIFIED;
 * PSILT_UNKNOWN if no symbol has the number; PSILT_RANGE if it has another number of arguments than count;
 * PSILT_STALE; PSILT_RULE if the call itself violates a rule of terms: 4 if no symbol with this name and these quotes
 * is declared, 5 if it is with another number of arguments, 6 if an argument is of another sort than declared, which
 * is that of the symbol at its root; PSILT_LIMIT if it needs more than steps steps, or has no value; PSILT_NOMEM;
 * PSILT_FULL if no cell is left after a collection: for the application of the symbol to the values, which is made
 * first; or for the evaluation, after the table of results was emptied too. It frees what neither a protected term
 * nor it itself needs. The values stay in any case, and the result until the next call that evaluates or reclaims,
 * unless it is protected. psilt_interrupt does not stop it. Adds no name. */
psilt_code psilt_call(psilt *p, size_t symbol, const psilt_term *args, size_t count,
                      uint64_t steps, psilt_term *value, uint64_t *taken);

/* How many EVAL terms there are; the one of number i, from 0, which stays as a value does. PSILT_UNSPECIFIED;
 * PSILT_RANGE if there are i or fewer; PSILT_NOMEM; PSILT_FULL if no cell is left after a collection that kept only
 * protected terms and parts of this one. */
psilt_code psilt_eval_terms(psilt *p, uint32_t *out);
psilt_code psilt_eval_term(psilt *p, uint32_t i, psilt_term *out);

/* ---- stop. A second handle, which no evaluation uses, stops the evaluations of those that obey it: from another thread
 * or from a signal handler.
 *
 *     psilt p = PSILT_INIT, stop = PSILT_INIT;
 *     psilt_open(&p, 1000000);
 *     psilt_open(&stop, 1);
 *     psilt_obey(&p, &stop);
 */

/* From now on psilt_interrupt of the handle stop ends evaluations of p, and that of the handle that p obeyed before does
 * not. Any number of handles may obey one. The two have to be different handles, and neither may be in use by another
 * call. Either may be closed first. PSILT_NOMEM. */
psilt_code psilt_obey(psilt *p, psilt *stop);

/* While on is true for a handle, each evaluation by psilt_normalise of a handle that obeys it ends with
 * PSILT_INTERRUPTED: at its next report of progress, which comes after 65,536 steps at the latest; one of fewer steps
 * may end as ever. What stands after that is what stands after PSILT_LIMIT. The request stays until on is false.
 *
 * It takes no memory and no lock, and waits for nothing. It may be called while other calls use the handles that obey,
 * but as of all handles one call at a time uses this one: so a signal handler has a handle of its own to stop by. */
psilt_code psilt_interrupt(psilt *stop, bool on);

#ifdef __cplusplus
}
#endif

#endif
