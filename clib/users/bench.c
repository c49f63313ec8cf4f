/* Nanoseconds of the processor that a call takes: bench [CELLS]. So many new terms of a kind are made, three million where
 * nothing is said; above them stands what the machine takes for as many cells of the same size without the library. */
#include "../percalesilt.h"
#include <stdio.h>
#include <stdlib.h>
#include <time.h>

#define TURNS 10000000

static double begin;

static void start(void)
{
    begin = (double)clock();
}

static void tell(const char *what, double times)
{
    printf("%-52s %7.1f\n", what, ((double)clock() - begin) * (1e9 / CLOCKS_PER_SEC) / times);
    fflush(stdout);
}

/* As large as a cell of the store. */
struct cell {
    uint64_t words[6];
};

static void fill(struct cell *cell, uint64_t word)
{
    int i;
    for (i = 0; i < 6; i++)
        cell->words[i] = word;
}

/* A number below a limit that looks as if drawn by chance; the same at each run. */
static uint32_t drawn(uint32_t i, uint32_t limit)
{
    uint64_t mixed = (i + 1) * UINT64_C(0x9E3779B97F4A7C15);
    mixed = (mixed ^ mixed >> 32) * UINT64_C(0xD6E8FEB86659FD93);
    return (uint32_t)((mixed >> 32) * limit >> 32);
}

/* What the machine takes. */
static int machine(uint32_t cells)
{
    struct cell *in_turn = malloc(cells * sizeof *in_turn), *drawn_at = malloc(cells * sizeof *drawn_at);
    uint64_t sum = 0;
    uint32_t i;
    if (in_turn == NULL || drawn_at == NULL)
        return 1;
    start();
    for (i = 0; i < cells; i++)
        fill(&in_turn[i], i);
    tell("48 bytes in turn, in new memory", cells);
    start();
    for (i = 0; i < cells; i++)
        fill(&in_turn[i], i);
    tell("the same again", cells);
    start();
    for (i = 0; i < cells; i++)
        fill(&drawn_at[drawn(i, cells)], i);
    tell("48 bytes at a place by chance, in new memory", cells);
    start();
    for (i = 0; i < cells; i++)
        fill(&drawn_at[drawn(i, cells)], i);
    tell("the same again", cells);
    start();
    for (i = 0; i < cells; i++)
        sum += drawn_at[drawn(i + cells, cells)].words[0];
    tell("8 bytes read at a place by chance", cells);
    free(in_turn);
    free(drawn_at);
    return sum == 1;
}

/* Makes a list of so many nodes, of one item or of the integers from 0 on. */
static psilt_term list_of(psilt *p, psilt_term item, int cells)
{
    psilt_term list;
    int i;
    psilt_nil(p, &list);
    for (i = 0; i < cells; i++)
        psilt_cons(p, item, list, &list);
    return list;
}

static psilt_term integers(psilt *p, int cells)
{
    psilt_term item = 0;
    int i;
    for (i = 0; i < cells; i++)
        psilt_int(p, i, &item);
    return item;
}

/* New terms: in new memory, in memory that was used before, and where there is room. */
static int new_terms(int cells)
{
    psilt lists = PSILT_INIT, numbers = PSILT_INIT, roomy = PSILT_INIT;
    psilt_term item;
    if (psilt_open(&lists, 1u << 30) != PSILT_OK || psilt_open(&numbers, 1u << 30) != PSILT_OK
        || psilt_open(&roomy, 1u << 30) != PSILT_OK)
        return 1;
    psilt_int(&lists, 5, &item);
    start();
    list_of(&lists, item, cells);
    tell("a new list node", cells);
    psilt_reclaim(&lists, &item, 0);
    psilt_int(&lists, 5, &item);
    start();
    list_of(&lists, item, cells);
    tell("the same behind a reclaim", cells);
    start();
    integers(&numbers, cells);
    tell("a new integer", cells);
    psilt_reclaim(&numbers, &item, 0);
    start();
    integers(&numbers, cells);
    tell("the same behind a reclaim", cells);
    start();
    if (psilt_reserve(&roomy, (uint32_t)cells + 2) != PSILT_OK)
        return 1;
    tell("room for a cell", cells);
    start();
    integers(&roomy, cells);
    tell("a new integer where there is room", cells);
    if (psilt_close(&lists) != PSILT_OK || psilt_close(&numbers) != PSILT_OK)
        return 1;
    return psilt_close(&roomy) == PSILT_OK ? 0 : 1;
}

/* Looks at terms, and terms that are there. */
static int known_terms(int cells)
{
    psilt p = PSILT_INIT;
    psilt_term list, item = 0, t;
    int i;
    if (psilt_open(&p, 1u << 30) != PSILT_OK)
        return 1;
    psilt_int(&p, 5, &t);
    list = list_of(&p, t, cells);
    start();
    for (i = 0; i < TURNS; i++)
        psilt_head(&p, list, &item);
    tell("a head", TURNS);
    start();
    for (item = list, i = 0; i < cells; i++)
        psilt_tail(&p, item, &item);
    tell("a tail along the list", cells);
    start();
    list_of(&p, t, cells);
    tell("a list node that is there", cells);
    integers(&p, 1024);
    start();
    for (i = 0; i < TURNS; i++)
        psilt_int(&p, i & 1023, &item);
    tell("an integer that is there", TURNS);
    return psilt_close(&p) == PSILT_OK ? 0 : 1;
}

/* The same name over so many arguments, one within the other. */
static psilt_term applied(psilt *p, psilt_term first, int cells)
{
    psilt_term two[2];
    int i;
    two[0] = first;
    psilt_int(p, 1023, &two[1]);
    for (i = 0; i < cells; i++)
        psilt_appl(p, (const uint8_t *)"plus", 4, false, two, 2, &two[1]);
    return two[1];
}

static psilt_term applied_by(psilt *p, size_t symbol, psilt_term first, int cells)
{
    psilt_term two[2];
    int i;
    two[0] = first;
    psilt_int(p, 1023, &two[1]);
    for (i = 0; i < cells; i++)
        psilt_apply(p, symbol, two, 2, &two[1]);
    return two[1];
}

/* Applications, and what a pattern does with one. */
static int applications(int cells)
{
    psilt p = PSILT_INIT;
    psilt_term item = 0, t, two[2];
    size_t number, count;
    int i;
    if (psilt_open(&p, 1u << 30) != PSILT_OK)
        return 1;
    psilt_int(&p, 5, &t);
    start();
    item = applied(&p, t, cells);
    tell("a new application of 2, with its 2 list nodes", cells);
    start();
    applied(&p, t, cells);
    tell("one that is there", cells);
    psilt_symbol(&p, (const uint8_t *)"plus", 4, false, 2, &number);
    start();
    applied_by(&p, number, t, cells);
    tell("one that is there, by its symbol", cells);
    psilt_pattern(&p, (const uint8_t *)"plus(<int>,<term>)", 18, &number);
    start();
    for (i = 0; i < cells; i++)
        psilt_match(&p, number, item, &count);
    tell("a match with 2 bindings", cells);
    start();
    for (i = 0; i < TURNS; i++)
        psilt_bound(&p, i & 1, &t);
    tell("a binding", TURNS);
    psilt_bound(&p, 0, &two[0]);
    psilt_bound(&p, 1, &two[1]);
    start();
    for (i = 0; i < cells; i++)
        psilt_make(&p, number, two, 2, &t);
    tell("a make by a pattern, of a term that is there", cells);
    return t == item && psilt_close(&p) == PSILT_OK ? 0 : 1;
}

int main(int count, char **words)
{
    int cells = count > 1 ? atoi(words[1]) : 3000000;
    if (cells <= 0 || cells > 100000000)
        return 2;
    printf("nanoseconds, by %d cells\n", cells);
    return machine((uint32_t)cells) || new_terms(cells) || known_terms(cells) || applications(cells);
}
