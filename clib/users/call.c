/* Makes a term of 2^60 leaves in 182 cells by calls of an operator on values, and calls it on that 1,000 times. */
#include "../percalesilt.h"
#include <stdio.h>
#include <stdlib.h>
#include <string.h>

static const char trees[] = "REC-SPEC Trees SORTS Tree CONS leaf : -> Tree node : Tree Tree -> Tree "
                            "OPNS dup : Tree -> Tree VARS X : Tree RULES dup(X) -> node(X,X) END-SPEC";

/* Ends the program where a call answers another code than PSILT_OK. */
static void done(psilt_code code)
{
    if (code == PSILT_OK)
        return;
    fprintf(stderr, "%s\n", psilt_errstr(code));
    exit(1);
}

int main(void)
{
    psilt p = PSILT_INIT;
    psilt_term leaf, tree, value;
    size_t dup;
    uint64_t taken, steps = 0;
    uint32_t cells;
    int i;
    done(psilt_open(&p, 100000));
    done(psilt_spec(&p, (const uint8_t *)trees, strlen(trees), 0, 1000));
    done(psilt_symbol(&p, (const uint8_t *)"dup", 3, false, 1, &dup));
    done(psilt_read(&p, (const uint8_t *)"leaf", 4, &leaf));
    /* the tree of each call is the value of the next one, which its steps do not walk */
    for (tree = leaf, i = 0; i < 60; i++) {
        done(psilt_call(&p, dup, &tree, 1, 1000, &tree, &taken));
        steps += taken;
    }
    done(psilt_reclaim(&p, &tree, 1));
    done(psilt_cells(&p, &cells));
    printf("%llu steps, %lu cells\n", (unsigned long long)steps, (unsigned long)cells);
    for (steps = 0, i = 0; i < 1000; i++) {
        done(psilt_call(&p, dup, &tree, 1, 1000, &value, &taken));
        steps += taken;
    }
    printf("%llu steps\n", (unsigned long long)steps);
    done(psilt_close(&p));
    return 0;
}
