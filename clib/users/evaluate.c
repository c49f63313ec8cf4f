/* Writes the value of each term below EVAL of a specification, and the steps that it took: evaluate FILE [STEPS]. */
#include "../percalesilt.h"
#include <stdio.h>
#include <stdlib.h>

#define LONGEST 16777216

/* Ends the program where a call answers another code than PSILT_OK. */
static void done(psilt *p, uint32_t code)
{
    uint32_t place = 0, rule = 0;
    if (code == PSILT_OK)
        return;
    psilt_place(p, &place);
    psilt_rule(p, &rule);
    fprintf(stderr, "%s (place %u, rule %u)\n", psilt_errstr(code), place, rule);
    exit(1);
}

static void print(psilt *p, psilt_term term, uint64_t taken)
{
    size_t len = 0;
    uint8_t *text;
    done(p, psilt_print(p, term, &len));
    text = malloc(len + 1);
    if (text == NULL)
        exit(1);
    done(p, psilt_text(p, text, len));
    fwrite(text, 1, len, stdout);
    printf("\t%llu\n", (unsigned long long)taken);
    free(text);
}

int main(int count, char **words)
{
    static uint8_t text[LONGEST + 1];
    psilt p = PSILT_INIT;
    psilt_term term, value;
    uint64_t taken, steps = count > 2 ? strtoull(words[2], NULL, 10) : 1000000;
    uint32_t terms, i, code;
    FILE *file = count > 1 ? fopen(words[1], "rb") : NULL;
    size_t len;
    if (file == NULL)
        return 2;
    len = fread(text, 1, sizeof text, file);
    fclose(file);
    done(&p, psilt_open(&p, 16777216));
    done(&p, psilt_spec(&p, text, len, 65536, 262144));
    done(&p, psilt_eval_terms(&p, &terms));
    for (i = 0; i < terms; i++) {
        done(&p, psilt_eval_term(&p, i, &term));
        code = psilt_normalise(&p, term, steps, &value, &taken);
        if (code == PSILT_LIMIT) {
            printf("!limit %llu\n", (unsigned long long)steps);
            continue;
        }
        done(&p, code);
        print(&p, value, taken);
    }
    return psilt_close(&p) == PSILT_OK ? 0 : 1;
}
