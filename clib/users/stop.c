/* Stops evaluations that do not end: from another thread, and from a signal handler. */
#define _POSIX_C_SOURCE 200809L
#include "../percalesilt.h"
#include <pthread.h>
#include <signal.h>
#include <stdio.h>
#include <string.h>
#include <time.h>

static const char loop[] = "REC-SPEC Loop SORTS S CONS a : -> S OPNS f : S -> S g : S -> S VARS X : S "
                           "RULES f(X) -> f(g(X)) g(X) -> X END-SPEC";
static psilt p = PSILT_INIT, stop = PSILT_INIT;
static struct timespec asked;

static double since(struct timespec then)
{
    struct timespec now;
    clock_gettime(CLOCK_MONOTONIC, &now);
    return (double)(now.tv_sec - then.tv_sec) + 1e-9 * (double)(now.tv_nsec - then.tv_nsec);
}

static void handler(int number)
{
    (void)number;
    psilt_interrupt(&stop, true);
}

/* Waits for some milliseconds, and then interrupts, or else sends the signal for which there is a handler. */
static void *asks(void *milliseconds)
{
    long n = *(long *)milliseconds;
    struct timespec pause = {0, 1000000 * n};
    nanosleep(&pause, NULL);
    clock_gettime(CLOCK_MONOTONIC, &asked);
    if (n % 2)
        psilt_interrupt(&stop, true);
    else
        raise(SIGUSR1);
    return NULL;
}

/* How many seconds an evaluation goes on after it is stopped; 9 if something is not as wanted. */
static double late(long milliseconds)
{
    pthread_t thread;
    psilt_term term, value;
    uint64_t taken;
    double seconds;
    if (psilt_read(&p, (const uint8_t *)"f(a)", 4, &term) || pthread_create(&thread, NULL, asks, &milliseconds))
        return 9;
    if (psilt_normalise(&p, term, UINT64_MAX, &value, &taken) != PSILT_INTERRUPTED)
        return 9;
    seconds = since(asked);
    pthread_join(thread, NULL);
    /* nothing of it is left once it is withdrawn */
    if (psilt_interrupt(&stop, false) || psilt_normalise(&p, term, 100000, &value, &taken) != PSILT_LIMIT)
        return 9;
    return seconds;
}

int main(void)
{
    struct sigaction action;
    double seconds, least[2] = {9, 9};
    long n;
    memset(&action, 0, sizeof action);
    action.sa_handler = handler;
    if (sigaction(SIGUSR1, &action, NULL) || psilt_open(&p, 1000) || psilt_open(&stop, 1) || psilt_obey(&p, &stop)
        || psilt_spec(&p, (const uint8_t *)loop, sizeof loop - 1, 0, 100)) {
        printf("not begun\n");
        return 1;
    }
    /* a machine with other work may be late, but not each time */
    for (n = 10; n < 20; n++) {
        seconds = late(n);
        if (seconds < least[n % 2])
            least[n % 2] = seconds;
    }
    psilt_close(&p);
    psilt_close(&stop);
    for (n = 0; n < 2; n++)
        if (least[n] >= 0.1)
            printf("%s: %.3f seconds late\n", n ? "a thread" : "a signal handler", least[n]);
    if (least[0] >= 0.1 || least[1] >= 0.1)
        return 1;
    printf("all as wanted\n");
    return 0;
}
