/*
 * mutants.c - the walk with single faults in the C form of the calls (mutants.awk).
 * mutants LIST CALLS SEED PART PARTS makes the walk once without a fault and notes
 * its hash every 50 calls, then once with each fault of the list whose line leaves
 * the rest PART, until the hash is another one.  It prints `NUMBER CALLS` for a fault
 * that was found within so many calls, and `NUMBER not found` for another.  A fault
 * by which the program ends or hangs is found.
 */
#define _DEFAULT_SOURCE
#include "walk.h"

#include <stdio.h>
#include <stdlib.h>
#include <sys/mman.h>
#include <sys/wait.h>
#include <unistd.h>

enum { STEP = 50, MOST = 2000 };

int mutant;
static struct {
    uint64_t hash[MOST];
    uint32_t calls;      /* that were made until the fault was found */
} *shared;

static void walk(uint64_t calls, uint64_t seed)
{
    walk_begin(seed);
    for (uint64_t n = STEP; n <= calls; n += STEP) {
        uint64_t h = walk_to(n);
        shared->calls = (uint32_t)n;
        if (mutant == 0)
            shared->hash[n / STEP] = h;
        else if (h != shared->hash[n / STEP])
            _exit(1);
    }
    _exit(0);
}

/* Whether the walk with this fault, in a program of its own, is the one without. */
static int survives(int m, uint64_t calls, uint64_t seed)
{
    int status;
    pid_t child;
    shared->calls = 0;
    fflush(stdout);
    child = fork();
    if (child == 0) {
        mutant = m;
        alarm(120);
        walk(calls, seed);
    }
    if (child < 0 || waitpid(child, &status, 0) != child)
        abort();
    return WIFEXITED(status) && WEXITSTATUS(status) == 0;
}

int main(int argc, char **argv)
{
    FILE *list = argc > 5 ? fopen(argv[1], "r") : NULL;
    uint64_t calls = list ? strtoull(argv[2], 0, 10) : 0, seed = list ? strtoull(argv[3], 0, 10) : 0;
    int part = list ? atoi(argv[4]) : 0, parts = list ? atoi(argv[5]) : 1;
    char line[300];
    shared = mmap(NULL, sizeof *shared, PROT_READ | PROT_WRITE, MAP_SHARED | MAP_ANONYMOUS, -1, 0);
    if (!list || shared == MAP_FAILED || calls >= (uint64_t)STEP * MOST || !survives(0, calls, seed))
        return 2;
    for (int tried = 0; fgets(line, sizeof line, list); tried++) {
        int m = atoi(line);
        if (tried % parts != part)
            continue;
        if (survives(m, calls, seed))
            printf("%d not found\n", m);
        else
            printf("%d %u\n", m, (unsigned)shared->calls + STEP);
    }
    return 0;
}
