/*
 * main.c - the walk as a program with a C library: main CALLS SEED prints the
 * hash.  With a third word it also prints a line for each call: its name, and
 * every number that it gave with how often, as `create 0:812 9:31`, and for a
 * change how often it was tried in a journal of exactly its length (walk.h).
 */
#include "walk.h"

#include <inttypes.h>
#include <stdio.h>
#include <stdlib.h>

#define WALK_NAME(name) #name,
static const char *const names[] = {WALK_CALLS(WALK_NAME)};

int main(int argc, char **argv)
{
    uint64_t calls = argc > 1 ? strtoull(argv[1], 0, 10) : 20000, seed = argc > 2 ? strtoull(argv[2], 0, 10) : 1;
    walk_begin(seed);
    printf("%016" PRIx64 "\n", walk_to(calls));
    for (int k = 0; argc > 3 && k < WALK_KINDS; k++) {
        printf("%s", names[k]);
        for (int n = 0; n < WALK_NUMBERS; n++)
            if (walk_seen[k][n]) printf(" %d:%" PRIu32, n, walk_seen[k][n]);
        if (walk_fitted[k]) printf(" fitted:%" PRIu32, walk_fitted[k]);
        printf("\n");
    }
    return 0;
}
