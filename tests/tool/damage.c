/*
 * damage TOOL IMAGE ROUNDS: spoils a copy of a sound image at random, some bytes at a time, and has TOOL check it.  It must end with 0 or 1; its
 * explanation must be of the stage that the library gives; `map` and `report` must show it and give the same status; `salvage` of it must refuse or make a
 * sound volume.  The last line is `N passed, M failed`.
 */
#include "state.h"

#include <stdio.h>
#include <stdlib.h>
#include <string.h>
#include <unistd.h>

typedef struct {
    char *check[4], *salvage[5], *check_out[4], *map[4], *report[5];
    kept_file sound;
    uint64_t seed;
    int passed, failed, stages[8], saved;
} trial;

static uint32_t next(trial *t)
{
    t->seed = t->seed * 6364136223846793005u + 1442695040888963407u;
    return (uint32_t)(t->seed >> 33);
}

static void judge(trial *t, int good, int round, const char *what)
{
    t->passed += good;
    t->failed += !good;
    if (!good)
        fprintf(stderr, "round %d: %s\n", round, what);
}

static int run(char **argv)
{
    const char *none[] = { NULL };
    return run_with(argv, none);
}

/* Whether the tool said these words. */
static int said(const char *words)
{
    kept_file f;
    read_file(&f, "../said");
    f.bytes[f.length] = 0;
    int found = strstr((const char *)f.bytes, words) != NULL;
    free(f.bytes);
    return found;
}

static void count_stage(trial *t)
{
    char words[32];
    for (int i = 1; i < 8; i++) {
        snprintf(words, sizeof words, "not sound: %d,", i);
        t->stages[i] += said(words);
    }
}

/* Most damage goes to the first blocks: header, table, root, the first folders. */
static void spoil(trial *t, uint8_t *bytes, size_t length)
{
    static const uint8_t likely[] = { 0, 1, 2, 3, 4, 5, 0x20, 0x5F, 0x60, 0x9F, 0xFF };
    int count = 1 + (int)(next(t) % 3);
    size_t reach = next(t) % 8 == 0 ? length : length < 3072 ? length : 3072;
    for (; count > 0; count--) {
        size_t at = next(t) % (next(t) % 4 == 0 ? 64 : reach);
        bytes[at] = next(t) % 3 ? likely[next(t) % sizeof likely] : (uint8_t)next(t);
    }
}

static void one_round(trial *t, int round)
{
    kept_file copy = t->sound;
    copy.bytes = room(copy.length);
    memcpy(copy.bytes, t->sound.bytes, copy.length);
    spoil(t, copy.bytes, copy.length);
    if (next(t) % 16 == 0)
        copy.length -= next(t) % copy.length;
    write_file(&copy);
    free(copy.bytes);
    int status = run(t->check);
    judge(t, status == 0 || status == 1, round, "check gave another status");
    judge(t, !said("no explanation"), round, "the explanation is not of the library's stage");
    if (status == 1)
        count_stage(t);
    judge(t, run(t->map) == status, round, "map gave another status");
    unlink("page");
    if (round % 4 == 0)
        judge(t, run(t->report) == status && access("page", F_OK) == 0, round, "report gave another status, or no page");
    if (status != 1 || round % 4)
        return;
    unlink("out");
    int made = run(t->salvage);
    judge(t, made == 0 ? run(t->check_out) == 0 : made == 1 && access("out", F_OK) != 0, round, "salvage");
    t->saved += made == 0;
}

int main(int argc, char **argv)
{
    static trial t = { .seed = 4471 };
    if (argc != 4)
        return 2;
    char *check[] = { argv[1], "check", argv[2], NULL }, *salvage[] = { argv[1], "salvage", argv[2], "out", NULL };
    char *check_out[] = { argv[1], "check", "out", NULL }, *map[] = { argv[1], "map", argv[2], NULL };
    char *report[] = { argv[1], "report", argv[2], "page", NULL };
    memcpy(t.check, check, sizeof check);
    memcpy(t.salvage, salvage, sizeof salvage);
    memcpy(t.check_out, check_out, sizeof check_out);
    memcpy(t.map, map, sizeof map);
    memcpy(t.report, report, sizeof report);
    read_file(&t.sound, argv[2]);
    for (int i = 0; i < atoi(argv[3]); i++)
        one_round(&t, i);
    write_file(&t.sound);
    for (int i = 1; i < 8; i++)
        judge(&t, t.stages[i] > 0, -i, "no image failed at this stage");
    judge(&t, t.saved > 0, 0, "no volume was salvaged");
    printf("%d passed, %d failed\n", t.passed, t.failed);
    return t.failed != 0;
}
