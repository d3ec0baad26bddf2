/*
 * A volume file on a disk that loses power: saves, cut at any step, and recoveries, cut too, with anything at all in the sectors that were being written.
 * The program writes only the places that the calls answer. After each recovery the file holds what was saved last, or what was being saved.
 *
 * Usage: cuts ROUNDS SEED. The last line is "N passed, M failed".
 */
#include "bulgefs.h"

#include <stdio.h>
#include <stdlib.h>
#include <string.h>

enum { MAX_HOME = 300, MAX_FILE = 512 * (2 + 2 * MAX_HOME + 3) };

static uint8_t disk[MAX_FILE], memory[MAX_FILE], before[MAX_FILE];
static uint8_t saved[512 * MAX_HOME], wanted[512 * MAX_HOME];
static size_t length, home;
static uint32_t n, m, x;
static long passed, failed, cut_saves, cut_recoveries;

static void expect(int right, const char *what)
{
    if (right) {
        passed++;
    } else if (failed++ < 20) {
        printf("volume_file: %s\n", what);
    }
}

static uint64_t state;

static uint32_t below(uint32_t limit)
{
    state = state * 6364136223846793005u + 1442695040888963407u;
    return (uint32_t)(state >> 33) % limit;
}

/* A sector that was being written when power failed: old, new, mixed, or garbage that may look like a flag. */
static void spoil(size_t at)
{
    size_t i;
    uint32_t kind = below(4);
    for (i = at; i < at + 512; i++) {
        if (kind == 1 || (kind == 2 && below(2)))
            disk[i] = memory[i];
        else if (kind == 3)
            disk[i] = (uint8_t)below(256);
    }
    if (kind == 3 && below(2))
        disk[at] = 1;
}

/* Writes a place from memory to the disk; or, if the step is cut, spoils its sectors. */
static void put(size_t at, size_t count, int cut)
{
    size_t i;
    expect(at % 512 == 0 && count % 512 == 0 && at + count <= length, "a place that is not whole sectors of the file");
    if (!cut) {
        memcpy(disk + at, memory + at, count);
        return;
    }
    for (i = at; i < at + count; i += 512)
        spoil(i);
#ifdef SPOIL_ANOTHER
    /* A disk that does what is not assumed: a sector that was not being written is lost. */
    memset(disk + BULGEFS_FILE_HOME + 512 * below((uint32_t)home), (int)below(256), 512);
#endif
}

/* Steps 3 and 4, as far as they come: 1 if power failed. */
static int finish(bulgefs_file_recovered r, uint32_t cut_step)
{
    uint32_t i, last = 0;
    for (i = 0; i < r.sectors; i++) {
        bulgefs_part p = bulgefs_file_home(memory, length, i);
        expect(p.length == 512 && p.start > last, "the places of step 3 do not rise");
        last = p.start;
        put(p.start, p.length, cut_step == 3);
    }
    if (cut_step == 3)
        return 1;
    put(BULGEFS_FILE_COMMIT, BULGEFS_FILE_COMMIT_LENGTH, cut_step == 4);
    return cut_step == 4;
}

/* One save: 1 if power failed in the step. */
static int save(uint32_t cut_step)
{
    bulgefs_file_prepared p = bulgefs_file_prepare(memory, length, wanted, 512 * (size_t)n, wanted + 512 * (size_t)n,
                                                   512 * (size_t)m, wanted + 512 * ((size_t)n + m), 512 * (size_t)x);
    bulgefs_file_recovered r;
    expect(p.number == BULGEFS_FILE_OK, "prepare is refused");
    if (p.sectors == 0) {
        expect(memcmp(saved, wanted, 512 * home) == 0, "nothing to save, though something differs");
        return 0;
    }
    put(p.numbers_start, p.numbers_length, cut_step == 1);
    put(p.sectors_start, p.sectors_length, cut_step == 1);
    if (cut_step == 1)
        return 1;
    expect(memcmp(disk, memory, length) == 0, "step 1 wrote less than it changed");
    expect(bulgefs_file_commit(memory, length) == BULGEFS_FILE_OK, "commit is refused");
    put(BULGEFS_FILE_COMMIT, BULGEFS_FILE_COMMIT_LENGTH, cut_step == 2);
    if (cut_step == 2)
        return 1;
    expect(memcmp(disk, memory, length) == 0, "step 2 wrote less than it changed");
    r = bulgefs_file_recover(memory, length);
    expect(r.number == BULGEFS_FILE_OK && r.waited == 1 && r.sectors == p.sectors, "recover after commit");
    if (finish(r, cut_step))
        return 1;
    expect(memcmp(disk, memory, length) == 0, "steps 3 and 4 wrote less than they changed");
    return 0;
}

/* Power is back: recoveries, some of them cut, until one comes to its end. */
static void restart(void)
{
    for (;;) {
        bulgefs_file_recovered r;
        uint32_t cut_step = below(3) ? 0 : 3 + below(2);
        memcpy(memory, disk, length);
        r = bulgefs_file_recover(memory, length);
        expect(r.number == BULGEFS_FILE_OK, "recover is refused");
        if (!r.waited) {
            expect(memcmp(disk, memory, length) == 0, "recovery changed a file whose log does not wait");
            return;
        }
        if (!finish(r, cut_step))
            break;
        cut_recoveries++;
    }
    expect(memcmp(disk, memory, length) == 0, "recovery wrote less than it changed");
}

static void round_of_saves(void)
{
    int saves = 20;
    size_t i;
    bulgefs_file_places at;
    n = 3 + below(60);
    m = 1 + below(150);
    x = below(3);
    home = (size_t)n + m + x;
    length = (size_t)bulgefs_file_size(n, m, x);
    expect(length == BULGEFS_FILE_LENGTH(n, m, x), "BULGEFS_FILE_LENGTH");
    for (i = 0; i < length; i++)
        memory[i] = (uint8_t)below(256);
    memcpy(saved, memory + BULGEFS_FILE_HOME, 512 * home);
    expect(bulgefs_file_begin(memory, length, n, m, x) == BULGEFS_FILE_OK, "begin is refused");
    memcpy(disk, memory, length);
    while (saves-- > 0) {
        uint32_t cut_step = below(5), changes = below(4) ? below(6) : (uint32_t)home;
        memcpy(wanted, saved, 512 * home);
        while (changes-- > 0)
            wanted[512 * below((uint32_t)home) + below(512)] ^= (uint8_t)(1 + below(255));
        if (save(cut_step)) {
            int old, new;
            cut_saves++;
            restart();
            old = memcmp(memory + BULGEFS_FILE_HOME, saved, 512 * home) == 0;
            new = memcmp(memory + BULGEFS_FILE_HOME, wanted, 512 * home) == 0;
            expect(old || new, "the file holds neither what was saved nor what was being saved");
            expect(cut_step != 1 || old, "a log that was not committed was taken");
            expect(cut_step < 3 || new, "a log that was committed was lost");
            if (new && !old)
                memcpy(saved, wanted, 512 * home);
        } else {
            memcpy(saved, wanted, 512 * home);
        }
        expect(memcmp(memory + BULGEFS_FILE_HOME, saved, 512 * home) == 0, "the home is not what was saved");
        at = bulgefs_file_parts(memory, length);
        expect(at.number == 0 && at.waits == 0 && at.image_start == BULGEFS_FILE_HOME && at.image_length == 512 * n
                   && at.journal_start == at.image_start + at.image_length && at.journal_length == 512 * m
                   && at.own_start == at.journal_start + at.journal_length && at.own_length == 512 * x,
               "the parts are elsewhere");
    }
}

/* Any bytes: every call ends, and a refused one changes nothing. */
static void any_bytes(void)
{
    size_t i, changes = below(8);
    uint32_t refusal;
    memcpy(memory, disk, length);
    memory[512] = (uint8_t)below(3);
    while (changes-- > 0)
        memory[below(2) ? below(1024) : 512 * (2 + home) + below(2048)] = (uint8_t)below(256);
    i = below(4) ? length : below((uint32_t)length);
    memcpy(before, memory, length);
    refusal = bulgefs_file_check(memory, i);
    expect(bulgefs_file_parts(memory, i).number == refusal, "parts and check differ");
    expect(bulgefs_file_recover(memory, i).number == refusal, "recover and check differ");
    if (refusal) {
        expect(memcmp(memory, before, length) == 0, "a refused recover changed a byte");
        expect(bulgefs_file_home(memory, i, 0).length == 0, "a place in a refused file");
    }
    memcpy(memory, before, length);
    if (bulgefs_file_commit(memory, i))
        expect(memcmp(memory, before, length) == 0, "a refused commit changed a byte");
    else
        expect(bulgefs_file_check(memory, i) == 0, "a commit made a file that is none");
}

int main(int count, char **words)
{
    long rounds = count > 1 ? atol(words[1]) : 200;
    state = count > 2 ? strtoull(words[2], NULL, 10) : 1;
    while (rounds-- > 0) {
        int i;
        round_of_saves();
        for (i = 0; i < 200; i++)
            any_bytes();
    }
    printf("volume_file: %ld saves cut, %ld recoveries cut\n", cut_saves, cut_recoveries);
    expect(cut_saves > 0 && cut_recoveries > 0, "nothing was cut");
    printf("%ld passed, %ld failed\n", passed, failed);
    return failed != 0;
}
