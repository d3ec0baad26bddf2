/*
 * Times a write of 8 blocks on a volume that is full but for its last 8 blocks,
 * and on one that is full but for its first, beside the plain C baseline, which
 * scans the table for them, and beside the check alone.  Both sides must leave
 * the same bytes.  Prints a table that is Markdown too.
 *
 * Usage: full
 */
#define _POSIX_C_SOURCE 199309L

#include "bulgefs.h"

#include <math.h>
#include <stdio.h>
#include <stdlib.h>
#include <string.h>
#include <time.h>

uint32_t baseline_check(const uint8_t *, size_t);
bulgefs_changed baseline_write(uint8_t *, size_t, uint8_t *, size_t, const uint8_t *, size_t,
                               uint64_t, const uint8_t *, size_t, uint64_t);
bulgefs_changed baseline_undo(uint8_t *, size_t, uint8_t *, size_t);

enum { JOURNAL = 65536, DATA = 4096, FREE_BLOCKS = 8, SAMPLES = 41, ROOT_BLOCKS = 1 };

static const uint32_t block_counts[] = {1024, 4096, 16384, 65536};

static uint8_t image[BULGEFS_IMAGE_SIZE(65536)], saved[2][BULGEFS_IMAGE_SIZE(65536)];
static uint8_t journal[JOURNAL], data[DATA];
static const uint8_t old_file[] = "/old", new_file[] = "/new";
enum { PATH = sizeof new_file - 1 };

static double now(void)
{
    struct timespec t;
    clock_gettime(CLOCK_MONOTONIC, &t);
    return (double)t.tv_sec + (double)t.tv_nsec * 1e-9;
}

static void require(uint32_t number, const char *what)
{
    if (number != BULGEFS_OK) {
        fprintf(stderr, "full: %s was refused with %u\n", what, (unsigned)number);
        exit(EXIT_FAILURE);
    }
}

static void put32(uint8_t *p, uint32_t v)
{
    p[0] = (uint8_t)(v >> 24);
    p[1] = (uint8_t)(v >> 16);
    p[2] = (uint8_t)(v >> 8);
    p[3] = (uint8_t)v;
}

/* A volume of n blocks whose last or first are free: one file has all others, in a row. */
static void make_volume(uint32_t n, size_t len, int last_free)
{
    static const uint8_t volume_name[128] = "full";
    bulgefs_uuid uuid = {{0}};
    uint32_t root = (n + 127) / 128 + 1;
    uint32_t first = root + ROOT_BLOCKS + (last_free ? 0 : FREE_BLOCKS);
    uint32_t end = n - (last_free ? FREE_BLOCKS : 0);
    require(bulgefs_format(image, len, ROOT_BLOCKS, 1, uuid, volume_name, 128), "format");
    require(bulgefs_journal_start(journal, JOURNAL), "start");
    require(bulgefs_create(image, len, journal, JOURNAL, old_file, PATH, 0x60, 0, 0, 0, 0,
                           1).number,
            "create");
    require(bulgefs_create(image, len, journal, JOURNAL, new_file, PATH, 0x60, 0, 0, 0, 0,
                           1).number,
            "create");
    uint8_t *entry = image + 512 * (size_t)root + 128;
    put32(entry + 4, first);
    put32(entry + 8, 512 * (end - first));
    put32(entry + 12, end - first);
    for (uint32_t b = first; b < end; b++)
        put32(image + 512 + 4 * (size_t)b, b + 1 < end ? b + 1 : 1);
    put32(image + 20, n - FREE_BLOCKS);
    put32(image + 24, FREE_BLOCKS);
    require(bulgefs_check(image, len), "the volume");
}

/* Microseconds of a write, the least of some samples; each write is taken back. */
static double time_write(int baseline, size_t len)
{
    double least = INFINITY;
    for (int i = 0; i < SAMPLES; i++) {
        double begin = now();
        uint32_t number = (baseline ? baseline_write : bulgefs_write)(
            image, len, journal, JOURNAL, new_file, PATH, 0, data, DATA, 2).number;
        least = fmin(least, now() - begin);
        require(number, "write");
        if (i == 0)
            memcpy(saved[baseline], image, len);
        require(bulgefs_undo(image, len, journal, JOURNAL).number, "undo");
    }
    return least * 1e6;
}

/* The same of a check. */
static double time_check(int baseline, size_t len)
{
    double least = INFINITY;
    for (int i = 0; i < SAMPLES; i++) {
        double begin = now();
        uint32_t number = (baseline ? baseline_check : bulgefs_check)(image, len);
        least = fmin(least, now() - begin);
        require(number, "check");
    }
    return least * 1e6;
}

/* Both sides' times of a write, which must leave the same image. */
static void time_both(size_t len, double *times)
{
    for (int side = 0; side < 2; side++)
        times[side] = time_write(side, len);
    if (memcmp(saved[0], saved[1], len) != 0) {
        fprintf(stderr, "full: the two sides do not do the same work\n");
        exit(EXIT_FAILURE);
    }
}

int main(void)
{
    memset(data, 7, sizeof data);
    printf("A write of 8 blocks, on volumes full but for the last, or the first, 8 blocks\n\n"
           "| n | last free, ours | plain C | ratio | first free, ours | plain C | check, ours | plain C |\n"
           "|--:|--:|--:|--:|--:|--:|--:|--:|\n");
    for (size_t i = 0; i < sizeof block_counts / sizeof block_counts[0]; i++) {
        uint32_t n = block_counts[i];
        size_t len = (size_t)n * 512;
        double last[2], first[2];
        make_volume(n, len, 1);
        time_both(len, last);
        make_volume(n, len, 0);
        time_both(len, first);
        printf("| %u | %.1f us | %.1f | %.2f | %.1f us | %.1f | %.1f us | %.1f |\n", (unsigned)n,
               last[0], last[1], last[0] / last[1], first[0], first[1], time_check(0, len),
               time_check(1, len));
    }
    return EXIT_SUCCESS;
}
