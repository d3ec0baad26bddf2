/*
 * What a save costs: the bytes that it writes and its flushes, for one put on a
 * volume of 4,096 blocks, against the bytes of the whole file; and the time of
 * bulgefs_file_prepare against memcmp of the same sectors, and where sectors differ
 * also against memcmp and memcpy of those.  The first argument says how many turns
 * are taken; of each time the least counts, and all are taken in turn, because the
 * machine may have other work.
 */
#define _POSIX_C_SOURCE 200809L
#include "disk.h"
#include "pair.h"

#include <stdio.h>
#include <stdlib.h>
#include <string.h>
#include <time.h>

#define BIG_IMAGE   (4096 * 512u)
#define BIG_JOURNAL (8192 * 512u)

static uint8_t image[BIG_IMAGE], journal[BIG_JOURNAL];

static double now(void)
{
    struct timespec t;
    clock_gettime(CLOCK_MONOTONIC, &t);
    return (double)t.tv_sec * 1e6 + (double)t.tv_nsec / 1e3;
}

static uint32_t put(bulgefs_volume_file *v, unsigned revision)
{
    uint8_t data[100];
    memset(data, (int)revision, sizeof data);
    return bulgefs_put_settings(v->image, v->image_len, v->journal, v->journal_len, (const uint8_t *)"B7", 2, data,
                                sizeof data, 1700000000000u + revision).number;
}

/* Sectors in which the lent parts and the file's bytes differ. */
static unsigned differing(const bulgefs_volume_file *v)
{
    unsigned count = 0;
    size_t length = v->image_len + v->journal_len + v->own_len;
    for (size_t at = 0; at < length; at += 512)
        count += memcmp(v->lent + at, v->bytes + BULGEFS_FILE_HOME + at, 512) != 0;
    return count;
}

/*
 * Written are the numbers of the log, one sector, the changed sectors in the log and
 * at home, and the commit sector twice.  The figures are those of docs/SAVING.md.
 */
static void run_save(bulgefs_volume_file *v, unsigned revision)
{
    unsigned sectors;
    unsigned long told = revision == 1 ? 9728 : 6656;
    judge(put(v, revision) == 0, "put %u", revision);
    sectors = differing(v);
    disk_arm(NO_FAULT, 0);
    judge(bulgefs_volume_save(v).error == 0, "save %u", revision);
    judge(disk_count.flushes == 4, "save %u: %u flushes", revision, disk_count.flushes);
    judge(disk_count.written == 512ul * (1 + 2 * sectors + 2), "save %u: %lu bytes, %u sectors differ", revision,
          disk_count.written, sectors);
    judge(disk_count.written == told && disk_count.writes == 8 && v->bytes_len == 12633600, "the page's figures");
    printf("put %u: %u sectors differ, %lu bytes in %u writes, %u flushes; the file has %zu bytes\n", revision, sectors,
           disk_count.written, disk_count.writes, disk_count.flushes, v->bytes_len);
}

/* ---- time ---- */

typedef struct {
    uint8_t *file, *image, *journal, *own, *room;
    size_t file_len, image_len, journal_len, own_len;
} sizes;

static uint8_t *memory(size_t size)
{
    uint8_t *p = malloc(size ? size : 1);
    if (!p)
        abort();
    memset(p, 7, size);
    return p;
}

static void begin_file(sizes *f, uint32_t n, uint32_t m, uint32_t x)
{
    f->file_len = (size_t)bulgefs_file_size(n, m, x);
    f->image_len = 512 * (size_t)n;
    f->journal_len = 512 * (size_t)m;
    f->own_len = 512 * (size_t)x;
    f->file = memory(f->file_len);
    f->image = memory(f->image_len);
    f->journal = memory(f->journal_len);
    f->own = memory(f->own_len);
    f->room = memory(f->file_len);
    if (bulgefs_file_begin(f->file, f->file_len, n, m, x) != 0)
        abort();
}

static void end_file(const sizes *f)
{
    free(f->file);
    free(f->image);
    free(f->journal);
    free(f->own);
    free(f->room);
}

/* How many sectors of a part differ from those at its place in the file; with copies, each that does is copied. */
static size_t compare(const sizes *f, const uint8_t *part, size_t length, size_t at, int copies, size_t count)
{
    for (size_t i = 0; i < length; i += 512)
        if (memcmp(part + i, f->file + at + i, 512) != 0) {
            if (copies)
                memcpy(f->room + 512 * count, part + i, 512);
            count++;
        }
    return count;
}

static size_t compare_all(const sizes *f, int copies)
{
    size_t at = BULGEFS_FILE_HOME, count = compare(f, f->image, f->image_len, at, copies, 0);
    count = compare(f, f->journal, f->journal_len, at + f->image_len, copies, count);
    return compare(f, f->own, f->own_len, at + f->image_len + f->journal_len, copies, count);
}

/* The last byte of every sector whose number is a multiple of this one; none if it is 0. */
static void differ_by(sizes *f, size_t every)
{
    memset(f->image, 7, f->image_len);
    memset(f->journal, 7, f->journal_len);
    memset(f->own, 7, f->own_len);
    for (size_t i = 0; every && i < f->image_len / 512; i += every)
        f->image[512 * i + 511] = 8;
    for (size_t i = 0; every && i < f->journal_len / 512; i += every)
        f->journal[512 * i + 511] = 8;
    for (size_t i = 0; every && i < f->own_len / 512; i += every)
        f->own[512 * i + 511] = 8;
}

static void least(double *time, double began)
{
    double t = now() - began;
    if (t < *time)
        *time = t;
}

/* A row: the least times of many turns. */
static void run_times(sizes *f, size_t every, unsigned turns)
{
    double prepare = 1e12, compared = 1e12, copied = 1e12;
    size_t count = 0, both = 0;
    bulgefs_file_prepared p = { 0, 0, 0, 0, 0, 0 };
    differ_by(f, every);
    for (unsigned turn = 0; turn < turns; turn++) {
        double began = now();
        p = bulgefs_file_prepare(f->file, f->file_len, f->image, f->image_len, f->journal, f->journal_len, f->own, f->own_len);
        least(&prepare, began);
        began = now();
        count = compare_all(f, 0);
        least(&compared, began);
        began = now();
        both = compare_all(f, 1);
        least(&copied, began);
    }
    judge(p.number == 0 && p.sectors == count && count == both, "prepare of %u sectors", (unsigned)p.sectors);
    printf("prepare of %zu sectors, %zu differ: %.1f us; memcmp %.1f us, %.2f times; memcmp and memcpy %.1f us, %.2f times\n",
           (f->image_len + f->journal_len + f->own_len) / 512, count, prepare, compared, prepare / compared, copied,
           prepare / copied);
}

/* None, one put's five sectors or so, 1 in 100, and all. */
static void run_rows(uint32_t n, uint32_t m, uint32_t x, unsigned turns)
{
    sizes f;
    size_t all = (size_t)n + m + x;
    begin_file(&f, n, m, x);
    run_times(&f, 0, turns);
    run_times(&f, all / 5, turns);
    run_times(&f, 100, turns);
    run_times(&f, 1, turns);
    end_file(&f);
}

int main(int argc, char **argv)
{
    unsigned turns = argc > 1 ? (unsigned)atoi(argv[1]) : 20;
    static const uint8_t name[BULGEFS_VOLUME_NAME_SIZE] = "boxes";
    bulgefs_uuid uuid = { { 1, 2, 3 } };
    bulgefs_volume_file v;
    disk_new();
    if (bulgefs_format(image, BIG_IMAGE, 16, 1700000000000u, uuid, name, sizeof name) != 0
        || bulgefs_journal_start(journal, BIG_JOURNAL) != 0)
        abort();
    judge(bulgefs_volume_create("v", image, BIG_IMAGE, journal, BIG_JOURNAL, NULL, 0, &disk_system).error == 0, "create");
    judge(bulgefs_volume_open(&v, "v", BULGEFS_VOLUME_CHANGE, &disk_system).error == 0, "open");
    for (unsigned revision = 1; revision <= 4; revision++)
        run_save(&v, revision);
    bulgefs_volume_close(&v);
    run_rows(64, 16, 1, 50 * turns);
    run_rows(4096, 8192, 0, turns);
    if (argc > 1)
        run_rows(65536, 131072, 128, turns / 10 + 3);
    return finish_tests();
}
