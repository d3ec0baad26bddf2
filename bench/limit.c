/*
 * Times the check beside the limit: reading once, eight bytes at a time, the
 * blocks that it must read, which are the header, the table and the
 * directories.  The first rows are volumes as they are used, the last ones the
 * worst that we know of.  Calls of both are made in turn, in processor time, and
 * the best of many is kept.  It prints a table that is Markdown too.
 *
 * Usage: limit [ROUNDS]
 */
#define _POSIX_C_SOURCE 199309L

#include "bulgefs.h"
#include "read_once.h"

#include <stdio.h>
#include <stdlib.h>
#include <string.h>
#include <time.h>

enum { MAX_BLOCKS = 65536, BLOCK = 512, ENTRY = 128, NAME = 48, NAME_SIZE = 80, LEVELS = 8 };
enum { TYPE_SELF = 1, TYPE_FOLDER = 0x20, TYPE_FILE = 0x60, TYPE_END = 0xFF };

static uint8_t image[(size_t)MAX_BLOCKS * BLOCK];
static uint32_t blocks, table, next_free, must_read;
static int rounds = 200;

static void put32(uint8_t *p, uint32_t v)
{
    p[0] = (uint8_t)(v >> 24);
    p[1] = (uint8_t)(v >> 16);
    p[2] = (uint8_t)(v >> 8);
    p[3] = (uint8_t)v;
}

static void set_next(uint32_t b, uint32_t v)
{
    put32(image + BLOCK + 4 * b, v);
}

/* A chain of the lowest blocks that are not taken. */
static uint32_t take(uint32_t count)
{
    uint32_t first = next_free;
    for (uint32_t i = 0; i < count; i++)
        set_next(first + i, i + 1 == count ? 1 : first + i + 1);
    next_free += count;
    return first;
}

static uint8_t *slot(uint32_t directory, uint32_t k)
{
    return image + BLOCK * (size_t)(directory + k / 4) + ENTRY * (k % 4);
}

/* How many blocks a directory of so many entries has. */
static uint32_t size_for(uint32_t entries)
{
    return (entries + 2 + 3) / 4;
}

static void put_name(uint8_t *entry, const char *name)
{
    memcpy(entry + NAME, name, strlen(name));
}

static uint32_t make_directory(uint32_t size, uint32_t parent, const char *name)
{
    uint32_t b = take(size);
    uint8_t *entry = slot(b, 0);
    entry[0] = TYPE_SELF;
    put32(entry + 4, b);
    put32(entry + 8, parent == 0 ? b : parent);
    put32(entry + 12, size);
    put_name(entry, name);
    slot(b, 4 * size - 1)[0] = TYPE_END;
    return b;
}

static uint32_t make_folder(uint32_t parent, uint32_t k, uint32_t size, const char *name)
{
    uint32_t b = make_directory(size, parent, name);
    uint8_t *entry = slot(parent, k);
    entry[0] = TYPE_FOLDER;
    put32(entry + 4, b);
    put32(entry + 12, size);
    put_name(entry, name);
    return b;
}

static void make_file(uint32_t directory, uint32_t k, uint32_t first, uint32_t size)
{
    uint8_t *entry = slot(directory, k);
    entry[0] = TYPE_FILE;
    put32(entry + 4, first);
    put32(entry + 8, size * BLOCK);
    put32(entry + 12, size);
}

/* Files named by a serial number; every second one has a block, as long as there are any. */
static void make_files(uint32_t directory, uint32_t first_slot, uint32_t count, uint32_t serial)
{
    for (uint32_t i = 0; i < count; i++) {
        char name[NAME_SIZE];
        uint32_t size = i % 2 == 0 && next_free < blocks;
        make_file(directory, first_slot + i, size > 0 ? take(size) : 0, size);
        snprintf(name, sizeof name, "SN%06u", (unsigned)(serial + i));
        put_name(slot(directory, first_slot + i), name);
    }
}

static void start(uint32_t n)
{
    blocks = n;
    table = (n + 127) / 128;
    memset(image, 0, (size_t)n * BLOCK);
    memcpy(image, "BulgeFS!\0\1\0\0", 12);
    put32(image + 12, n);
    put32(image + 16, table);
    put32(image + 28, table + 1);
    for (uint32_t b = 0; b <= table; b++)
        set_next(b, 1);
    next_free = table + 1;
}

static double now(void)
{
    struct timespec t;
    clock_gettime(CLOCK_PROCESS_CPUTIME_ID, &t);
    return (double)t.tv_sec * 1e6 + (double)t.tv_nsec / 1e3;
}

/* The best of many calls: of the check, or of reading once. */
static double best_of(int check, int calls, double best)
{
    static volatile uint64_t sink;
    double begin = now();
    for (int i = 0; i < calls; i++)
        sink = check ? bulgefs_check(image, (size_t)blocks * BLOCK)
                     : read_once(image, (size_t)must_read * BLOCK);
    double took = (now() - begin) / calls;
    (void)sink;
    return took < best ? took : best;
}

static void report(const char *what)
{
    uint32_t used = next_free;
    put32(image + 20, used);
    put32(image + 24, blocks - used);
    if (bulgefs_check(image, (size_t)blocks * BLOCK) != BULGEFS_OK) {
        fprintf(stderr, "error: the volume is not sound: %s\n", what);
        exit(1);
    }
    double ours = best_of(1, 1, 1e9), limit = 1e9;
    int calls = ours > 50 ? 1 : 100, turns = ours > 1000 ? 5 + rounds / 20 : rounds;
    for (int i = 0; i < turns; i++) {
        ours = best_of(1, calls, ours);
        limit = best_of(0, calls, limit);
    }
    printf("| %5u | %-30s | %9.2f us | %8.2f | %6.2f |\n", (unsigned)blocks, what, ours, limit,
           ours / limit);
    fflush(stdout);
}

static void root_files(uint32_t n, uint32_t files)
{
    char what[64];
    start(n);
    uint32_t root = make_directory(size_for(files), 0, "");
    must_read = next_free;
    make_files(root, 1, files, 0);
    snprintf(what, sizeof what, "%u files", (unsigned)files);
    report(what);
}

static void in_folders(uint32_t n, uint32_t folders, uint32_t files)
{
    char what[64];
    uint32_t made[64];
    start(n);
    uint32_t root = make_directory(size_for(folders), 0, "");
    for (uint32_t i = 0; i < folders; i++) {
        snprintf(what, sizeof what, "venue %u", (unsigned)i);
        made[i] = make_folder(root, i + 1, size_for(files), what);
    }
    must_read = next_free;
    for (uint32_t i = 0; i < folders; i++)
        make_files(made[i], 1, files, i * files);
    snprintf(what, sizeof what, "%u folders of %u files", (unsigned)folders, (unsigned)files);
    report(what);
}

static void deep(uint32_t n, uint32_t files)
{
    char what[64];
    uint32_t made[LEVELS + 1], size = size_for(files + 1);
    start(n);
    made[0] = make_directory(size, 0, "");
    for (int i = 1; i <= LEVELS; i++)
        made[i] = make_folder(made[i - 1], 1, size, "level");
    must_read = next_free;
    for (int i = 0; i <= LEVELS; i++)
        make_files(made[i], 2, files, 0);
    snprintf(what, sizeof what, "8 levels of %u files", (unsigned)files);
    report(what);
}

/* One file of all blocks; in any order, or in that of their numbers. */
static void one_chain(uint32_t n, int any_order)
{
    static uint32_t order[MAX_BLOCKS];
    start(n);
    uint32_t root = make_directory(1, 0, "");
    must_read = next_free;
    uint32_t count = n - next_free;
    for (uint32_t i = 0; i < count; i++)
        order[i] = next_free + i;
    uint32_t seed = 1;
    for (uint32_t i = count - 1; any_order && i > 0; i--) {
        seed = seed * 1664525 + 1013904223;
        uint32_t j = (seed >> 8) % (i + 1), b = order[i];
        order[i] = order[j];
        order[j] = b;
    }
    for (uint32_t i = 0; i < count; i++)
        set_next(order[i], i + 1 == count ? 1 : order[i + 1]);
    next_free = n;
    make_file(root, 1, order[0], count);
    put_name(slot(root, 1), "all");
    report(any_order ? "one chain, in any order" : "one chain");
}

/* Names whose fingerprints all agree: word by word, what one gains the others lose. */
static void make_colliding(uint32_t directory, uint32_t first_slot)
{
    for (uint32_t k = first_slot; k <= 254; k++) {
        uint8_t *name = slot(directory, k) + NAME, x = (uint8_t)(k % 64), y = (uint8_t)(k / 64);
        make_file(directory, k, 0, 0);
        memset(name, 'm', NAME_SIZE);
        name[56] = (uint8_t)('m' + x);
        name[60] = (uint8_t)(200 - 2 * x);
        name[64] = (uint8_t)('m' + x);
        name[68] = (uint8_t)('m' + y);
        name[72] = (uint8_t)(200 - 2 * y);
        name[76] = (uint8_t)('m' + y);
    }
}

static void colliding(uint32_t n)
{
    start(n);
    uint32_t root = make_directory(64, 0, "");
    must_read = next_free;
    make_colliding(root, 1);
    report("254 names of one fingerprint");
}

/* As many such directories as 65,536 blocks hold: 250 folders of the root, four deep. */
static void colliding_folders(void)
{
    start(MAX_BLOCKS);
    uint32_t root = make_directory(64, 0, "");
    for (uint32_t k = 1; k <= 250; k++) {
        char name[16];
        uint32_t b = root;
        snprintf(name, sizeof name, "d%u", (unsigned)k);
        for (int level = 1; level <= 4; level++) {
            b = make_folder(b, level == 1 ? k : 1, 64, name);
            make_colliding(b, 2);
        }
    }
    must_read = next_free;
    report("1,000 directories of these");
}

/* Directories of one block each, two in each, below 254 of the root. */
static void fill_below(uint32_t parent, int level)
{
    if (level > LEVELS)
        return;
    for (uint32_t k = 1; k <= 2; k++)
        if (next_free < blocks)
            fill_below(make_folder(parent, k, 1, k == 1 ? "a" : "b"), level + 1);
}

static void directories(uint32_t n)
{
    char name[16];
    start(n);
    uint32_t root = make_directory(64, 0, "");
    for (uint32_t k = 1; k <= 254 && next_free < n; k++) {
        snprintf(name, sizeof name, "d%u", (unsigned)k);
        fill_below(make_folder(root, k, 1, name), 2);
    }
    must_read = next_free;
    report("directories of one block");
}

int main(int argc, char **argv)
{
    static const uint32_t sizes[] = {256, 4096, 65536}, counts[] = {0, 10, 250};
    if (argc > 1)
        rounds = atoi(argv[1]);
    printf("| %5s | %-30s | %12s | %8s | %6s |\n", "n", "volume", "check", "limit", "ratio");
    printf("|------:|:-------------------------------|-------------:|---------:|-------:|\n");
    for (int i = 0; i < 3; i++)
        for (int j = 0; j < 3; j++)
            root_files(sizes[i], counts[j]);
    for (int i = 1; i < 3; i++)
        in_folders(sizes[i], 9, 100);
    for (int i = 0; i < 3; i++)
        deep(sizes[i], 0);
    deep(256, 9);
    deep(4096, 25);
    in_folders(4096, 40, 254);
    colliding(4096);
    colliding_folders();
    one_chain(4096, 0);
    one_chain(65536, 0);
    one_chain(65536, 1);
    directories(1024);
    directories(65536);
    return 0;
}
