/*
 * Times the salvage of a volume with directories beside the check: 900 boxes in
 * nine directories, sound and damaged, and an image that is made to cost as much
 * as it can.  Processor time, the best of many.
 *
 * Usage: rescue [HOSTILE BLOCKS]
 */
#define _POSIX_C_SOURCE 199309L

#include "bulgefs.h"

#include <stdio.h>
#include <stdlib.h>
#include <string.h>
#include <time.h>

enum { BLOCKS = 4096, VENUES = 9, BOXES = 900, ROUNDS = 200, DIRECTORY = 64 };

static uint8_t image[BULGEFS_IMAGE_SIZE(BULGEFS_MAX_BLOCKS)], sound[BULGEFS_IMAGE_SIZE(BLOCKS)];
static uint8_t journal[65536], report[BULGEFS_TREE_REPORT_SIZE(BULGEFS_MAX_BLOCKS)];

static double now(void)
{
    struct timespec t;
    clock_gettime(CLOCK_PROCESS_CPUTIME_ID, &t);
    return (double)t.tv_sec * 1e6 + (double)t.tv_nsec * 1e-3;
}

static void require(uint32_t number, const char *what)
{
    if (number != BULGEFS_OK) {
        fprintf(stderr, "rescue: %s was refused with %u\n", what, (unsigned)number);
        exit(EXIT_FAILURE);
    }
}

static void put(uint8_t *at, uint32_t number)
{
    for (int i = 0; i < 4; i++)
        at[i] = (uint8_t)(number >> (24 - 8 * i));
}

static void link_block(uint32_t b, uint32_t next)
{
    put(image + 512 + 4 * b, next);
}

/* 900 boxes, each with one to sixteen settings. */
static void make_fleet(void)
{
    static const uint8_t name[BULGEFS_VOLUME_NAME_SIZE] = "rescue", settings[40] = {1};
    const size_t len = sizeof sound;
    bulgefs_uuid uuid = {{0}};
    char path[16], serial[16];
    require(bulgefs_format(image, len, 4, 1, uuid, name, sizeof name), "format");
    for (int v = 0; v < VENUES; v++) {
        size_t path_len = (size_t)snprintf(path, sizeof path, "/venue%d", v);
        require(bulgefs_journal_start(journal, sizeof journal), "start");
        require(bulgefs_create_directory(image, len, journal, sizeof journal, (const uint8_t *)path, path_len, 0x20, 0, 0, 0, 0, 26, 2).number,
                "create directory");
    }
    for (int revision = 0; revision < 16; revision++)
        for (int box = revision; box < BOXES; box += revision + 1) {
            size_t path_len = (size_t)snprintf(path, sizeof path, "/venue%d", box % VENUES);
            size_t serial_len = (size_t)snprintf(serial, sizeof serial, "SN%04d", box);
            require(bulgefs_journal_start(journal, sizeof journal), "start");
            require(bulgefs_put_settings_in(image, len, journal, sizeof journal, (const uint8_t *)path, path_len, (const uint8_t *)serial, serial_len,
                                            settings, sizeof settings, 3).number,
                    "put");
        }
    memcpy(sound, image, len);
}

/* The least times of a check and of a salvage of the volume that this damage makes. */
static void row(const char *what, void (*damage)(void))
{
    double check = 0, salvage = 0;
    bulgefs_salvaged s = {0, 0, 0};
    for (int k = 0; k < ROUNDS; k++) {
        double began, took;
        memcpy(image, sound, sizeof sound);
        damage();
        began = now();
        uint32_t number = bulgefs_check(image, sizeof sound);
        took = now() - began;
        check = k == 0 || took < check ? took : check;
        began = now();
        s = bulgefs_salvage_tree(image, sizeof sound, report, BULGEFS_TREE_REPORT_SIZE(BLOCKS));
        took = now() - began;
        salvage = k == 0 || took < salvage ? took : salvage;
        require(s.number, "salvage");
        if (number == 0 && memcmp(image, sound, sizeof sound) != 0) {
            fprintf(stderr, "rescue: a sound volume was changed\n");
            exit(EXIT_FAILURE);
        }
    }
    require(bulgefs_check(image, sizeof sound), "check");
    printf("| %s | %.1f | %.1f | %u | %u |\n", what, check, salvage, (unsigned)s.dropped, (unsigned)s.freed);
}

static void nothing(void) { }
static void no_header(void) { memset(image, 0, 32); }
static void no_table(void) { memset(image + 512, 0, 32 * 512); }
static void no_root(void) { memset(image + 33 * 512, 0, 512); }
static void a_page(void) { memset(image + 12 * 4096, 0xA5, 4096); }

static void put_name(uint8_t *entry, uint32_t number)
{
    for (int i = 0; i < 4; i++)
        entry[48 + i] = (uint8_t)('a' + (number >> 4 * i) % 16);
}

/* A directory of 64 blocks in a row, and the entry of it. */
static void make_directory(uint32_t first, uint32_t parent, uint8_t *entry, uint32_t number)
{
    uint8_t *own = image + 512 * (size_t)first;
    for (uint32_t k = 0; k < DIRECTORY; k++)
        link_block(first + k, k + 1 < DIRECTORY ? first + k + 1 : 1);
    own[0] = 0x01;
    put(own + 4, first);
    put(own + 8, parent);
    put(own + 12, DIRECTORY);
    own[512 * DIRECTORY - 128] = 0xFF;
    if (entry == NULL)
        return;
    entry[0] = 0x20;
    put(entry + 4, first);
    put(entry + 12, DIRECTORY);
    put_name(entry, 0x1000 + number);
    memcpy(own + 48, entry + 48, 4);
}

/* The image that costs most: its root's first block, its directories, those made so far, and the chain behind them. */
static uint32_t root, directories, made, length;

static uint32_t first_of(uint32_t k) { return root + k * DIRECTORY; }

/* A directory below this one, with files in its slots and three directories in the last of them. */
static void grow(uint32_t parent, uint8_t *own_entry, uint32_t level)
{
    const uint32_t k = made++, slots = 4 * DIRECTORY - 2;
    make_directory(first_of(k), parent, own_entry, k);
    for (uint32_t slot = 1; slot <= slots; slot++) {
        uint8_t *entry = image + 512 * (size_t)first_of(k) + 128 * slot;
        uint32_t left = (directories - k - 1) * DIRECTORY + length;
        if (slot > slots - 3) {
            if (made < directories && level < BULGEFS_MAX_LEVELS)
                grow(first_of(k), entry, level + 1);
            continue;
        }
        entry[0] = 0x60;
        put(entry + 4, first_of(k + 1));
        put(entry + 8, 512 * (left + 1));
        put(entry + 12, left + 1);
        put_name(entry, slot);
    }
}

/*
 * An image of n blocks, half of them directories that lie in rows.  One chain goes
 * through all blocks, those of later directories too, in a bad order.  Every file is
 * said to have one block more than are left of it, so that each walk goes through all
 * of them and fails.
 */
static void make_hostile(uint32_t n)
{
    root = (n + 127) / 128 + 1;
    directories = (n - root) / (2 * DIRECTORY);
    length = n - first_of(directories);
    made = 0;
    memset(image, 0, 512 * (size_t)n);
    grow(root, NULL, 0);
    for (uint32_t k = 0; k < directories; k++)
        for (uint32_t i = 0; i < DIRECTORY; i++)
            link_block(first_of(k) + 27 * i % DIRECTORY, i + 1 < DIRECTORY ? first_of(k) + 27 * (i + 1) % DIRECTORY : first_of(k + 1));
    for (uint32_t k = 0, at = 0; k < length; k++) {
        uint32_t next = (at + 25717) % length;
        link_block(first_of(directories) + at, next == 0 ? 1 : first_of(directories) + next);
        at = next;
    }
}

int main(int argc, char **argv)
{
    uint32_t n = argc > 1 ? (uint32_t)strtoul(argv[1], NULL, 10) : BULGEFS_MAX_BLOCKS;
    make_fleet();
    printf("900 boxes in nine directories, %d blocks: microseconds\n", BLOCKS);
    printf("| volume | check | salvage_tree | entries dropped | blocks freed |\n|---|--:|--:|--:|--:|\n");
    row("sound", nothing);
    row("header zero", no_header);
    row("table zero", no_table);
    row("the root's first block zero", no_root);
    row("a page of a directory not zero", a_page);
    make_hostile(n);
    double began = now();
    bulgefs_salvaged s = bulgefs_salvage_tree(image, 512 * (size_t)n, report, BULGEFS_TREE_REPORT_SIZE(n));
    double took = now() - began;
    require(s.number, "salvage");
    require(bulgefs_check(image, 512 * (size_t)n), "check");
    printf("the worst image known, %u blocks: %.2f s, %u entries dropped, %u blocks freed\n", (unsigned)n, took * 1e-6, (unsigned)s.dropped,
           (unsigned)s.freed);
    return EXIT_SUCCESS;
}
