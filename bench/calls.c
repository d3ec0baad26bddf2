/*
 * Times every call of the library on a volume of small files in the root, 1,000
 * bytes each, and prints a line for each kind of call: its name and its least
 * time in microseconds, the average over all files.  Calls of all kinds take
 * turns, and each change is taken back after it was timed.  A kind that the
 * archive does not have is left out, so that an older one can be timed too.
 *
 * Usage: calls BLOCKS FILES [ROUNDS]
 */
#define _POSIX_C_SOURCE 199309L

#include "bulgefs.h"

#include <stdio.h>
#include <stdlib.h>
#include <string.h>
#include <time.h>

/* What came after the first calls; where the archive has no such call its address is NULL. */
#pragma weak bulgefs_info
#pragma weak bulgefs_entry
#pragma weak bulgefs_read_next
#pragma weak bulgefs_append
#pragma weak bulgefs_write_list
#pragma weak bulgefs_clear_flags
#pragma weak bulgefs_put_settings
#pragma weak bulgefs_get_latest_settings
#pragma weak bulgefs_salvage
#pragma weak bulgefs_journal_info
#pragma weak bulgefs_undo_to
#pragma weak bulgefs_shorten
#pragma weak bulgefs_replace
#pragma weak bulgefs_move

enum { MAX_FILES = 252, JOURNAL = 65536, SIZE = 1000, SMALL = 100, SETTINGS = 60 };

enum {
    CHECK, LOOKUP, READ, READ_NEXT, LOOK_IN_PLACE, INFO, NEXT_ENTRY, LOAD_TABLE, STORE_TABLE,
    WRITE, UNDO, WRITE_GROWS, UNDO_GROWS, APPEND, LIST, DELETE, UNDO_DELETE, CREATE, CREATE_DIRECTORY,
    DELETE_DIRECTORY, SET_ATTRIBUTES, READ_ATTRIBUTES, CLEAR_ATTRIBUTES, CLEAR_FLAGS, FIRST_PUT, PUT,
    GET_LATEST, SALVAGE, JOURNAL_INFO, UNDO_TO, WRITE_WHOLE, REPLACE, REPLACE_FREES, SHORTEN, MOVE, KINDS
};

static const char *const names[KINDS] = {
    "check", "lookup", "read of 100 bytes", "read on", "look in place", "info", "entry", "load table",
    "store table", "write of 100 bytes in place", "undo of a change in place",
    "write that takes a block", "undo of it, a block back", "append that takes a block", "list of one write",
    "delete of two blocks", "undo of it, two blocks back", "create", "create directory",
    "delete directory", "set attributes", "read attributes", "clear attributes", "clear flags",
    "first put of settings", "put of settings", "get of the latest", "salvage of a sound volume",
    "journal info", "undo to the mark before a change in place",
    "write of the whole file", "replace by as many bytes", "replace by 100 bytes, a block freed",
    "shorten by a block", "move within a directory"};

static uint8_t image[BULGEFS_IMAGE_SIZE(BULGEFS_MAX_BLOCKS)], journal[JOURNAL];
static uint8_t data[SIZE], buffer[4096], report[BULGEFS_MAX_REPORT];
static uint32_t numbers[BULGEFS_MAX_BLOCKS];
static uint32_t blocks, files;
static size_t image_len;
static double least[KINDS][MAX_FILES], clock_cost;

static double now(void)
{
    struct timespec t;
    clock_gettime(CLOCK_MONOTONIC, &t);
    return (double)t.tv_sec * 1e6 + (double)t.tv_nsec * 1e-3;
}

static void require(uint32_t number, const char *what)
{
    if (number != BULGEFS_OK) {
        fprintf(stderr, "calls: %s was refused with %u\n", what, (unsigned)number);
        exit(EXIT_FAILURE);
    }
}

static void keep(int kind, uint32_t file, double began)
{
    double took = now() - began - clock_cost;
    if (least[kind][file] == 0 || took < least[kind][file])
        least[kind][file] = took;
}

/* Makes the call, whose number must be 0, and keeps its time. */
#define TIMED(kind, number)                \
    do {                                   \
        double began = now();              \
        uint32_t given = (number);         \
        keep(kind, file, began);           \
        require(given, names[kind]);       \
    } while (0)

#define IMAGE image, image_len
#define BOTH  image, image_len, journal, sizeof journal
#define BACK(kind) TIMED(kind, bulgefs_undo(BOTH).number)

static void make_volume(void)
{
    static const uint8_t volume_name[BULGEFS_VOLUME_NAME_SIZE] = "bench";
    bulgefs_uuid uuid = {{0}};
    char path[16];
    require(bulgefs_format(IMAGE, (files + 7) / 4, 1, uuid, volume_name, sizeof volume_name), "format");
    for (uint32_t i = 0; i < files; i++) {
        size_t len = (size_t)snprintf(path, sizeof path, "/SN%06u", (unsigned)i);
        require(bulgefs_journal_start(journal, sizeof journal), "start");
        require(bulgefs_create(BOTH, (const uint8_t *)path, len, 0x60, 0, 0, 0, 0, 1).number, "create");
        require(bulgefs_write(BOTH, (const uint8_t *)path, len, 0, data, SIZE, 1).number, "write");
    }
    require(bulgefs_journal_start(journal, sizeof journal), "start");
}

static void time_looks(uint32_t file, const uint8_t *path, size_t len)
{
    uint64_t position = 0;
    TIMED(CHECK, bulgefs_check(IMAGE));
    TIMED(LOOKUP, bulgefs_lookup(IMAGE, path, len).number);
    TIMED(READ, bulgefs_read(IMAGE, path, len, 0, buffer, SMALL).number);
    if (bulgefs_read_next)
        TIMED(READ_NEXT, bulgefs_read_next(IMAGE, path, len, &position, buffer, SMALL).number);
    TIMED(LOOK_IN_PLACE, bulgefs_look_in_place(IMAGE, path, len, 0).length != BULGEFS_BLOCK_SIZE);
    if (bulgefs_info)
        TIMED(INFO, bulgefs_info(IMAGE, buffer, BULGEFS_LABELS_SIZE).number);
    if (bulgefs_entry)
        TIMED(NEXT_ENTRY, bulgefs_entry(IMAGE, (const uint8_t *)"/", 1, file + 1, buffer, BULGEFS_MAX_NAME).number);
    TIMED(LOAD_TABLE, bulgefs_load_table(IMAGE, numbers, blocks));
    TIMED(STORE_TABLE, bulgefs_store_table(IMAGE, numbers, blocks));
    if (bulgefs_salvage)
        TIMED(SALVAGE, bulgefs_salvage(IMAGE, report, sizeof report));
    if (bulgefs_journal_info)
        TIMED(JOURNAL_INFO, bulgefs_journal_info(BOTH).number);
}

/* A list of one item: its length, time, offset, path length, path and data. */
static size_t make_list(uint8_t *list, const uint8_t *path, size_t len)
{
    size_t item = BULGEFS_ITEM_SIZE(len, SMALL), all = BULGEFS_LIST_HEAD + item;
    memset(list, 0, all);
    list[0] = 1;
    list[3] = (uint8_t)(all / 256);
    list[4] = (uint8_t)(all % 256);
    list[7] = (uint8_t)(item / 256);
    list[8] = (uint8_t)(item % 256);
    list[22] = (uint8_t)len;
    memcpy(list + 23, path, len);
    return all;
}

/* A replace beside the write of the same bytes. */
static void time_replaces(uint32_t file, const uint8_t *path, size_t len)
{
    TIMED(WRITE_WHOLE, bulgefs_write(BOTH, path, len, 0, data, SIZE, 2).number);
    require(bulgefs_undo(BOTH).number, "undo");
    TIMED(REPLACE, bulgefs_replace(BOTH, path, len, data, SIZE, 2).number);
    require(bulgefs_undo(BOTH).number, "undo");
    TIMED(REPLACE_FREES, bulgefs_replace(BOTH, path, len, data, SMALL, 2).number);
    require(bulgefs_undo(BOTH).number, "undo");
    TIMED(SHORTEN, bulgefs_shorten(BOTH, path, len, SMALL, 2).number);
    require(bulgefs_undo(BOTH).number, "undo");
    TIMED(MOVE, bulgefs_move(BOTH, path, len, (const uint8_t *)"/SN999999", 9).number);
    require(bulgefs_undo(BOTH).number, "undo");
}

static void time_changes(uint32_t file, const uint8_t *path, size_t len)
{
    uint8_t list[256];
    size_t all = make_list(list, path, len);
    TIMED(WRITE, bulgefs_write(BOTH, path, len, 0, data, SMALL, 2).number);
    BACK(UNDO);
    TIMED(WRITE_GROWS, bulgefs_write(BOTH, path, len, SIZE, data, SMALL, 2).number);
    BACK(UNDO_GROWS);
    if (bulgefs_append) {
        TIMED(APPEND, bulgefs_append(BOTH, path, len, data, SMALL, 2).number);
        BACK(UNDO_GROWS);
    }
    if (bulgefs_write_list) {
        TIMED(LIST, bulgefs_write_list(BOTH, list, all).number);
        BACK(UNDO);
    }
    if (bulgefs_undo_to) {
        require(bulgefs_write(BOTH, path, len, 0, data, SMALL, 2).number, "write");
        TIMED(UNDO_TO, bulgefs_undo_to(BOTH, BULGEFS_FIRST_MARK).number);
    }
    if (bulgefs_replace)
        time_replaces(file, path, len);
    TIMED(DELETE, bulgefs_delete(BOTH, path, len).number);
    BACK(UNDO_DELETE);
    if (bulgefs_clear_flags) {
        TIMED(CLEAR_FLAGS, bulgefs_clear_flags(BOTH, path, len).number);
        BACK(UNDO);
    }
    TIMED(SET_ATTRIBUTES, bulgefs_set_attributes(BOTH, path, len, buffer, BULGEFS_BLOCK_SIZE).number);
    TIMED(READ_ATTRIBUTES, bulgefs_read_attributes(IMAGE, path, len, buffer, BULGEFS_BLOCK_SIZE).number);
    TIMED(CLEAR_ATTRIBUTES, bulgefs_clear_attributes(BOTH, path, len).number);
    require(bulgefs_undo(BOTH).number, "undo");
    require(bulgefs_undo(BOTH).number, "undo");
}

static void time_new(uint32_t file)
{
    const uint8_t *path = (const uint8_t *)"/SN999999", *serial = path + 1;
    TIMED(CREATE, bulgefs_create(BOTH, path, 9, 0x60, 0, 0, 0, 0, 2).number);
    require(bulgefs_undo(BOTH).number, "undo");
    TIMED(CREATE_DIRECTORY, bulgefs_create_directory(BOTH, path, 9, 0x20, 0, 0, 0, 0, 1, 2).number);
    TIMED(DELETE_DIRECTORY, bulgefs_delete_directory(BOTH, path, 9).number);
    require(bulgefs_undo(BOTH).number, "undo");
    require(bulgefs_undo(BOTH).number, "undo");
    if (!bulgefs_put_settings)
        return;
    TIMED(FIRST_PUT, bulgefs_put_settings(BOTH, serial, 8, data, SETTINGS, 2).number);
    TIMED(PUT, bulgefs_put_settings(BOTH, serial, 8, data, SETTINGS, 2).number);
    TIMED(GET_LATEST, bulgefs_get_latest_settings(IMAGE, serial, 8, buffer, BULGEFS_MAX_SETTINGS).number);
    require(bulgefs_undo(BOTH).number, "undo");
    require(bulgefs_undo(BOTH).number, "undo");
}

static void print_least(void)
{
    for (int kind = 0; kind < KINDS; kind++) {
        double sum = 0;
        for (uint32_t i = 0; i < files; i++)
            sum += least[kind][i];
        if (sum > 0)
            printf("%s\t%.4f\n", names[kind], sum / files);
    }
}

int main(int argc, char **argv)
{
    if (argc < 3 || argc > 4) {
        fprintf(stderr, "usage: calls BLOCKS FILES [ROUNDS]\n");
        return 2;
    }
    blocks = (uint32_t)strtoul(argv[1], NULL, 10);
    files = (uint32_t)strtoul(argv[2], NULL, 10);
    unsigned long rounds = argc > 3 ? strtoul(argv[3], NULL, 10) : 100;
    if (blocks > BULGEFS_MAX_BLOCKS || files == 0 || files > MAX_FILES) {
        fprintf(stderr, "calls: at most %u blocks, 1 to %d files\n", BULGEFS_MAX_BLOCKS, MAX_FILES);
        return 2;
    }
    image_len = (size_t)blocks * BULGEFS_BLOCK_SIZE;
    for (int i = 0; i < SIZE; i++)
        data[i] = (uint8_t)('a' + i % 26);
    clock_cost = 1;
    for (int i = 0; i < 1000; i++) {
        double began = now(), took = now() - began;
        clock_cost = took < clock_cost ? took : clock_cost;
    }
    make_volume();
    for (unsigned long k = 0; k < rounds; k++)
        for (uint32_t i = 0; i < files; i++) {
            char path[16];
            size_t len = (size_t)snprintf(path, sizeof path, "/SN%06u", (unsigned)i);
            time_looks(i, (const uint8_t *)path, len);
            time_changes(i, (const uint8_t *)path, len);
            time_new(i);
        }
    print_least();
    return EXIT_SUCCESS;
}
