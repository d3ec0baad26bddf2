/*
 * Times 900 settings of 60 bytes, each the first write of its file, a hundred
 * files in each of 9 folders: by lists, by a call for each, and in SQLite in one
 * transaction.  Library and baseline must leave the same image and journal in
 * all four ways.  Then the 900 changes are taken back: by one undo to a mark, by
 * an undo for each, and in SQLite by the rollback of a transaction.  It counts
 * processor time, which other work on the machine changes little; the calls are
 * long enough for that clock.
 */
#define _POSIX_C_SOURCE 199309L

#include "bench.h"
#include "bulgefs.h"

#include <stdio.h>
#include <stdlib.h>
#include <string.h>
#include <time.h>

bulgefs_changed baseline_write(uint8_t *, size_t, uint8_t *, size_t, const uint8_t *, size_t,
                               uint64_t, const uint8_t *, size_t, uint64_t);
bulgefs_listed baseline_write_list(uint8_t *, size_t, uint8_t *, size_t, const uint8_t *, size_t);
bulgefs_changed baseline_undo(uint8_t *, size_t, uint8_t *, size_t);

enum { SETTINGS = 900, FOLDERS = 9, IN_FOLDER = SETTINGS / FOLDERS, FOLDER_BLOCKS = 26 };
enum { ROOT_BLOCKS = 3, EACH = 60, MOST_LISTS = 4, MAX_SAMPLES = 9, TIME = 3 };
static const uint32_t block_counts[] = {2048, 4096, 65536};
enum { COUNTS = sizeof block_counts / sizeof block_counts[0] };

/* A first write to a file saves four blocks: header, table, directory and the new one. */
enum { JOURNAL = BULGEFS_JOURNAL_SIZE(SETTINGS, 4) };

enum { LISTS, CALLS_EACH, C_LISTS, C_CALLS, TRANSACTION, WAYS };
enum { TO_MARK, UNDOS, C_UNDOS, ROLLBACK, WAYS_BACK };

static uint8_t image[BULGEFS_IMAGE_SIZE(65536)], fresh[sizeof image], first[sizeof image];
static uint8_t journal[JOURNAL], first_journal[JOURNAL];
static size_t image_len;
static uint8_t data[EACH];
static named paths[SETTINGS];
static uint8_t lists[MOST_LISTS][BULGEFS_MAX_LIST];
static size_t list_lens[MOST_LISTS];
static uint32_t in_list[MOST_LISTS], list_count;

/* Seconds of the processor that this program has taken. */
static double spent(void)
{
    struct timespec t;
    clock_gettime(CLOCK_PROCESS_CPUTIME_ID, &t);
    return (double)t.tv_sec + (double)t.tv_nsec * 1e-9;
}

static void put_number(uint8_t *at, size_t number)
{
    for (int i = 0; i < 4; i++)
        at[i] = (uint8_t)(number >> (24 - 8 * i));
}

static void make_paths(void)
{
    for (unsigned i = 0; i < SETTINGS; i++)
        paths[i].len = (size_t)snprintf((char *)paths[i].bytes, PATH_SIZE,
                                        "/venue %06u/serial number %06u", i / IN_FOLDER, i);
    for (size_t i = 0; i < EACH; i++)
        data[i] = (uint8_t)('a' + i % 26);
}

/* As few lists as hold all settings. */
static void make_lists(void)
{
    list_count = 0;
    for (size_t i = 0, l = 0; i < SETTINGS; i++) {
        size_t size = BULGEFS_ITEM_SIZE(paths[i].len, EACH);
        if (list_count == 0 || list_lens[l] + size > BULGEFS_MAX_LIST) {
            l = list_count++;
            list_lens[l] = BULGEFS_LIST_HEAD;
            in_list[l] = 0;
            lists[l][0] = 1;
        }
        uint8_t *item = lists[l] + list_lens[l];
        put_number(item, size);
        put_number(item + 8, TIME);
        item[17] = (uint8_t)paths[i].len;
        memcpy(item + 18, paths[i].bytes, paths[i].len);
        memcpy(item + 18 + paths[i].len, data, EACH);
        list_lens[l] += size;
        in_list[l]++;
        put_number(lists[l] + 1, list_lens[l]);
    }
}

/* A volume of n blocks with all folders and empty files. */
static void make_volume(uint32_t n)
{
    static const uint8_t volume_name[128] = "lists";
    bulgefs_uuid uuid = {{0}};
    image_len = (size_t)n * 512;
    require(bulgefs_format(image, image_len, ROOT_BLOCKS, 1, uuid, volume_name, 128), "format");
    sqlite_start();
    for (size_t i = 0; i < SETTINGS; i++) {
        require(bulgefs_journal_start(journal, JOURNAL), "start");
        if (i % IN_FOLDER == 0)
            require(bulgefs_create_directory(image, image_len, journal, JOURNAL, paths[i].bytes,
                                             strlen("/venue 000000"), 0x20, 0, 0, 0, 0,
                                             FOLDER_BLOCKS, 1).number,
                    "create directory");
        require(bulgefs_create(image, image_len, journal, JOURNAL, paths[i].bytes, paths[i].len,
                               0x60, 0, 0, 0, 0, 1).number,
                "create");
        sqlite_add(paths[i].bytes, paths[i].len, data, 0);
    }
    memcpy(fresh, image, image_len);
}

static void write_lists(int way)
{
    bulgefs_listed (*call)(uint8_t *, size_t, uint8_t *, size_t, const uint8_t *, size_t) =
        way == LISTS ? bulgefs_write_list : baseline_write_list;
    for (uint32_t l = 0; l < list_count; l++) {
        bulgefs_listed w = call(image, image_len, journal, JOURNAL, lists[l], list_lens[l]);
        require(w.done == in_list[l] ? w.number : 99, "a list");
    }
}

static void write_each(int way)
{
    bulgefs_changed (*call)(uint8_t *, size_t, uint8_t *, size_t, const uint8_t *, size_t,
                            uint64_t, const uint8_t *, size_t, uint64_t) =
        way == CALLS_EACH ? bulgefs_write : baseline_write;
    for (size_t i = 0; i < SETTINGS; i++)
        require(call(image, image_len, journal, JOURNAL, paths[i].bytes, paths[i].len, 0, data,
                     EACH, TIME).number,
                "a write");
}

/* Writes all settings in one of the ways, from the same start: the seconds that takes. */
static double write_all(int way)
{
    memcpy(image, fresh, image_len);
    require(bulgefs_journal_start(journal, JOURNAL), "start");
    sqlite_empty();
    double begin = spent();
    if (way == TRANSACTION)
        sqlite_transaction(paths, SETTINGS, data, EACH);
    else if (way == LISTS || way == C_LISTS)
        write_lists(way);
    else
        write_each(way);
    return spent() - begin;
}

/* Ends the program if a way leaves other bytes than the first. */
static void compare_ways(void)
{
    for (int way = LISTS; way < TRANSACTION; way++) {
        write_all(way);
        if (way == LISTS) {
            memcpy(first, image, image_len);
            memcpy(first_journal, journal, JOURNAL);
        } else if (memcmp(first, image, image_len) != 0
                   || memcmp(first_journal, journal, JOURNAL) != 0) {
            fprintf(stderr, "bench: lists and calls do not do the same work\n");
            exit(EXIT_FAILURE);
        }
    }
}

/* Takes all changes back by one call, or by a call for each. */
static void undo_all(int way)
{
    bulgefs_changed (*call)(uint8_t *, size_t, uint8_t *, size_t) =
        way == UNDOS ? bulgefs_undo : baseline_undo;
    if (way == TO_MARK) {
        bulgefs_listed b = bulgefs_undo_to(image, image_len, journal, JOURNAL, BULGEFS_FIRST_MARK);
        require(b.done == SETTINGS ? b.number : 99, "undo to a mark");
        return;
    }
    for (size_t i = 0; i < SETTINGS; i++)
        require(call(image, image_len, journal, JOURNAL).number, "an undo");
}

/* Writes all settings, and takes them back in one of the ways: the seconds that the way back takes. */
static double take_back(int way)
{
    double begin;
    if (way == ROLLBACK) {
        sqlite_empty();
        sqlite_updates(paths, SETTINGS, data, EACH);
        begin = spent();
        sqlite_rollback();
        return spent() - begin;
    }
    write_all(LISTS);
    begin = spent();
    undo_all(way);
    return spent() - begin;
}

/* Ends the program if a way back does not lead to image and journal of the start. */
static void compare_ways_back(void)
{
    require(bulgefs_journal_start(first_journal, JOURNAL), "start");
    for (int way = TO_MARK; way < ROLLBACK; way++) {
        take_back(way);
        if (memcmp(fresh, image, image_len) != 0
            || memcmp(first_journal, journal, JOURNAL) != 0) {
            fprintf(stderr, "bench: a way back does not lead to the start\n");
            exit(EXIT_FAILURE);
        }
    }
}

static int ascending(const void *a, const void *b)
{
    double x = *(const double *)a, y = *(const double *)b;
    return (x > y) - (x < y);
}

/* The middle one of some times. */
static double middle(double *taken, int samples)
{
    qsort(taken, (size_t)samples, sizeof *taken, ascending);
    return taken[samples / 2];
}

/* A time of SQLite in the last column, or none. */
static void print_sqlite(double taken)
{
    if (sqlite_version() != NULL)
        printf(" %8.2f |\n", taken);
    else
        printf(" %8s |\n", "-");
}

static void time_writes(uint32_t blocks, int samples)
{
    double taken[WAYS][MAX_SAMPLES], m[WAYS];
    make_volume(blocks);
    compare_ways();
    for (int i = 0; i < samples; i++)
        for (int way = 0; way < WAYS; way++)
            taken[way][i] = write_all(way) * 1e3;
    for (int way = 0; way < WAYS; way++)
        m[way] = middle(taken[way], samples);
    printf("| %6u | %8.2f | %8.2f | %11.1f | %8.2f | %8.2f |", (unsigned)blocks, m[LISTS],
           m[CALLS_EACH], m[CALLS_EACH] / m[LISTS], m[C_LISTS], m[C_CALLS]);
    print_sqlite(m[TRANSACTION]);
}

static void time_ways_back(uint32_t blocks, int samples)
{
    double taken[WAYS_BACK][MAX_SAMPLES], m[WAYS_BACK];
    make_volume(blocks);
    compare_ways_back();
    for (int i = 0; i < samples; i++)
        for (int way = 0; way < WAYS_BACK; way++)
            taken[way][i] = take_back(way) * 1e3;
    for (int way = 0; way < WAYS_BACK; way++)
        m[way] = middle(taken[way], samples);
    printf("| %6u | %8.2f | %8.2f | %13.1f | %8.2f |", (unsigned)blocks, m[TO_MARK], m[UNDOS],
           m[UNDOS] / m[TO_MARK], m[C_UNDOS]);
    print_sqlite(m[ROLLBACK]);
}

void bench_lists(int samples)
{
    make_paths();
    make_lists();
    printf("\n%d settings of %d bytes, the first of each file, 100 in each of %d folders; %u lists;"
           " milliseconds of processor time for all\n\n",
           (int)SETTINGS, (int)EACH, (int)FOLDERS, (unsigned)list_count);
    printf("| %6s | %8s | %8s | %11s | %8s | %8s | %8s |\n", "blocks", "lists", "calls",
           "calls/lists", "C lists", "C calls", "SQLite");
    printf("|-------:|---------:|---------:|------------:|---------:|---------:|---------:|\n");
    for (int c = 0; c < COUNTS; c++)
        time_writes(block_counts[c], samples);
    printf("\nThe same %d changes taken back; milliseconds of processor time for all\n\n",
           (int)SETTINGS);
    printf("| %6s | %8s | %8s | %13s | %8s | %8s |\n", "blocks", "undo to", "undos",
           "undos/undo to", "C undos", "SQLite");
    printf("|-------:|---------:|---------:|--------------:|---------:|---------:|\n");
    for (int c = 0; c < COUNTS; c++)
        time_ways_back(block_counts[c], samples);
}
