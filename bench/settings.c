/*
 * Times puts and gets of settings by serial number.  A put beside the write of
 * the same bytes to the same file, which must leave the same image and journal;
 * the first put beside a create and a write; a get beside a read of the file; and
 * a put in SQLite: a row more, and the oldest of 16 dropped, in a savepoint.
 * Then the same among 900 boxes in nine directories.
 * Each change is taken back after it was timed.  All ways take turns, and the
 * least time of each counts: other work on the machine adds to the others.
 */
#include "bench.h"
#include "bulgefs.h"

#include <stdio.h>
#include <stdlib.h>
#include <string.h>

enum { PUT, SAME_WRITE, FIRST_PUT, CREATE_WRITE, GET, WHOLE_READ, SQLITE_PUT, WAYS };
enum { JOURNAL = 65536, TURNS = 400, FEW_TURNS = 60 };

typedef struct {
    uint32_t blocks, files, bytes;
} volume;

static const volume volumes[] = {{64, 10, 60},    {256, 10, 60},   {256, 10, 200},  {4096, 10, 60},
                                 {4096, 250, 60}, {4096, 250, 200}, {65536, 250, 60}};
enum { VOLUMES = sizeof volumes / sizeof volumes[0] };

static const uint8_t serial[] = "SN4471", path[] = "/SN4471";
static const uint8_t new_serial[] = "SN4472", new_path[] = "/SN4472";
enum { SERIAL = sizeof serial - 1, NAME = sizeof path - 1 };

static uint8_t image[BULGEFS_IMAGE_SIZE(65536)], journal[JOURNAL];
static uint8_t other[sizeof image], other_journal[JOURNAL];
static uint8_t data[BULGEFS_MAX_SETTINGS], whole[4096], first[512], buffer[4096];
static size_t image_len, whole_len, first_len;
static uint32_t bytes;

static void make_volume(const volume *v)
{
    static const uint8_t volume_name[128] = "settings";
    bulgefs_uuid uuid = {{0}};
    uint32_t root = (v->files + 2 + 2 + 3) / 4;
    image_len = (size_t)v->blocks * 512;
    bytes = v->bytes;
    require(bulgefs_format(image, image_len, root, 1, uuid, volume_name, 128), "format");
    for (uint32_t i = 0; i < v->files; i++) {
        uint8_t name[PATH_SIZE];
        size_t len = (size_t)snprintf((char *)name, PATH_SIZE, "/settings of serial number %06u",
                                      (unsigned)i);
        require(bulgefs_journal_start(journal, JOURNAL), "start");
        require(bulgefs_create(image, image_len, journal, JOURNAL, name, len, 0x60, 0, 0, 0, 0,
                               1).number,
                "create");
    }
    sqlite_start();
    for (uint32_t i = 0; i < BULGEFS_MAX_REVISIONS; i++) {
        memset(data, (int)('a' + i), sizeof data);
        require(bulgefs_journal_start(journal, JOURNAL), "start");
        require(bulgefs_put_settings(image, image_len, journal, JOURNAL, serial, SERIAL, data,
                                     bytes, 2).number,
                "put");
        sqlite_put(serial, SERIAL, data, bytes, 1);
    }
    require(bulgefs_journal_start(journal, JOURNAL), "start");
}

static void put(uint8_t *i, uint8_t *j)
{
    require(bulgefs_put_settings(i, image_len, j, JOURNAL, serial, SERIAL, data, bytes, 3).number,
            "put");
}

static void same_write(uint8_t *i, uint8_t *j)
{
    require(bulgefs_write(i, image_len, j, JOURNAL, path, NAME, 0, whole, whole_len, 3).number,
            "write");
}

static void first_put(uint8_t *i, uint8_t *j)
{
    require(bulgefs_put_settings(i, image_len, j, JOURNAL, new_serial, SERIAL, data, bytes,
                                 3).number,
            "first put");
}

static void create_write(uint8_t *i, uint8_t *j)
{
    require(bulgefs_create(i, image_len, j, JOURNAL, new_path, NAME, 0x60, 0, 0, 0, 0, 3).number,
            "create");
    require(bulgefs_write(i, image_len, j, JOURNAL, new_path, NAME, 0, first, first_len, 3).number,
            "write");
}

/* What the two puts write, taken from the files that they leave. */
static void take_files(void)
{
    memcpy(other, image, image_len);
    memcpy(other_journal, journal, JOURNAL);
    put(other, other_journal);
    first_put(other, other_journal);
    bulgefs_filled r = bulgefs_read(other, image_len, path, NAME, 0, whole, sizeof whole);
    require(r.number, "read");
    whole_len = r.count;
    r = bulgefs_read(other, image_len, new_path, NAME, 0, first, sizeof first);
    require(r.number, "read");
    first_len = r.count;
}

/* Ends the program if the put leaves other bytes than the write of the same file. */
static void compare_ways(void)
{
    static uint8_t written[sizeof image], written_journal[JOURNAL];
    memcpy(other, image, image_len);
    memcpy(other_journal, journal, JOURNAL);
    memcpy(written, image, image_len);
    memcpy(written_journal, journal, JOURNAL);
    put(other, other_journal);
    same_write(written, written_journal);
    int same = memcmp(other, written, image_len) == 0
        && memcmp(other_journal, written_journal, JOURNAL) == 0;
    first_put(other, other_journal);
    create_write(written, written_journal);
    if (!same || memcmp(other, written, image_len) != 0) {
        fprintf(stderr, "bench: puts and writes do not do the same work\n");
        exit(EXIT_FAILURE);
    }
}

/* Makes a change and takes it back, in so many undos; the seconds of the change. */
static double change(void (*make)(uint8_t *, uint8_t *), int undos)
{
    double begin = now();
    make(image, journal);
    double took = now() - begin;
    while (undos-- > 0)
        require(bulgefs_undo(image, image_len, journal, JOURNAL).number, "undo");
    return took;
}

static double look(int way)
{
    double begin = now();
    uint32_t number = way == GET
        ? bulgefs_get_latest_settings(image, image_len, serial, SERIAL, buffer, 200).number
        : bulgefs_read(image, image_len, path, NAME, 0, buffer, sizeof buffer).number;
    double took = now() - begin;
    require(number, "a look");
    return took;
}

static double time_of(int way)
{
    switch (way) {
    case PUT:          return change(put, 1);
    case SAME_WRITE:   return change(same_write, 1);
    case FIRST_PUT:    return change(first_put, 1);
    case CREATE_WRITE: return change(create_write, 2);
    case SQLITE_PUT:   return sqlite_put(serial, SERIAL, data, bytes, 0);
    default:           return look(way);
    }
}

void bench_settings(int quick)
{
    printf("\nA put of settings where 16 revisions stand, beside the write of the same file; the first"
           " put, beside a create and a write; a get of the latest, beside a read of the file;"
           " microseconds, the least of many\n\n");
    printf("| %6s | %5s | %5s | %8s | %8s | %9s | %9s | %12s | %8s | %8s | %10s |\n", "blocks",
           "files", "bytes", "put", "write", "put/write", "first put", "create+write", "get", "read",
           "SQLite put");
    printf("|-------:|------:|------:|---------:|---------:|----------:|----------:|-------------:"
           "|---------:|---------:|-----------:|\n");
    for (int v = 0; v < VOLUMES; v++) {
        double least[WAYS];
        make_volume(&volumes[v]);
        take_files();
        compare_ways();
        for (int turn = 0; turn < (quick ? FEW_TURNS : TURNS); turn++)
            for (int way = 0; way < WAYS; way++) {
                double took = time_of(way) * 1e6;
                if (turn == 0 || took < least[way])
                    least[way] = took;
            }
        printf("| %6u | %5u | %5u | %8.2f | %8.2f | %9.2f | %9.2f | %12.2f | %8.2f | %8.2f |",
               (unsigned)volumes[v].blocks, (unsigned)volumes[v].files, (unsigned)volumes[v].bytes,
               least[PUT], least[SAME_WRITE], least[PUT] / least[SAME_WRITE], least[FIRST_PUT],
               least[CREATE_WRITE], least[GET], least[WHOLE_READ]);
        if (sqlite_version() != NULL)
            printf(" %10.2f |\n", least[SQLITE_PUT]);
        else
            printf(" %10s |\n", "-");
    }
}

/* 900 boxes in nine directories, each with 16 revisions; the image has no block to spare but for a box more. */
enum { VENUES = 9, IN_VENUE = 100, FLEET = VENUES * IN_VENUE, VENUE_BLOCKS = 26 };
enum { FLEET_BLOCKS = BULGEFS_IMAGE_BLOCKS((FLEET + 1) * 7 + VENUES * VENUE_BLOCKS + 3) };

/* The path of a box; before its last '/' stands the directory, behind it the serial number. */
static named box_of(uint32_t i)
{
    named b;
    b.len = (size_t)snprintf((char *)b.bytes, PATH_SIZE, "/venue %u/SN%06u", (unsigned)(i / IN_VENUE),
                             (unsigned)i);
    return b;
}

enum { VENUE_NAME = 8 };

static void put_box(uint32_t i)
{
    named b = box_of(i);
    require(bulgefs_put_settings_in(image, image_len, journal, JOURNAL, b.bytes, VENUE_NAME,
                                    b.bytes + VENUE_NAME + 1, b.len - VENUE_NAME - 1, data, bytes,
                                    2).number,
            "put");
}

static void make_fleet(uint32_t size)
{
    static const uint8_t volume_name[128] = "fleet";
    bulgefs_uuid uuid = {{0}};
    image_len = BULGEFS_IMAGE_SIZE(FLEET_BLOCKS);
    bytes = size;
    require(bulgefs_format(image, image_len, 3, 1, uuid, volume_name, 128), "format");
    sqlite_start();
    for (uint32_t i = 0; i < FLEET; i += IN_VENUE) {
        named b = box_of(i);
        require(bulgefs_journal_start(journal, JOURNAL), "start");
        require(bulgefs_create_directory(image, image_len, journal, JOURNAL, b.bytes, VENUE_NAME,
                                         0x20, 0, 0, 0, 0, VENUE_BLOCKS, 1).number,
                "create directory");
    }
    for (uint32_t r = 0; r < BULGEFS_MAX_REVISIONS; r++)
        for (uint32_t i = 0; i < FLEET; i++) {
            named b = box_of(i);
            memset(data, (int)('a' + r), sizeof data);
            require(bulgefs_journal_start(journal, JOURNAL), "start");
            put_box(i);
            sqlite_put(b.bytes, b.len, data, bytes, 1);
        }
    require(bulgefs_journal_start(journal, JOURNAL), "start");
}

enum { FLEET_PUT, FLEET_FIRST, FLEET_GET, FLEET_CHECK, FLEET_SQLITE, FLEET_WAYS };

/* One way at box i; seconds. A change is taken back after it was timed. */
static double fleet_time(int way, uint32_t i)
{
    named b = box_of(i);
    if (way == FLEET_SQLITE)
        return sqlite_put(b.bytes, b.len, data, bytes, 0);
    double begin = now();
    if (way == FLEET_CHECK)
        require(bulgefs_check(image, image_len), "check");
    else if (way == FLEET_GET)
        require(bulgefs_get_latest_settings_in(image, image_len, b.bytes, VENUE_NAME,
                                               b.bytes + VENUE_NAME + 1, b.len - VENUE_NAME - 1,
                                               buffer, 200).number,
                "get");
    else if (way == FLEET_FIRST)
        require(bulgefs_put_settings_in(image, image_len, journal, JOURNAL, b.bytes, VENUE_NAME,
                                        new_serial, SERIAL, data, bytes, 3).number,
                "first put");
    else
        put_box(i);
    double took = now() - begin;
    if (way == FLEET_PUT || way == FLEET_FIRST)
        require(bulgefs_undo(image, image_len, journal, JOURNAL).number, "undo");
    return took;
}

void bench_fleet(int quick)
{
    static const uint32_t sizes[] = {60, 200};
    printf("\nThe same among 900 boxes in nine directories, each with 16 revisions, %u blocks; SQLite"
           " has the same rows; microseconds, the least of many\n\n", (unsigned)FLEET_BLOCKS);
    printf("| %5s | %8s | %9s | %8s | %8s | %10s |\n", "bytes", "put", "first put", "get", "check",
           "SQLite put");
    printf("|------:|---------:|----------:|---------:|---------:|-----------:|\n");
    for (size_t s = 0; s < sizeof sizes / sizeof sizes[0]; s++) {
        double least[FLEET_WAYS];
        make_fleet(sizes[s]);
        for (uint32_t turn = 0; turn < (quick ? FEW_TURNS : TURNS); turn++)
            for (int way = 0; way < FLEET_WAYS; way++) {
                double took = fleet_time(way, turn * 37 % FLEET) * 1e6;
                if (turn == 0 || took < least[way])
                    least[way] = took;
            }
        printf("| %5u | %8.2f | %9.2f | %8.2f | %8.2f |", (unsigned)sizes[s], least[FLEET_PUT],
               least[FLEET_FIRST], least[FLEET_GET], least[FLEET_CHECK]);
        if (sqlite_version() != NULL)
            printf(" %10.2f |\n", least[FLEET_SQLITE]);
        else
            printf(" %10s |\n", "-");
    }
}
