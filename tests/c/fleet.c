/*
 * 900 boxes in nine directories, a hundred in each, under serial numbers that are
 * the same in all nine: 16 revisions of 200 bytes each, then more for some of them.
 * Every answer is held against a plain table of what was put.  Image and journal
 * have the sizes that the header and the README state: the last block is taken, and
 * the journal suffices.  At the end every put is taken back, and image and journal
 * are, byte for byte, what they were.
 */
#include <stdio.h>
#include <stdlib.h>
#include <string.h>
#include "bulgefs.h"

enum { DIRECTORIES = 9, IN_EACH = 100, BOXES = DIRECTORIES * IN_EACH, MORE = 60,
       DIRECTORY_BLOCKS = 26, ROOT_BLOCKS = 3, EVERY = 8 };

/* The sizes that the header and the README state, with room for the directories and for MORE puts. */
#define FILE_BLOCKS BULGEFS_FILE_BLOCKS(BULGEFS_SETTINGS_SIZE(16u, 200u))
#define BLOCKS BULGEFS_IMAGE_BLOCKS(BOXES * FILE_BLOCKS + DIRECTORIES * DIRECTORY_BLOCKS + ROOT_BLOCKS)
#define IMAGE BULGEFS_IMAGE_SIZE(BLOCKS)
#define JOURNAL (BULGEFS_MIN_JOURNAL + DIRECTORIES * BULGEFS_RECORD_SIZE(BULGEFS_NEW_DIRECTORY_BLOCKS(DIRECTORY_BLOCKS)) \
                 + BOXES * BULGEFS_PUTS_SIZE(16u, 200u) + MORE * BULGEFS_RECORD_SIZE(FILE_BLOCKS + 1u))

static unsigned long passed, failed;

static void expect(int right, const char *what)
{
    if (right) {
        passed++;
    } else if (failed++ < 20) {
        printf("FAILED %s\n", what);
    }
}

typedef struct {
    uint32_t revision;
    uint8_t data[16][200];
} box;

static box boxes[BOXES];
static uint8_t image[IMAGE], formatted[IMAGE], made[IMAGE], other[IMAGE], journal[JOURNAL];
static uint64_t sums[16 * BOXES + MORE + 1];

/* A sum over an image's bytes, to tell it from the images before and after; taken before every eighth put. */
static uint64_t sum_of(const uint8_t *bytes, size_t len)
{
    uint64_t sum = 0, word;
    for (size_t i = 0; i + 8 <= len; i += 8) {
        memcpy(&word, bytes + i, 8);
        sum = (sum ^ word) * 0x9E3779B97F4A7C15u;
        sum ^= sum >> 29;
    }
    return sum;
}

static void note(unsigned puts)
{
    if (puts % EVERY == 0)
        sums[puts] = sum_of(image, sizeof image);
}

static size_t directory_of(unsigned i, char *text)
{
    return (size_t)sprintf(text, "/venue %u", i / IN_EACH);
}

static size_t serial_of(unsigned i, char *text)
{
    return (size_t)sprintf(text, "SN%u", 4400 + i % IN_EACH);
}

static uint32_t put(unsigned i)
{
    box *b = &boxes[i];
    char directory[32], serial[32];
    size_t directory_len = directory_of(i, directory), serial_len = serial_of(i, serial);
    uint8_t *data = b->data[b->revision % 16];
    for (size_t k = 0; k < 200; k++)
        data[k] = (uint8_t)(i * 7 + b->revision * 13 + k);
    bulgefs_put p = bulgefs_put_settings_in(image, sizeof image, journal, sizeof journal,
                                            (uint8_t *)directory, directory_len, (uint8_t *)serial,
                                            serial_len, data, 200, 5);
    expect(p.number == 0 && p.revision == b->revision + 1, "put");
    b->revision++;
    return p.number;
}

/* Every revision from below the oldest to above the latest, and the latest. */
static void ask(unsigned i)
{
    const box *b = &boxes[i];
    char directory[32], serial[32];
    size_t directory_len = directory_of(i, directory), serial_len = serial_of(i, serial);
    uint8_t got[200];
    for (uint32_t r = b->revision > 17 ? b->revision - 17 : 0; r <= b->revision + 1; r++) {
        bulgefs_got g = bulgefs_get_settings_in(image, sizeof image, (uint8_t *)directory,
                                                directory_len, (uint8_t *)serial, serial_len, r, got,
                                                sizeof got);
        int stands = r >= 1 && r <= b->revision && r + 16 > b->revision;
        if (stands)
            expect(g.number == 0 && g.revision == r && g.length == 200
                       && memcmp(got, b->data[(r - 1) % 16], 200) == 0, "get of a revision");
        else
            expect(g.number == (b->revision == 0 ? BULGEFS_NOT_FOUND : BULGEFS_NO_REVISION),
                   "get of none");
    }
    bulgefs_got g = bulgefs_get_latest_settings_in(image, sizeof image, (uint8_t *)directory,
                                                   directory_len, (uint8_t *)serial, serial_len, got,
                                                   sizeof got);
    if (b->revision == 0)
        expect(g.number == BULGEFS_NOT_FOUND, "get of none");
    else
        expect(g.number == 0 && g.revision == b->revision
                   && memcmp(got, b->data[(b->revision - 1) % 16], 200) == 0, "get of the latest");
    g = bulgefs_get_latest_settings(image, sizeof image, (uint8_t *)serial, serial_len, got,
                                    sizeof got);
    expect(g.number == BULGEFS_NOT_FOUND, "nothing in the root");
}

static void start(void)
{
    static const uint8_t name[128] = "fleet";
    bulgefs_uuid uuid = {{0}};
    char text[32];
    expect(bulgefs_format(image, sizeof image, ROOT_BLOCKS, 1, uuid, name, 128) == 0, "format");
    expect(bulgefs_journal_start(journal, sizeof journal) == 0, "start");
    memcpy(formatted, image, sizeof image);
    for (unsigned d = 0; d < DIRECTORIES; d++) {
        size_t len = directory_of(d * IN_EACH, text);
        expect(bulgefs_create_directory(image, sizeof image, journal, sizeof journal,
                                        (uint8_t *)text, len, 0x20, 0, 0, 0, 0, DIRECTORY_BLOCKS,
                                        1).number == 0, "directory");
    }
    memcpy(made, image, sizeof image);
}

/* The image is full to the last block: a box more is refused. */
static void full(void)
{
    bulgefs_volume v = bulgefs_info(image, sizeof image, other, 0);
    expect(v.number == 0 && v.free == 0, "no block is left");
    char directory[32];
    size_t len = directory_of(0, directory);
    bulgefs_put p = bulgefs_put_settings_in(image, sizeof image, journal, sizeof journal,
                                            (uint8_t *)directory, len, (const uint8_t *)"SN9999", 6,
                                            boxes[0].data[0], 200, 5);
    expect(p.number == BULGEFS_VOLUME_FULL && p.revision == 0 && p.record == 0, "one box more");
}

/* The numbers of the README's table. */
static void stated(void)
{
    const size_t directories = DIRECTORIES * DIRECTORY_BLOCKS + ROOT_BLOCKS;
    expect(BULGEFS_IMAGE_SIZE(BULGEFS_IMAGE_BLOCKS(BOXES * 3u + directories)) == 1516544
               && BULGEFS_FILE_BLOCKS(BULGEFS_SETTINGS_SIZE(16u, 60u)) == 3, "image for 60 bytes");
    expect(BULGEFS_IMAGE_SIZE(BULGEFS_IMAGE_BLOCKS(BOXES * 7u + directories)) == 3374080
               && IMAGE == 3374080, "image for 200 bytes");
    expect(BULGEFS_MIN_JOURNAL + BOXES * BULGEFS_PUTS_SIZE(16u, 60u) == 27457205, "journal for 60 bytes");
    expect(BULGEFS_MIN_JOURNAL + BOXES * BULGEFS_PUTS_SIZE(16u, 200u) == 50212805, "journal for 200 bytes");
    expect(BULGEFS_JOURNAL_SIZE(1u, BULGEFS_PUT_BLOCKS(3u)) == 3621
               && BULGEFS_JOURNAL_SIZE(1u, BULGEFS_PUT_BLOCKS(7u)) == 5685, "journal for one put");
    expect(BULGEFS_MAX_FILES(DIRECTORY_BLOCKS) >= IN_EACH && BULGEFS_MAX_FILES(64u) == 254, "names");
}

int main(void)
{
    unsigned puts = 0;
    stated();
    start();
    /* All boxes in turn, so that each box's blocks lie far apart. */
    for (unsigned r = 0; r < 16; r++)
        for (unsigned i = 0; i < BOXES; i++) {
            note(puts++);
            put(i);
        }
    expect(bulgefs_check(image, sizeof image) == 0, "sound");
    for (unsigned i = 0; i < BOXES; i++)
        ask(i);
    full();
    /* More than 16 of every fifteenth box: nothing of another box or directory changes. */
    for (unsigned i = 0; i < BOXES; i += BOXES / MORE) {
        note(puts++);
        put(i);
    }
    for (unsigned i = 0; i < BOXES; i++)
        ask(i);
    bulgefs_journal j = bulgefs_journal_info(image, sizeof image, journal, sizeof journal);
    printf("%lu blocks, image of %lu bytes, journal of %lu bytes, %u used\n", (unsigned long)BLOCKS,
           (unsigned long)IMAGE, (unsigned long)JOURNAL, (unsigned)j.used);
    expect(j.number == 0 && j.records == puts + DIRECTORIES && j.used <= JOURNAL, "journal");
    while (puts > 0) {
        bulgefs_changed u = bulgefs_undo(image, sizeof image, journal, sizeof journal);
        puts--;
        expect(u.number == 0 && (puts % EVERY != 0 || sum_of(image, sizeof image) == sums[puts]),
               "undo of a put");
    }
    expect(memcmp(image, made, sizeof image) == 0, "as before the puts");
    for (unsigned d = 0; d < DIRECTORIES; d++)
        expect(bulgefs_undo(image, sizeof image, journal, sizeof journal).number == 0, "undo");
    expect(memcmp(image, formatted, sizeof image) == 0, "as it was formatted");
    memset(other, 0, sizeof other);
    expect(bulgefs_journal_start(other, 5) == 0 && memcmp(journal, other, 5) == 0, "the journal again");
    size_t zeros = 5;
    while (zeros < sizeof journal && journal[zeros] == 0)
        zeros++;
    expect(zeros == sizeof journal, "the journal's rest is zeros");
    printf("%lu passed, %lu failed\n", passed, failed);
    return failed == 0 ? 0 : 1;
}
