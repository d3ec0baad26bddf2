/*
 * Journal info and undo to a mark: against single undos and the bytes of each
 * moment, on random runs; the refusals; journals of other images, some with
 * more records than are noted at a time, against the rule written out here.
 */
#include "bulgefs.h"

#include <stdio.h>
#include <stdlib.h>
#include <string.h>

enum { BLOCKS = 64, JOURNAL = 200000, STEPS = 60, ROUNDS = 300 };
enum { LONG_JOURNAL = 4000000, BEHIND = 3000, MOST_RECORDS = 6000 };
#define BOTH image, sizeof image, journal, sizeof journal
#define COPY other_image, sizeof other_image, other_journal, sizeof other_journal

typedef struct {
    uint8_t image[BULGEFS_IMAGE_SIZE(BLOCKS)], journal[JOURNAL];
    uint32_t mark;
} moment;

static uint8_t image[BULGEFS_IMAGE_SIZE(BLOCKS)], journal[JOURNAL];
static uint8_t other_image[sizeof image], other_journal[JOURNAL];
static moment moments[STEPS + 1];
static unsigned passed, failed;

static void expect(int good, const char *what)
{
    if (good) {
        passed++;
    } else {
        failed++;
        printf("FAILED %s\n", what);
    }
}

static uint32_t random_below(uint32_t limit)
{
    static uint64_t state = 20;
    state = state * 0x5D1F3A9B7C24E86Du + 0x1357;
    return (uint32_t)((state >> 33) % limit);
}

static void put_number(uint8_t *at, uint32_t number)
{
    for (int i = 0; i < 4; i++)
        at[i] = (uint8_t)(number >> (24 - 8 * i));
}

static uint32_t number_at(const uint8_t *at)
{
    return (uint32_t)at[0] << 24 | (uint32_t)at[1] << 16 | (uint32_t)at[2] << 8 | at[3];
}

/* ---- random runs ---- */

static void start(void)
{
    static const uint8_t volume_name[BULGEFS_VOLUME_NAME_SIZE] = "marks";
    bulgefs_uuid uuid = {{7}};
    memset(image, 0, sizeof image);
    expect(bulgefs_format(image, sizeof image, 2, 5, uuid, volume_name, sizeof volume_name) == 0,
           "format");
    expect(bulgefs_journal_start(journal, sizeof journal) == 0, "start");
}

/* A create, a delete or a write; whether it was accepted. */
static int change(uint32_t time)
{
    uint8_t path[2] = {'/', (uint8_t)('A' + random_below(6))}, data[1500];
    memset(data, (int)random_below(256), sizeof data);
    if (random_below(3) == 0)
        return bulgefs_create(BOTH, path, 2, BULGEFS_PLAIN_FILE, 1, 2, 3, 0, time).number == 0;
    if (random_below(4) == 0)
        return bulgefs_delete(BOTH, path, 2).number == 0;
    return bulgefs_write(BOTH, path, 2, 0, data, random_below(1500), time).number == 0;
}

static int is_moment(uint32_t k)
{
    return memcmp(image, moments[k].image, sizeof image) == 0
        && memcmp(journal, moments[k].journal, sizeof journal) == 0;
}

static void copy_both(void)
{
    memcpy(other_image, image, sizeof image);
    memcpy(other_journal, journal, sizeof journal);
}

static int same_as_copy(void)
{
    return memcmp(image, other_image, sizeof image) == 0
        && memcmp(journal, other_journal, sizeof journal) == 0;
}

/* Goes back to the moment at which so many changes stood, of as many as stand. */
static void go_back(uint32_t standing, uint32_t to)
{
    copy_both();
    for (uint32_t k = standing; k > to; k--)
        expect(bulgefs_undo(COPY).number == 0, "single undo");
    bulgefs_listed b = bulgefs_undo_to(BOTH, moments[to].mark);
    expect(b.number == 0 && b.done == standing - to, "undo to a mark: count");
    expect(same_as_copy(), "undo to a mark: as single undos");
    expect(is_moment(to), "undo to a mark: the moment, byte for byte");
}

/* Numbers that are no marks are refused, and nothing changes. */
static void refuse_numbers(uint32_t standing, uint32_t used)
{
    copy_both();
    for (uint32_t i = 0; i < 40; i++) {
        uint32_t mark = i < 5 ? i : i < 20 ? used + i - 4 : 6 + random_below(used + 100);
        int known = mark == used;
        for (uint32_t k = 0; k < standing; k++)
            known = known || moments[k].mark == mark;
        if (known)
            continue;
        bulgefs_listed b = bulgefs_undo_to(BOTH, mark);
        expect(b.number == BULGEFS_NO_MARK && b.done == 0 && same_as_copy(), "no mark");
    }
}

/* moments[k] is what there was when k changes stood. */
static void random_run(void)
{
    uint32_t standing = 0;
    start();
    for (uint32_t step = 0; step < STEPS; step++) {
        bulgefs_journal j = bulgefs_journal_info(BOTH);
        expect(j.number == 0 && j.records == standing, "info counts the standing changes");
        moments[standing].mark = j.used;
        memcpy(moments[standing].image, image, sizeof image);
        memcpy(moments[standing].journal, journal, sizeof journal);
        uint32_t what = random_below(10);
        if (what < 7) {
            standing += (uint32_t)change(step + 1);
        } else if (what < 9) {
            standing -= bulgefs_undo(BOTH).number == 0;
        } else {
            uint32_t to = random_below(standing + 1);
            go_back(standing, to);
            standing = to;
        }
    }
    refuse_numbers(standing, bulgefs_journal_info(BOTH).used);
    bulgefs_listed b = bulgefs_undo_to(BOTH, BULGEFS_FIRST_MARK);
    expect(b.number == 0 && b.done == standing && is_moment(0), "the start, byte for byte");
    b = bulgefs_undo_to(BOTH, BULGEFS_FIRST_MARK);
    expect(b.number == 0 && b.done == 0 && is_moment(0), "the start again");
}

/* ---- refusals, and journals of other images ---- */

static void refusals(void)
{
    start();
    while (!change(1))
        continue;
    copy_both();
    other_journal[0] = 2;
    expect(bulgefs_undo_to(COPY, BULGEFS_FIRST_MARK).number == 8, "undo to a mark: 8");
    expect(bulgefs_journal_info(COPY).number == 8, "info: 8");
    other_image[0] ^= 1;
    bulgefs_journal j = bulgefs_journal_info(COPY);
    expect(j.number == 2 && (j.used | j.records | j.last) == 0, "info: 2 and zeros");
    expect(bulgefs_undo_to(COPY, 6).number == 2, "undo to a mark: 2");
}

/* Two records of block 0: the later one has other bytes, the earlier one the right ones. */
static void unsound_between(void)
{
    start();
    for (uint32_t k = 0; k < 2; k++) {
        uint8_t *record = journal + 5 + 520 * k;
        put_number(record, 520);
        memcpy(record + 8, image, BULGEFS_BLOCK_SIZE);
        record[8] ^= (uint8_t)k;
    }
    put_number(journal + 1, 1045);
    copy_both();
    expect(bulgefs_undo(COPY).number == 0, "a single undo of a foreign record");
    expect(bulgefs_undo(COPY).number == 2, "the next one is refused");
    memcpy(other_image, image, sizeof image);
    bulgefs_listed b = bulgefs_undo_to(BOTH, BULGEFS_FIRST_MARK);
    expect(b.number == 0 && b.done == 2, "no check between");
    expect(memcmp(image, other_image, sizeof image) == 0, "the right bytes");
}

static uint8_t long_journal[LONG_JOURNAL], long_copy[LONG_JOURNAL];
static uint32_t begins[MOST_RECORDS + 1];

/* Records of one or two blocks, as many as wanted or fit; random bytes behind the used part. */
static uint32_t fill_long(uint32_t wanted)
{
    uint32_t count = 0, at = 5;
    memset(long_journal, 0, sizeof long_journal);
    long_journal[0] = 1;
    for (uint32_t i = 1; i <= BEHIND; i++)
        long_journal[LONG_JOURNAL - i] = (uint8_t)random_below(256);
    while (count < wanted && at + 1036 <= LONG_JOURNAL - BEHIND) {
        uint32_t blocks = 1 + random_below(2), block = random_below(30);
        begins[count++] = at;
        put_number(long_journal + at, 4 + 516 * blocks);
        for (uint32_t i = 0; i < blocks; i++, block += 1 + random_below(20)) {
            uint8_t *saved = long_journal + at + 4 + 516 * i;
            put_number(saved, block);
            memset(saved + 4, (int)random_below(256), BULGEFS_BLOCK_SIZE);
        }
        at += 4 + 516 * blocks;
    }
    begins[count] = at;
    put_number(long_journal + 1, at);
    return count;
}

/* The rule of undo without its check, on the copies. */
static void take_last(uint32_t at)
{
    uint32_t size = number_at(long_copy + at);
    for (uint32_t i = 0; i < (size - 4) / 516; i++) {
        const uint8_t *saved = long_copy + at + 4 + 516 * i;
        memcpy(other_image + BULGEFS_BLOCK_SIZE * number_at(saved), saved + 4, BULGEFS_BLOCK_SIZE);
    }
    memset(long_copy + at, 0, size);
    put_number(long_copy + 1, at);
}

static void long_run(uint32_t wanted)
{
    start();
    uint32_t count = fill_long(wanted), to = wanted % 3 == 0 ? 0 : random_below(count);
    bulgefs_journal j = bulgefs_journal_info(image, sizeof image, long_journal, LONG_JOURNAL);
    expect(j.number == 0 && j.used == begins[count] && j.records == count
               && j.last == begins[count] - begins[count - 1], "info of a long journal");
    memcpy(other_image, image, sizeof image);
    memcpy(long_copy, long_journal, LONG_JOURNAL);
    for (uint32_t i = count; i > to; i--)
        take_last(begins[i - 1]);
    bulgefs_listed b = bulgefs_undo_to(image, sizeof image, long_journal, LONG_JOURNAL, begins[to]);
    expect(b.number == 0 && b.done == count - to, "a long journal: count");
    expect(memcmp(image, other_image, sizeof image) == 0, "a long journal: image");
    expect(memcmp(long_journal, long_copy, LONG_JOURNAL) == 0, "a long journal: journal");
}

int main(void)
{
    for (int round = 0; round < ROUNDS; round++)
        random_run();
    refusals();
    unsound_between();
    for (uint32_t wanted = 1022; wanted < 1028; wanted++)
        long_run(wanted);
    for (int round = 0; round < 6; round++)
        long_run(2046 + random_below(1500));
    printf("%u passed, %u failed\n", passed, failed);
    return failed != 0;
}
