/*
 * Measures how much stack the calls take: each runs on a stack of its own that
 * was painted before, and what is not painted any more was used.  The header
 * states the most; a call above it fails.
 */
#define _XOPEN_SOURCE 700

#include "bulgefs.h"

#include <stdio.h>
#include <stdlib.h>
#include <string.h>
#include <ucontext.h>

enum { STACK = 1024 * 1024, PAINT = 0xA5, LARGE = 65536, SMALL = 4096 };

static uint8_t *stack, *image, *journal;
static size_t image_len, journal_len = 1 << 20;
static uint32_t *entries;
static ucontext_t here, there;
static unsigned long passed, failed;
static uint32_t number;

static const uint8_t path[] = "/f";
static const uint8_t data[4096] = {1};

static void check(void) { number = bulgefs_check(image, image_len); }
static void plain_check(void) { number = bulgefs_plain_check(image, image_len); }
static void lookup(void) { number = bulgefs_lookup(image, image_len, path, 2).number; }
static void start(void) { number = bulgefs_journal_start(journal, journal_len); }
static void undo(void) { number = bulgefs_undo(image, image_len, journal, journal_len).number; }
static void undo_to(void) { number = bulgefs_undo_to(image, image_len, journal, journal_len, BULGEFS_FIRST_MARK).number; }
static void journal_info(void) { number = bulgefs_journal_info(image, image_len, journal, journal_len).number; }
static void load(void) { number = bulgefs_load_table(image, image_len, entries, image_len / 512); }
static void store(void)
{
    number = bulgefs_store_table(image, image_len, entries, image_len / 512);
}

static void format(void)
{
    static const uint8_t volume_name[128] = "stack";
    bulgefs_uuid uuid = {{0}};
    number = bulgefs_format(image, image_len, 64, 1, uuid, volume_name, 128);
}

static void create(void)
{
    number = bulgefs_create(image, image_len, journal, journal_len, path, 2, 0x60, 0, 0, 0, 0, 1)
                 .number;
}

static void write_data(void)
{
    number = bulgefs_write(image, image_len, journal, journal_len, path, 2, 0, data, 4096, 2)
                 .number;
}

static void append(void)
{
    number = bulgefs_append(image, image_len, journal, journal_len, path, 2, data, 4096, 3).number;
}

static void append_nothing(void)
{
    number = bulgefs_append(image, image_len, journal, journal_len, path, 2, data, 0, 3).number;
}

/* A list of two writes of 4,096 bytes. */
static void write_list(void)
{
    enum { ITEM = BULGEFS_ITEM_SIZE(2, 4096), LIST = BULGEFS_LIST_HEAD + 2 * ITEM };
    static uint8_t list[LIST] = {1, 0, 0, LIST >> 8, LIST & 255};
    for (size_t at = BULGEFS_LIST_HEAD; at < LIST; at += ITEM) {
        list[at + 2] = ITEM >> 8;
        list[at + 3] = ITEM & 255;
        list[at + 17] = 2;
        memcpy(list + at + 18, path, 2);
    }
    bulgefs_listed w = bulgefs_write_list(image, image_len, journal, journal_len, list, LIST);
    number = w.done == 2 ? w.number : 99;
}

static void read_data(void)
{
    static uint8_t buffer[4096];
    number = bulgefs_read(image, image_len, path, 2, 0, buffer, 4096).number;
}

static void read_next(void)
{
    static uint8_t buffer[4096];
    uint64_t position = 0;
    number = bulgefs_read_next(image, image_len, path, 2, &position, buffer, 4096).number;
}

static void look(void)
{
    number = bulgefs_look_in_place(image, image_len, path, 2, 0).length == 512 ? 0 : 99;
}

static void info(void)
{
    static uint8_t labels[BULGEFS_LABELS_SIZE];
    number = bulgefs_info(image, image_len, labels, sizeof labels).number;
}

static void entry(void)
{
    static uint8_t name[BULGEFS_MAX_NAME];
    bulgefs_slot e = bulgefs_entry(image, image_len, path, 1, 1, name, sizeof name);
    number = e.slot == 1 ? e.number : 99;
}

static void set_attributes(void)
{
    number = bulgefs_set_attributes(image, image_len, journal, journal_len, path, 2, data, 4096)
                 .number;
}

static void read_attributes(void)
{
    static uint8_t buffer[4096];
    number = bulgefs_read_attributes(image, image_len, path, 2, buffer, 4096).count == 4096 ? 0
                                                                                            : 99;
}

static void clear_attributes(void)
{
    number = bulgefs_clear_attributes(image, image_len, journal, journal_len, path, 2).number;
}

static void clear_flags(void)
{
    number = bulgefs_clear_flags(image, image_len, journal, journal_len, path, 2).number;
}

static void shorten(void)
{
    number = bulgefs_shorten(image, image_len, journal, journal_len, path, 2, 1, 9).number;
}

static void replace(void)
{
    number = bulgefs_replace(image, image_len, journal, journal_len, path, 2, data, 4096, 9).number;
}

static void move(void)
{
    static const uint8_t to[] = "/moved";
    number = bulgefs_move(image, image_len, journal, journal_len, path, 2, to, 6).number;
}

static void salvage(void)
{
    static uint8_t report[BULGEFS_MAX_REPORT];
    number = bulgefs_salvage(image, image_len, report, sizeof report);
}

/* The same on a volume that is not sound: no end type, and a block that nobody has. */
static void salvage_broken(void)
{
    size_t n = image_len / 512, end = (n + 127) / 128 + 64;
    image[end * 512 + 3 * 128] = 0;
    image[512 + 4 * (n - 1)] = 1;
    salvage();
    number = number == 0 ? bulgefs_check(image, image_len) : number;
}

static void salvage_tree(void)
{
    static uint8_t report[BULGEFS_TREE_REPORT_SIZE(LARGE)];
    number = bulgefs_salvage_tree(image, image_len, report, sizeof report).number;
}

/* The same without a header, a self entry and an end type, and with a block that nobody has. */
static void salvage_tree_broken(void)
{
    size_t n = image_len / 512, root = (n + 127) / 128 + 1;
    memset(image, 0, 32);
    image[root * 512] = 0;
    image[(root + 63) * 512 + 3 * 128] = 0;
    image[512 + 4 * (n - 1)] = 1;
    salvage_tree();
    number = number == 0 ? bulgefs_check(image, image_len) : number;
}

static const uint8_t serial[] = "SN4471";

static void put_settings(void)
{
    number = bulgefs_put_settings(image, image_len, journal, journal_len, serial, 6, data, 200, 4)
                 .number;
}

static void get_settings(void)
{
    static uint8_t buffer[BULGEFS_MAX_SETTINGS];
    bulgefs_got g = bulgefs_get_settings(image, image_len, serial, 6, 1, buffer, sizeof buffer);
    number = g.length == 200 ? g.number : 99;
}

static void get_latest_settings(void)
{
    static uint8_t buffer[BULGEFS_MAX_SETTINGS];
    bulgefs_got g = bulgefs_get_latest_settings(image, image_len, serial, 6, buffer, sizeof buffer);
    number = g.revision == 2 ? g.number : 99;
}

/* The deepest directory, with the longest names, and settings in it. */
static uint8_t deepest[BULGEFS_MAX_LEVELS * (BULGEFS_MAX_NAME + 1)];

static void create_deepest(void)
{
    const size_t one = BULGEFS_MAX_NAME + 1;
    for (size_t level = 1; level <= BULGEFS_MAX_LEVELS; level++) {
        memset(deepest + one * (level - 1), 'd', one);
        deepest[one * (level - 1)] = '/';
        number = bulgefs_create_directory(image, image_len, journal, journal_len, deepest,
                                          one * level, 0x20, 0, 0, 0, 0, 1, 4).number;
        if (number != 0)
            return;
    }
}

static void put_settings_in(void)
{
    number = bulgefs_put_settings_in(image, image_len, journal, journal_len, deepest, sizeof deepest,
                                     serial, 6, data, 200, 4).number;
}

static void get_settings_in(void)
{
    static uint8_t buffer[BULGEFS_MAX_SETTINGS];
    bulgefs_got g = bulgefs_get_settings_in(image, image_len, deepest, sizeof deepest, serial, 6, 1,
                                            buffer, sizeof buffer);
    number = g.length == 200 ? g.number : 99;
}

static void get_latest_settings_in(void)
{
    static uint8_t buffer[BULGEFS_MAX_SETTINGS];
    bulgefs_got g = bulgefs_get_latest_settings_in(image, image_len, deepest, sizeof deepest, serial,
                                                   6, buffer, sizeof buffer);
    number = g.revision == 2 ? g.number : 99;
}

static void delete(void)
{
    number = bulgefs_delete(image, image_len, journal, journal_len, path, 2).number;
}

static const struct {
    const char *what;
    void (*make)(void);
} calls[] = {
    {"format", format}, {"journal_start", start}, {"create", create}, {"write", write_data},
    {"append", append}, {"append of nothing", append_nothing}, {"write_list", write_list},
    {"check", check},   {"lookup", lookup},       {"read", read_data}, {"look_in_place", look},
    {"read_next", read_next}, {"info", info}, {"entry", entry},
    {"plain_check", plain_check}, {"load_table", load}, {"store_table", store},
    {"set_attributes", set_attributes}, {"set_attributes again", set_attributes},
    {"read_attributes", read_attributes}, {"clear_attributes", clear_attributes}, {"undo", undo},
    {"clear_flags", clear_flags}, {"undo", undo}, {"replace", replace}, {"shorten", shorten},
    {"undo", undo}, {"undo", undo}, {"move", move}, {"undo", undo},
    {"put_settings", put_settings}, {"put_settings again", put_settings},
    {"get_settings", get_settings}, {"get_latest_settings", get_latest_settings},
    {"salvage", salvage}, {"salvage, broken", salvage_broken},
    {"delete", delete}, {"undo", undo},
    {"create_directory", create_deepest},
    {"put_settings_in", put_settings_in}, {"put_settings_in again", put_settings_in},
    {"get_settings_in", get_settings_in}, {"get_latest_settings_in", get_latest_settings_in},
    {"salvage_tree", salvage_tree}, {"salvage_tree, broken", salvage_tree_broken},
    {"journal_info", journal_info}, {"undo_to", undo_to},
};

/* The bytes of stack that a call takes. */
static size_t used_by(void (*make)(void))
{
    memset(stack, PAINT, STACK);
    getcontext(&there);
    there.uc_stack.ss_sp = stack;
    there.uc_stack.ss_size = STACK;
    there.uc_link = &here;
    makecontext(&there, make, 0);
    swapcontext(&here, &there);
    size_t clean = 0;
    while (clean < STACK && stack[clean] == PAINT)
        clean++;
    return STACK - clean;
}

static void measure(size_t n)
{
    const size_t most = BULGEFS_STACK;
    size_t deepest = 0;
    image_len = n * 512;
    for (size_t i = 0; i < sizeof calls / sizeof calls[0]; i++) {
        size_t used = used_by(calls[i].make);
        if (number != 0 || used > most) {
            failed++;
            printf("FAILED %s: number %u, %zu bytes of stack\n", calls[i].what, (unsigned)number,
                   used);
        } else {
            passed++;
        }
        if (used > deepest)
            deepest = used;
    }
    printf("%zu blocks: at most %zu bytes of stack, %zu allowed\n", n, deepest, most);
}

int main(void)
{
    stack = malloc(STACK);
    image = calloc(LARGE, 512);
    journal = calloc(journal_len, 1);
    entries = calloc(LARGE, sizeof entries[0]);
    if (stack == NULL || image == NULL || journal == NULL || entries == NULL) {
        printf("out of memory\n");
        return 2;
    }
    measure(SMALL);
    measure(LARGE);
    printf("%lu passed, %lu failed\n", passed, failed);
    return failed == 0 ? 0 : 1;
}
