/*
 * The baseline's view of an image and a journal: numbers, the table, the
 * directories, paths, the check, and the journal's records.  Part of baseline.c alone.
 */
#ifndef BASELINE_IMAGE_H
#define BASELINE_IMAGE_H

#include "bulgefs.h"

#include <stdbool.h>
#include <string.h>

enum {
    BLOCK = 512,
    SLOT = 128,
    ENTRIES = 128,  /* table entries in a block      */
    SAVED = 516,    /* a saved block in a record     */
    RECORD_HEAD = 4,
    JOURNAL_HEAD = 5,

    /* Offsets in the header. */
    TOTAL = 12, TABLE = 16, OCCUPIED = 20, FREE = 24, ROOT = 28,
    UUID = 112, VOLUME_NAME = 128,

    /* Offsets in a slot. */
    TYPE = 0, USER = 1, GROUP = 2, PERMISSIONS = 3, FIRST = 4, SIZE = 8,
    BLOCKS = 12, CREATED = 16, MODIFIED = 24, ATTRIBUTE_BLOCK = 32,
    ATTRIBUTE_SIZE = 36, FLAGS = 40, NAME = 48,
    SELF_BLOCK = 4, SELF_PARENT = 8,
    NAME_FIELD = 80,

    TYPE_FREE = 0x00, TYPE_SELF = 0x01, TYPE_END = 0xFF,

    /* A write takes at most 8 blocks, a new directory as many as it may have. */
    MAX_TAKEN = BULGEFS_MAX_DIRECTORY_BLOCKS
};

static const uint8_t signature[12] = {'B', 'u', 'l', 'g', 'e', 'F', 'S', '!', 0, 1, 0, 0};

/* One flag per block of the largest image. */
typedef struct { uint8_t bits[BULGEFS_MAX_BLOCKS / 8]; } block_set;

/* The blocks of an image, and those of its table. */
typedef struct { uint32_t n, t; } volume;

/* A directory: its blocks in chain order. */
typedef struct {
    uint32_t d;
    uint32_t blocks[BULGEFS_MAX_DIRECTORY_BLOCKS];
} directory;

/* ---- numbers and sets ---- */

static uint32_t get32(const uint8_t *p)
{
    return (uint32_t)p[0] << 24 | (uint32_t)p[1] << 16 | (uint32_t)p[2] << 8 | p[3];
}

static void put32(uint8_t *p, uint32_t v)
{
    p[0] = (uint8_t)(v >> 24);
    p[1] = (uint8_t)(v >> 16);
    p[2] = (uint8_t)(v >> 8);
    p[3] = (uint8_t)v;
}

static void put64(uint8_t *p, uint64_t v)
{
    put32(p, (uint32_t)(v >> 32));
    put32(p + 4, (uint32_t)v);
}

static bool has(const block_set *set, uint32_t b)
{
    return set->bits[b / 8] >> (b % 8) & 1;
}

static void add(block_set *set, uint32_t b)
{
    set->bits[b / 8] |= (uint8_t)(1u << (b % 8));
}

static void take_off(block_set *set, uint32_t b)
{
    set->bits[b / 8] &= (uint8_t)~(1u << (b % 8));
}

static uint32_t blocks_for(uint32_t size)
{
    return size / BLOCK + (size % BLOCK != 0);
}

/* ---- the table ---- */

static uint32_t next_of(const uint8_t *image, uint32_t b)
{
    return get32(image + BLOCK + 4 * (size_t)b);
}

static void set_next(uint8_t *image, uint32_t b, uint32_t value)
{
    put32(image + BLOCK + 4 * (size_t)b, value);
}

static uint32_t table_block(uint32_t b)
{
    return 1 + b / ENTRIES;
}

/*
 * Walks a chain of count blocks and marks each.  False if one is out of range
 * or marked already, or if the last one's entry is not 1.
 */
static bool walk(const uint8_t *image, const volume *v, uint32_t first, uint32_t count,
                 block_set *seen)
{
    uint32_t b = first;
    for (uint32_t i = 0; i < count; i++) {
        if (b <= v->t || b >= v->n || has(seen, b))
            return false;
        add(seen, b);
        b = next_of(image, b);
    }
    return count == 0 || b == 1;
}

/* ---- directories ---- */

/* Fills in the directory that starts with block first.  Its chain is right. */
static void open_directory(const uint8_t *image, uint32_t first, directory *dir)
{
    dir->d = get32(image + (size_t)first * BLOCK + BLOCKS);
    for (uint32_t i = 0, b = first; i < dir->d; i++, b = next_of(image, b))
        dir->blocks[i] = b;
}

static uint32_t end_slot(const directory *dir)
{
    return BULGEFS_SLOTS_PER_BLOCK * dir->d - 1;
}

static size_t slot_at(const directory *dir, uint32_t slot)
{
    return (size_t)dir->blocks[slot / 4] * BLOCK + slot % 4 * SLOT;
}

static bool is_file(uint8_t type)
{
    return type >= BULGEFS_MIN_FILE_TYPE && type <= BULGEFS_MAX_FILE_TYPE;
}

static bool is_directory(uint8_t type)
{
    return type >= BULGEFS_MIN_DIRECTORY_TYPE && type <= BULGEFS_MAX_DIRECTORY_TYPE;
}

static bool good_name_field(const uint8_t *field)
{
    size_t len = 0;
    while (len < NAME_FIELD && field[len] != 0)
        len++;
    if (len == 0 || memchr(field, '/', len) != NULL)
        return false;
    while (len < NAME_FIELD && field[len] == 0)
        len++;
    return len == NAME_FIELD;
}

/* The slot of a good name; 0, the self entry's slot, if there is none. */
static uint32_t find(const uint8_t *image, const directory *dir, const uint8_t *name, size_t len)
{
    uint8_t field[NAME_FIELD] = {0};
    memcpy(field, name, len);
    for (uint32_t s = 1; s < end_slot(dir); s++) {
        const uint8_t *slot = image + slot_at(dir, s);
        if (slot[TYPE] != TYPE_FREE && memcmp(slot + NAME, field, NAME_FIELD) == 0)
            return s;
    }
    return 0;
}

/* ---- paths ---- */

/* The number of names in a path; 0 if it is none. */
static size_t count_names(const uint8_t *path, size_t len)
{
    size_t names = 0, at = 0;
    while (at < len) {
        size_t start = at + 1, end = start;
        while (end < len && path[end] != '/')
            end++;
        if (path[at] != '/' || end == start || end - start > BULGEFS_MAX_NAME
            || memchr(path + start, 0, end - start) != NULL)
            return 0;
        names++;
        at = end;
    }
    return names;
}

/* Where a path leads: its last name, the directory for it, and its slot or 0. */
typedef struct {
    directory home;
    const uint8_t *name;
    size_t name_len;
    uint32_t slot;
} target;

/* Follows a good path.  False if it goes through a file or a missing part. */
static bool follow(const uint8_t *image, const volume *v, const uint8_t *path, size_t len,
                   target *to)
{
    uint32_t first = v->t + 1;
    for (;;) {
        const uint8_t *slash = memchr(path + 1, '/', len - 1);
        to->name = path + 1;
        to->name_len = slash == NULL ? len - 1 : (size_t)(slash - path) - 1;
        open_directory(image, first, &to->home);
        to->slot = find(image, &to->home, to->name, to->name_len);
        if (slash == NULL)
            return true;
        const uint8_t *entry = image + slot_at(&to->home, to->slot);
        if (to->slot == 0 || !is_directory(entry[TYPE]))
            return false;
        first = get32(entry + FIRST);
        len -= (size_t)(slash - path);
        path = slash;
    }
}

/* ---- the check ---- */

/* What a directory must say of itself: its entry has it, of the root the rules. */
typedef struct {
    uint32_t first, parent, d;
    const uint8_t *name;        /* its field; NULL for the root */
} expected;

static bool good_self(const uint8_t *image, const volume *v, const expected *e, block_set *seen)
{
    if (e->first <= v->t || e->first >= v->n)
        return false;
    const uint8_t *self = image + (size_t)e->first * BLOCK;
    return self[TYPE] == TYPE_SELF && get32(self + SELF_BLOCK) == e->first
        && get32(self + SELF_PARENT) == e->parent && get32(self + BLOCKS) == e->d
        && e->d >= BULGEFS_MIN_DIRECTORY_BLOCKS && e->d <= BULGEFS_MAX_DIRECTORY_BLOCKS
        && (e->name == NULL || memcmp(self + NAME, e->name, NAME_FIELD) == 0)
        && walk(image, v, e->first, e->d, seen);
}

static bool good_entry(const uint8_t *slot)
{
    uint32_t size = get32(slot + SIZE);
    uint32_t attributes = get32(slot + ATTRIBUTE_SIZE);
    if (!good_name_field(slot + NAME) || (get32(slot + ATTRIBUTE_BLOCK) == 0) != (attributes == 0)
        || attributes > BULGEFS_MAX_ATTRIBUTE_BLOCKS)
        return false;
    if (is_directory(slot[TYPE]))
        return size == 0 && attributes == 0;
    return is_file(slot[TYPE]) && get32(slot + BLOCKS) == blocks_for(size)
        && (get32(slot + FIRST) == 0) == (size == 0);
}

static bool name_is_new(const uint8_t *image, const directory *dir, uint32_t slot)
{
    const uint8_t *name = image + slot_at(dir, slot) + NAME;
    for (uint32_t s = 1; s < slot; s++) {
        const uint8_t *other = image + slot_at(dir, s);
        if (other[TYPE] != TYPE_FREE && memcmp(other + NAME, name, NAME_FIELD) == 0)
            return false;
    }
    return true;
}

/* Stages 4 and 5 of a directory and all below it: the first fault met. */
static uint32_t check_directory(const uint8_t *image, const volume *v, const expected *e,
                                uint32_t level, block_set *seen)
{
    directory dir;
    if (level > BULGEFS_MAX_LEVELS || !good_self(image, v, e, seen))
        return BULGEFS_BAD_SELF;
    open_directory(image, e->first, &dir);
    if (image[slot_at(&dir, end_slot(&dir)) + TYPE] != TYPE_END)
        return BULGEFS_BAD_SLOT;
    for (uint32_t s = 1; s < end_slot(&dir); s++) {
        const uint8_t *slot = image + slot_at(&dir, s);
        if (slot[TYPE] == TYPE_FREE)
            continue;
        if (!good_entry(slot) || !name_is_new(image, &dir, s))
            return BULGEFS_BAD_SLOT;
        if (is_directory(slot[TYPE])) {
            expected child = {get32(slot + FIRST), e->first, get32(slot + BLOCKS), slot + NAME};
            uint32_t number = check_directory(image, v, &child, level + 1, seen);
            if (number != BULGEFS_OK)
                return number;
        }
    }
    return BULGEFS_OK;
}

/* Both chains of a file. */
static bool good_file(const uint8_t *image, const volume *v, const uint8_t *slot, block_set *seen)
{
    return walk(image, v, get32(slot + FIRST), get32(slot + BLOCKS), seen)
        && walk(image, v, get32(slot + ATTRIBUTE_BLOCK), get32(slot + ATTRIBUTE_SIZE), seen);
}

/* The chains of all files in a directory and below it. */
static bool good_files(const uint8_t *image, const volume *v, uint32_t first, block_set *seen)
{
    directory dir;
    open_directory(image, first, &dir);
    for (uint32_t s = 1; s < end_slot(&dir); s++) {
        const uint8_t *slot = image + slot_at(&dir, s);
        if (is_directory(slot[TYPE]) && !good_files(image, v, get32(slot + FIRST), seen))
            return false;
        if (is_file(slot[TYPE]) && !good_file(image, v, slot, seen))
            return false;
    }
    return true;
}

/* seen holds the blocks of all directories when this is called. */
static bool good_table(const uint8_t *image, const volume *v, block_set *seen)
{
    if (!good_files(image, v, v->t + 1, seen))
        return false;
    for (uint32_t b = 0; b < v->t * ENTRIES; b++) {
        uint32_t value = next_of(image, b);
        if (b <= v->t ? value != 1 : value != 0 && (b >= v->n || !has(seen, b)))
            return false;
    }
    return true;
}

static bool good_counts(const uint8_t *image, const volume *v)
{
    uint32_t occupied = 0;
    for (uint32_t b = 0; b < v->n; b++)
        occupied += next_of(image, b) != 0;
    return get32(image + OCCUPIED) == occupied && get32(image + FREE) == v->n - occupied;
}

static bool good_length(size_t len)
{
    return len % BLOCK == 0 && len / BLOCK >= BULGEFS_MIN_BLOCKS
        && len / BLOCK <= BULGEFS_MAX_BLOCKS;
}

static void set_geometry(volume *v, size_t len)
{
    v->n = (uint32_t)(len / BLOCK);
    v->t = (v->n + ENTRIES - 1) / ENTRIES;
}

/* Stages 1 to 3; on success root says what stage 4 asks of the root. */
static uint32_t check_header(const uint8_t *image, size_t len, volume *v, expected *root)
{
    if (!good_length(len))
        return BULGEFS_BAD_LENGTH;
    set_geometry(v, len);
    if (memcmp(image, signature, sizeof signature) != 0)
        return BULGEFS_BAD_SIGNATURE;
    if (get32(image + TOTAL) != v->n || get32(image + TABLE) != v->t
        || get32(image + ROOT) != v->t + 1)
        return BULGEFS_BAD_GEOMETRY;
    uint32_t first = v->t + 1;
    *root = (expected){first, first, get32(image + (size_t)first * BLOCK + BLOCKS), NULL};
    return BULGEFS_OK;
}

static uint32_t check(const uint8_t *image, size_t len, volume *v)
{
    block_set seen = {{0}};
    expected root;
    uint32_t number = check_header(image, len, v, &root);
    if (number == BULGEFS_OK)
        number = check_directory(image, v, &root, 0, &seen);
    if (number != BULGEFS_OK)
        return number;
    if (!good_table(image, v, &seen))
        return BULGEFS_BAD_CHAINS;
    if (!good_counts(image, v))
        return BULGEFS_BAD_COUNTS;
    return BULGEFS_OK;
}

/* ---- the journal ---- */

/* The length of the record at the start of bytes; 0 if there is no good one. */
static size_t record_length(const uint8_t *bytes, size_t len, uint32_t n)
{
    if (len < RECORD_HEAD)
        return 0;
    size_t record = get32(bytes);
    if (record > len || record <= RECORD_HEAD || (record - RECORD_HEAD) % SAVED != 0)
        return 0;
    uint32_t previous = 0;
    for (size_t at = RECORD_HEAD; at < record; at += SAVED) {
        uint32_t b = get32(bytes + at);
        if (b >= n || (at > RECORD_HEAD && b <= previous))
            return 0;
        previous = b;
    }
    return record;
}

/* Finds the last record: its offset, and its length, 0 if there is none. */
static bool read_journal(const uint8_t *journal, size_t len, uint32_t n, size_t *last,
                         size_t *last_length)
{
    *last = JOURNAL_HEAD;
    *last_length = 0;
    if (len < BULGEFS_MIN_JOURNAL || len > BULGEFS_MAX_JOURNAL || journal[0] != 1)
        return false;
    size_t used = get32(journal + 1);
    if (used < JOURNAL_HEAD || used > len)
        return false;
    for (size_t at = JOURNAL_HEAD; at < used; at += *last_length) {
        *last = at;
        *last_length = record_length(journal + at, used - at, n);
        if (*last_length == 0)
            return false;
    }
    return true;
}

/* The common start of the calls that take a journal: numbers 1 to 8. */
static uint32_t check_both(const uint8_t *image, size_t image_len, const uint8_t *journal,
                           size_t journal_len, volume *v)
{
    size_t last, last_length;
    uint32_t number = check(image, image_len, v);
    if (number == BULGEFS_OK && !read_journal(journal, journal_len, v->n, &last, &last_length))
        number = BULGEFS_BAD_JOURNAL;
    return number;
}

/*
 * Appends a record of the named blocks as they are now.  Gives its length, or
 * 0 and no change if it does not fit.
 */
static uint32_t save(const uint8_t *image, uint32_t n, const block_set *named,
                     uint8_t *journal, size_t journal_len)
{
    size_t used = get32(journal + 1);
    size_t record = RECORD_HEAD;
    for (uint32_t b = 0; b < n; b++)
        record += has(named, b) ? SAVED : 0;
    if (record > journal_len - used)
        return 0;
    uint8_t *to = journal + used;
    put32(to, (uint32_t)record);
    to += RECORD_HEAD;
    for (uint32_t b = 0; b < n; b++) {
        if (!has(named, b))
            continue;
        put32(to, b);
        memcpy(to + 4, image + (size_t)b * BLOCK, BLOCK);
        to += SAVED;
    }
    put32(journal + 1, (uint32_t)(used + record));
    return (uint32_t)record;
}

#endif
