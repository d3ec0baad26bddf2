/*
 * Calls every entry point with empty, tiny, random and damaged buffers and
 * looks for any step outside them.
 *
 * Each case runs three times: with buffers from exact heap allocations, which
 * AddressSanitizer watches; with buffers that end right before pages nobody
 * may touch; and with buffers that begin right after some.  The pages also
 * catch a library that was built without sanitizers, and buffers that a call
 * may only read lie on pages that nobody may write.
 */
#define _DEFAULT_SOURCE

/* Some calls are made for what they do to a buffer, whatever they answer. */
#define BULGEFS_CHECKED
#include "bulgefs.h"

#include <stdbool.h>
#include <stdio.h>
#include <stdlib.h>
#include <string.h>
#include <sys/mman.h>
#include <unistd.h>

static unsigned long passed, failed;

static void expect(bool good, const char *what)
{
    if (good) {
        passed++;
    } else {
        failed++;
        printf("FAILED %s\n", what);
    }
}

/* ---- random numbers ---- */

static uint64_t random_state = 20;

static uint32_t random_below(uint32_t limit)
{
    random_state = random_state * 0x5D1F3A9B7C24E86Du + 0x1357;
    return (uint32_t)((random_state >> 33) % limit);
}

static void fill_random(uint8_t *bytes, size_t len)
{
    for (size_t i = 0; i < len; i++)
        bytes[i] = (uint8_t)random_below(256);
}

/* ---- buffers ---- */

enum place { HEAP, PAGE_END, PAGE_START, PLACES };

/*
 * Bytes on each side of a buffer that nobody may touch: a multiple of any page,
 * and farther than the table entry of a wrong block number of 16 bits.
 */
enum { GUARD = 512 * 1024 };

static enum place place;

typedef struct {
    uint8_t *at;        /* what the library is given       */
    size_t len;
    uint8_t *pages;     /* the mapping, or NULL on a heap  */
    size_t mapped;
    uint8_t *before;    /* copy of the content             */
} buffer;

static void *must_have(void *memory)
{
    if (memory == NULL || memory == MAP_FAILED) {
        printf("out of memory\n");
        exit(2);
    }
    return memory;
}

/* A buffer with this content.  An empty one may be NULL. */
static buffer lend(const uint8_t *content, size_t len)
{
    buffer b = {NULL, len, NULL, 0, NULL};
    size_t page = (size_t)sysconf(_SC_PAGESIZE);
    if (len == 0 && random_below(2) == 0)
        return b;
    if (place == HEAP) {
        b.at = must_have(malloc(len));
    } else {
        size_t inner = (len + page) / page * page;
        b.mapped = inner + 2 * GUARD;
        b.pages = must_have(mmap(NULL, b.mapped, PROT_NONE, MAP_PRIVATE | MAP_ANONYMOUS, -1, 0));
        mprotect(b.pages + GUARD, inner, PROT_READ | PROT_WRITE);
        b.at = b.pages + GUARD + (place == PAGE_END ? inner - len : 0);
    }
    b.before = must_have(malloc(len + 1));
    if (len > 0) {
        memcpy(b.at, content, len);
        memcpy(b.before, content, len);
    }
    return b;
}

/* The same, for a buffer that the library may only read. */
static buffer lend_const(const uint8_t *content, size_t len)
{
    buffer b = lend(content, len);
    if (b.pages != NULL)
        mprotect(b.pages + GUARD, b.mapped - 2 * GUARD, PROT_READ);
    return b;
}

static bool unchanged(const buffer *b)
{
    return b->len == 0 || memcmp(b->at, b->before, b->len) == 0;
}

static void give_back(buffer *b)
{
    free(b->before);
    if (b->pages != NULL)
        munmap(b->pages, b->mapped);
    else
        free(b->at);
}

/* ---- one call of each kind ---- */

/* What a case lends to the calls. */
typedef struct {
    const uint8_t *image, *journal, *path, *data;
    size_t image_len, journal_len, path_len, data_len;
    uint64_t offset;
} material;

/* Numbers that a call can answer, one bit each. */
#define STAGES     0xFEu
#define BIT(n)     (1u << (n))
#define PATH       (BIT(9) | BIT(10) | BIT(17))
#define MAY(set, n) ((n) <= 27 && ((set) | 1u) >> (n) & 1u)

/* The volume and an entry, on an image whose check gives this number. */
static void call_overview(const material *m, const buffer *image, const buffer *path,
                          uint32_t number)
{
    buffer into = lend(m->data, m->data_len);
    size_t most = into.len < BULGEFS_LABELS_SIZE ? into.len : BULGEFS_LABELS_SIZE;
    bulgefs_volume v = bulgefs_info(image->at, image->len, into.at, into.len);
    expect(v.number == number, "info: number");
    expect(v.number == 0 ? v.used + v.free == v.blocks && v.root_blocks > 0
                         : (v.blocks | v.used | v.free | v.root_blocks) == 0,
           "info: counts, or zeros");
    expect(v.number == 0 || unchanged(&into), "info: refused without a change");
    expect(into.len == most || memcmp(into.at + most, into.before + most, into.len - most) == 0,
           "info: the rest stays");
    give_back(&into);

    into = lend(m->data, m->data_len);
    most = into.len < BULGEFS_MAX_NAME ? into.len : BULGEFS_MAX_NAME;
    bulgefs_slot e = bulgefs_entry(image->at, image->len, path->at, path->len,
                                   (uint32_t)m->offset, into.at, into.len);
    expect(MAY(STAGES | PATH, e.number), "entry: number");
    expect(number == 0 || e.number == number, "entry: stage");
    expect(e.slot == 0 ? (e.type | e.user | e.group | e.permissions | e.flags | e.created
                          | e.modified | e.first | e.size | e.blocks | e.attribute_block
                          | e.attribute_size) == 0
                             && unchanged(&into)
                       : e.number == 0 && e.type != 0 && e.slot >= (uint32_t)m->offset,
           "entry: fields, or zeros");
    expect(into.len == most || memcmp(into.at + most, into.before + most, into.len - most) == 0,
           "entry: the rest stays");
    give_back(&into);
}

static void call_looks(const material *m)
{
    buffer image = lend_const(m->image, m->image_len);
    buffer path = lend_const(m->path, m->path_len);
    buffer into = lend(m->data, m->data_len);

    uint32_t number = bulgefs_check(image.at, image.len);
    expect(MAY(STAGES, number), "check: number");
    expect(bulgefs_plain_check(image.at, image.len) == number, "plain_check: number");

    bulgefs_found f = bulgefs_lookup(image.at, image.len, path.at, path.len);
    expect(MAY(STAGES | PATH, f.number), "lookup: number");
    expect(number == 0 || f.number == number, "lookup: stage");
    expect(f.number == 0 || (f.slot | f.size | f.blocks) == 0, "lookup: zeros");

    bulgefs_part part = bulgefs_look_in_place(image.at, image.len, path.at, path.len, m->offset);
    expect((part.length > 0) == (f.number == 0 && m->offset < f.blocks), "look_in_place: part");
    expect((uint64_t)part.start + part.length <= image.len, "look_in_place: inside the image");

    bulgefs_filled r = bulgefs_read(image.at, image.len, path.at, path.len, m->offset,
                                    into.at, into.len);
    expect(f.number != 0 ? r.number == f.number : r.number == (m->offset > f.size ? 12 : 0),
           "read: number");
    expect(r.count <= into.len && (r.number == 0 || r.count == 0), "read: count");
    expect(r.number == 0 || unchanged(&into), "read: refused without a change");

    uint64_t position = m->offset;
    buffer next = lend(m->data, m->data_len);
    bulgefs_filled t = bulgefs_read_next(image.at, image.len, path.at, path.len, &position,
                                         next.at, next.len);
    expect(t.number == r.number && t.count == r.count, "read_next: answer");
    expect(next.len == 0 || memcmp(next.at, into.at, next.len) == 0, "read_next: bytes");
    expect(position == m->offset + r.count, "read_next: position");
    give_back(&next);
    give_back(&into);

    into = lend(m->data, m->data_len);
    bulgefs_filled a = bulgefs_read_attributes(image.at, image.len, path.at, path.len, into.at,
                                               into.len);
    expect(a.number == f.number, "read_attributes: number");
    expect(a.count <= into.len && a.count % 512 == 0 && a.count <= 4096, "read_attributes: count");
    expect(a.number == 0 || a.count == 0, "read_attributes: zeros");
    expect(into.len == a.count
               || memcmp(into.at + a.count, into.before + a.count, into.len - a.count) == 0,
           "read_attributes: the rest stays");

    call_overview(m, &image, &path, number);

    expect(unchanged(&image) && unchanged(&path), "looks: nothing changed");
    give_back(&image);
    give_back(&path);
    give_back(&into);
}

static void settle(buffer *image, buffer *journal, uint32_t number, uint32_t rest, uint32_t set,
                   const char *what)
{
    expect(MAY(set, number), what);
    expect(number == 0 || rest == 0, what);
    expect(number == 0 || (unchanged(image) && unchanged(journal)), what);
    give_back(image);
    give_back(journal);
}

/* Flags for a create, mostly those that it accepts. */
static uint32_t some_flags(void)
{
    return random_below(4) == 0 ? 1 + random_below(9) : 0;
}

static bool same(const buffer *a, const buffer *b)
{
    return a->len == 0 || memcmp(a->at, b->at, a->len) == 0;
}

/* A piece, the first bytes of the data, beside the write of it at the file's end. */
static void call_append(const material *m, const buffer *path, const buffer *data, size_t len)
{
    const uint32_t all = STAGES | BIT(8) | BIT(14) | BIT(15) | PATH;
    buffer image = lend(m->image, m->image_len), other = lend(m->image, m->image_len);
    buffer journal = lend(m->journal, m->journal_len), beside = lend(m->journal, m->journal_len);
    uint32_t end = bulgefs_lookup(other.at, other.len, path->at, path->len).size;
    bulgefs_changed a = bulgefs_append(image.at, image.len, journal.at, journal.len, path->at,
                                       path->len, data->at, len, 5);
    bulgefs_changed w = bulgefs_write(other.at, other.len, beside.at, beside.len, path->at,
                                      path->len, end, data->at, len, 5);
    if (len == 0)
        expect(a.record == 0 && unchanged(&image) && unchanged(&journal)
                   && a.number == (w.number == BULGEFS_JOURNAL_FULL ? 0 : w.number),
               "append: an empty piece does nothing");
    else
        expect(a.number == w.number && a.record == w.record && same(&image, &other)
                   && same(&journal, &beside),
               "append: as the write at the end");
    expect(a.number != 0 || bulgefs_check(image.at, image.len) == 0, "append: sound");
    settle(&image, &journal, a.number, a.record, all, "append");
    give_back(&other);
    give_back(&beside);
}

static void call_move(const material *m, const buffer *path, const char *new_path)
{
    const uint32_t all = STAGES | BIT(8) | BIT(11) | BIT(13) | BIT(15) | PATH;
    buffer image = lend(m->image, m->image_len);
    buffer journal = lend(m->journal, m->journal_len);
    buffer to = lend_const((const uint8_t *)new_path, strlen(new_path));
    bulgefs_created c = bulgefs_move(image.at, image.len, journal.at, journal.len, path->at,
                                     path->len, to.at, to.len);
    expect(c.number != 0 || bulgefs_check(image.at, image.len) == 0, "move: sound");
    expect(unchanged(&to), "move: the new path stays");
    settle(&image, &journal, c.number, c.slot | c.record, all, "move");
    give_back(&to);
}

static void call_file_changes(const material *m, const buffer *path)
{
    const uint32_t common = STAGES | BIT(8) | BIT(15) | PATH;
    buffer data = lend_const(m->data, m->data_len);

    buffer image = lend(m->image, m->image_len);
    buffer journal = lend(m->journal, m->journal_len);
    bulgefs_created c = bulgefs_create(image.at, image.len, journal.at, journal.len, path->at,
                                       path->len, 0x60, 1, 2, 3, some_flags(), m->offset);
    settle(&image, &journal, c.number, c.slot | c.record, common | BIT(11) | BIT(13) | BIT(26),
           "create");

    image = lend(m->image, m->image_len);
    journal = lend(m->journal, m->journal_len);
    bulgefs_changed w = bulgefs_write(image.at, image.len, journal.at, journal.len, path->at,
                                      path->len, m->offset, data.at, data.len, 5);
    settle(&image, &journal, w.number, w.record, common | BIT(12) | BIT(14), "write");

    call_append(m, path, &data, 0);
    call_append(m, path, &data, data.len);

    image = lend(m->image, m->image_len);
    journal = lend(m->journal, m->journal_len);
    bulgefs_changed d = bulgefs_delete(image.at, image.len, journal.at, journal.len, path->at,
                                       path->len);
    expect(d.number != 0 || bulgefs_check(image.at, image.len) == 0, "delete: sound");
    settle(&image, &journal, d.number, d.record, common, "delete");

    image = lend(m->image, m->image_len);
    journal = lend(m->journal, m->journal_len);
    bulgefs_changed f = bulgefs_clear_flags(image.at, image.len, journal.at, journal.len,
                                            path->at, path->len);
    expect(f.number != 0 || bulgefs_check(image.at, image.len) == 0, "clear_flags: sound");
    settle(&image, &journal, f.number, f.record, common, "clear_flags");

    image = lend(m->image, m->image_len);
    journal = lend(m->journal, m->journal_len);
    bulgefs_changed r = bulgefs_replace(image.at, image.len, journal.at, journal.len, path->at,
                                        path->len, data.at, data.len, 5);
    expect(r.number != 0 || bulgefs_check(image.at, image.len) == 0, "replace: sound");
    settle(&image, &journal, r.number, r.record, common | BIT(14), "replace");

    image = lend(m->image, m->image_len);
    journal = lend(m->journal, m->journal_len);
    uint64_t size = random_below(2) == 0 ? m->offset : random_below(700);
    bulgefs_changed s = bulgefs_shorten(image.at, image.len, journal.at, journal.len, path->at,
                                        path->len, size, 6);
    expect(s.number != 0 || bulgefs_check(image.at, image.len) == 0, "shorten: sound");
    settle(&image, &journal, s.number, s.record, common | BIT(12), "shorten");

    call_move(m, path, "/moved");
    call_move(m, path, "/d/moved");
    call_move(m, path, "");

    expect(unchanged(&data), "changes: data stays");
    give_back(&data);
}

/* Sets of the data as it is and of its whole blocks, and a clear. */
static void call_attribute_changes(const material *m, const buffer *path)
{
    const uint32_t common = STAGES | BIT(8) | BIT(15) | PATH;
    size_t lengths[] = {m->data_len, m->data_len / 512 * 512};
    for (size_t i = 0; i < 2; i++) {
        buffer data = lend_const(m->data, lengths[i]);
        buffer image = lend(m->image, m->image_len);
        buffer journal = lend(m->journal, m->journal_len);
        bulgefs_changed s = bulgefs_set_attributes(image.at, image.len, journal.at, journal.len,
                                                   path->at, path->len, data.at, data.len);
        expect(s.number != 0 || bulgefs_check(image.at, image.len) == 0, "set_attributes: sound");
        settle(&image, &journal, s.number, s.record, common | BIT(14) | BIT(20),
               "set_attributes");
        expect(unchanged(&data), "set_attributes: data stays");
        give_back(&data);
    }
    buffer image = lend(m->image, m->image_len);
    buffer journal = lend(m->journal, m->journal_len);
    bulgefs_changed c = bulgefs_clear_attributes(image.at, image.len, journal.at, journal.len,
                                                 path->at, path->len);
    expect(c.number != 0 || bulgefs_check(image.at, image.len) == 0, "clear_attributes: sound");
    settle(&image, &journal, c.number, c.record, common, "clear_attributes");
}

static void put_number(uint8_t *at, uint32_t number)
{
    for (int i = 0; i < 4; i++)
        at[i] = (uint8_t)(number >> (24 - 8 * i));
}

/* Puts an item of a list; gives its length. */
static size_t put_item(uint8_t *at, const material *m, uint32_t offset, size_t data_len)
{
    size_t size = BULGEFS_ITEM_SIZE(m->path_len, data_len);
    put_number(at, (uint32_t)size);
    put_number(at + 4, 0);
    put_number(at + 8, 5);
    put_number(at + 12, offset);
    at[16] = (uint8_t)(m->path_len >> 8);
    at[17] = (uint8_t)m->path_len;
    if (m->path_len > 0)
        memcpy(at + 18, m->path, m->path_len);
    if (data_len > 0)
        memcpy(at + 18 + m->path_len, m->data, data_len);
    return size;
}

/* A list of bytes, whatever they are; gives the answer, and image and journal after it. */
static bulgefs_listed call_list(const material *m, const uint8_t *list, size_t list_len,
                                buffer *image, buffer *journal)
{
    const uint32_t all = STAGES | BIT(8) | BIT(12) | BIT(14) | BIT(15) | BIT(19) | PATH;
    buffer lent = lend_const(list, list_len);
    *image = lend(m->image, m->image_len);
    *journal = lend(m->journal, m->journal_len);
    bulgefs_listed w = bulgefs_write_list(image->at, image->len, journal->at, journal->len,
                                          lent.at, lent.len);
    expect(MAY(all, w.number), "write_list: number");
    expect(w.done > 0 || (unchanged(image) && unchanged(journal)), "write_list: nothing done");
    expect(w.done == 0 || bulgefs_check(image->at, image->len) == 0, "write_list: sound");
    expect(unchanged(&lent), "write_list: the list stays");
    give_back(&lent);
    return w;
}

/*
 * A list of the same path three times, beside as many writes; the list cut, and
 * bytes that were not made to be a list.
 */
static void call_lists(const material *m)
{
    static uint8_t list[BULGEFS_LIST_HEAD + 3 * BULGEFS_ITEM_SIZE(8192, 8192)] = {1};
    const uint32_t offsets[3] = {0, (uint32_t)m->offset, 0};
    const size_t lengths[3] = {m->data_len / 2, m->data_len, 0};
    size_t len = BULGEFS_LIST_HEAD;
    for (int i = 0; i < 3; i++)
        len += put_item(list + len, m, offsets[i], lengths[i]);
    put_number(list + 1, (uint32_t)len);
    buffer image, journal, other, beside;
    bulgefs_listed w = call_list(m, list, len, &image, &journal);
    other = lend(m->image, m->image_len);
    beside = lend(m->journal, m->journal_len);
    bulgefs_listed one = {0, 0};
    for (int i = 0; i < 3 && one.number == 0; i++) {
        one.number = bulgefs_write(other.at, other.len, beside.at, beside.len, m->path,
                                   m->path_len, offsets[i], m->data, lengths[i], 5).number;
        one.done += one.number == 0;
    }
    if (w.number != BULGEFS_BAD_LIST)
        expect(w.number == one.number && w.done == one.done && same(&image, &other)
                   && same(&journal, &beside),
               "write_list: as the writes one by one");
    give_back(&other);
    give_back(&beside);
    give_back(&image);
    give_back(&journal);

    size_t cut = random_below((uint32_t)len);
    put_number(list + 1, (uint32_t)cut);
    call_list(m, list, cut, &image, &journal);
    give_back(&image);
    give_back(&journal);
    call_list(m, m->data, m->data_len, &image, &journal);
    give_back(&image);
    give_back(&journal);
}

static void call_directory_changes(const material *m, const buffer *path)
{
    const uint32_t common = STAGES | BIT(8) | BIT(15) | PATH;
    uint32_t blocks = random_below(4) == 0 ? (uint32_t)m->offset : 1 + random_below(4);

    buffer image = lend(m->image, m->image_len);
    buffer journal = lend(m->journal, m->journal_len);
    bulgefs_created c = bulgefs_create_directory(image.at, image.len, journal.at, journal.len,
                                                 path->at, path->len, 0x20, 1, 2, 3, some_flags(),
                                                 blocks, m->offset);
    expect(c.number != 0 || bulgefs_check(image.at, image.len) == 0, "create_directory: sound");
    settle(&image, &journal, c.number, c.slot | c.record,
           common | BIT(11) | BIT(13) | BIT(14) | BIT(26), "create_directory");

    image = lend(m->image, m->image_len);
    journal = lend(m->journal, m->journal_len);
    bulgefs_changed d = bulgefs_delete_directory(image.at, image.len, journal.at, journal.len,
                                                 path->at, path->len);
    expect(d.number != 0 || bulgefs_check(image.at, image.len) == 0, "delete_directory: sound");
    settle(&image, &journal, d.number, d.record, common | BIT(18), "delete_directory");
}

/* The calls with a directory, or without one if that is NULL; revision UINT32_MAX: the latest. */
static bulgefs_got get_from(const buffer *image, const buffer *directory, const buffer *serial,
                            uint32_t revision, uint8_t *into, size_t len)
{
    if (directory == NULL)
        return revision == UINT32_MAX
            ? bulgefs_get_latest_settings(image->at, image->len, serial->at, serial->len, into, len)
            : bulgefs_get_settings(image->at, image->len, serial->at, serial->len, revision, into,
                                   len);
    return revision == UINT32_MAX
        ? bulgefs_get_latest_settings_in(image->at, image->len, directory->at, directory->len,
                                         serial->at, serial->len, into, len)
        : bulgefs_get_settings_in(image->at, image->len, directory->at, directory->len, serial->at,
                                  serial->len, revision, into, len);
}

static bulgefs_put put_into(buffer *image, buffer *journal, const buffer *directory,
                            const buffer *serial, const buffer *data)
{
    if (directory == NULL)
        return bulgefs_put_settings(image->at, image->len, journal->at, journal->len, serial->at,
                                    serial->len, data->at, data->len, 5);
    return bulgefs_put_settings_in(image->at, image->len, journal->at, journal->len, directory->at,
                                   directory->len, serial->at, serial->len, data->at, data->len, 5);
}

/* A get into a buffer of so many bytes of the data; gives the number. */
static uint32_t call_get(const material *m, const buffer *directory, const buffer *serial,
                         uint32_t revision, size_t len)
{
    const uint32_t all = STAGES | BIT(10) | BIT(22) | BIT(23) | BIT(24)
        | (directory == NULL ? 0u : BIT(17));
    buffer image = lend_const(m->image, m->image_len);
    buffer into = lend(m->data, len);
    bulgefs_got g = get_from(&image, directory, serial, revision, into.at, len);
    expect(MAY(all, g.number), "get_settings: number");
    expect(g.number == 0 || ((g.revision | g.length) == 0 && unchanged(&into)),
           "get_settings: refused without a change");
    expect(g.number != 0 || (len >= 200 && g.length <= 200
               && memcmp(into.at + g.length, into.before + g.length, len - g.length) == 0),
           "get_settings: the rest stays");
    expect(unchanged(&image) && unchanged(serial), "get_settings: nothing else changed");
    give_back(&image);
    give_back(&into);
    return g.number;
}

/* A put of the first bytes of the data, and gets, for one serial number in a directory. */
static void call_serial_in(const material *m, const buffer *directory, const uint8_t *name,
                           size_t name_len, size_t len)
{
    const uint32_t all = STAGES | BIT(8) | BIT(11) | BIT(13) | BIT(14) | BIT(15) | BIT(22) | BIT(24)
        | (directory == NULL ? 0u : BIT(10) | BIT(17));
    buffer serial = lend_const(name, name_len);
    buffer data = lend_const(m->data, len);
    buffer image = lend(m->image, m->image_len);
    buffer journal = lend(m->journal, m->journal_len);
    bulgefs_put p = put_into(&image, &journal, directory, &serial, &data);
    expect(p.number != 0 || bulgefs_check(image.at, image.len) == 0, "put_settings: sound");
    if (p.number == 0) {
        uint8_t got[200];
        bulgefs_got g = get_from(&image, directory, &serial, UINT32_MAX, got, sizeof got);
        expect(g.number == 0 && g.revision == p.revision && g.length == len
                   && (len == 0 || memcmp(got, m->data, len) == 0),
               "put_settings: what the next get gives");
        bulgefs_changed u = bulgefs_undo(image.at, image.len, journal.at, journal.len);
        expect(u.number == 0 && u.record == p.record && unchanged(&image), "put_settings: undo");
    }
    settle(&image, &journal, p.number, p.revision | p.record, all, "put_settings");
    expect(unchanged(&data), "put_settings: data stays");
    give_back(&data);
    call_get(m, directory, &serial, UINT32_MAX, m->data_len);
    call_get(m, directory, &serial, random_below(4), m->data_len);
    give_back(&serial);
}

/* The same by the calls of the root, and by those with a directory: "/", the path, or its first bytes. */
static void call_serial(const material *m, const uint8_t *name, size_t name_len, size_t len)
{
    uint32_t way = random_below(3);
    size_t part = way == 1 ? m->path_len : random_below((uint32_t)m->path_len + 1);
    buffer directory = way == 0 ? lend_const((const uint8_t *)"/", 1) : lend_const(m->path, part);
    call_serial_in(m, NULL, name, name_len, len);
    call_serial_in(m, &directory, name, name_len, len);
    expect(unchanged(&directory), "put_settings: directory stays");
    give_back(&directory);
}

/* The path as a serial number, its last bytes, and the serial number of fill_volume. */
static void call_settings(const material *m)
{
    size_t most = m->data_len < 202 ? m->data_len : 202;
    size_t some = random_below((uint32_t)most + 1), name = m->path_len < 17 ? m->path_len : 17;
    call_serial(m, m->path, m->path_len, m->data_len);
    call_serial(m, name == 0 ? m->path : m->path + 1, name == 0 ? 0 : name - 1, some);
    call_serial(m, (const uint8_t *)"S1", 2, some);
    call_serial(m, (const uint8_t *)"S2", 2, some);
}

/* An info of the journal, which changes nothing. */
static bulgefs_journal call_journal_info(const material *m)
{
    buffer image = lend_const(m->image, m->image_len);
    buffer journal = lend_const(m->journal, m->journal_len);
    bulgefs_journal j = bulgefs_journal_info(image.at, image.len, journal.at, journal.len);
    expect(MAY(STAGES | BIT(8), j.number), "journal_info: number");
    expect(j.number == 0 ? j.used >= BULGEFS_FIRST_MARK && j.used <= journal.len
                               && (j.records == 0) == (j.last == 0) && j.last <= j.used - 5
                         : (j.used | j.records | j.last) == 0,
           "journal_info: answer");
    expect(unchanged(&image) && unchanged(&journal), "journal_info: nothing changed");
    give_back(&image);
    give_back(&journal);
    return j;
}

/* Undo to the mark before the last record leaves what an undo does. */
static void call_undos(const material *m, bulgefs_journal j)
{
    buffer image = lend(m->image, m->image_len), other_image = lend(m->image, m->image_len);
    buffer journal = lend(m->journal, m->journal_len);
    buffer other_journal = lend(m->journal, m->journal_len);
    bulgefs_changed u = bulgefs_undo(image.at, image.len, journal.at, journal.len);
    bulgefs_listed b = bulgefs_undo_to(other_image.at, other_image.len, other_journal.at,
                                       other_journal.len, j.used - j.last);
    expect(b.number == (u.number == 16 ? 0 : u.number) && b.done == (u.number == 0),
           "undo_to: number of an undo");
    expect(u.record == j.last, "journal_info: last record");
    expect(same(&image, &other_image) && same(&journal, &other_journal), "undo_to: as an undo");
    give_back(&other_image);
    give_back(&other_journal);
    settle(&image, &journal, u.number, u.record, STAGES | BIT(8) | BIT(16), "undo");
}

/* Undos to the first mark, and by turns to others and to numbers that are none. */
static void call_marks(const material *m)
{
    static size_t turn;
    bulgefs_journal j = call_journal_info(m);
    uint32_t marks[] = {BULGEFS_FIRST_MARK, j.used - j.last, j.used, random_below(j.used + 600),
                        j.used + 1, 0, 4, UINT32_MAX};
    call_undos(m, j);
    for (size_t k = 0; k < 3; k++) {
        size_t i = k == 0 ? 0 : 1 + turn++ % (sizeof marks / sizeof marks[0] - 1);
        buffer image = lend(m->image, m->image_len);
        buffer journal = lend(m->journal, m->journal_len);
        bulgefs_listed b = bulgefs_undo_to(image.at, image.len, journal.at, journal.len, marks[i]);
        expect(j.number == 0 || b.number == j.number, "undo_to: number of the info");
        expect(j.number != 0 || i == 3 || b.number == (i < 3 ? 0u : 27u), "undo_to: number");
        expect(b.number != 0 || i != 0 || b.done == j.records, "undo_to: all records");
        settle(&image, &journal, b.number, b.done, STAGES | BIT(8) | BIT(27), "undo_to");
    }
}

static void call_changes(const material *m)
{
    buffer path = lend_const(m->path, m->path_len);
    call_file_changes(m, &path);
    call_attribute_changes(m, &path);
    call_directory_changes(m, &path);
    call_lists(m);
    call_settings(m);
    call_marks(m);

    expect(unchanged(&path), "changes: the path stays");
    give_back(&path);
}

static const uint8_t volume_name[128] = "settings";

static void call_format(const material *m, uint32_t root_blocks, const uint8_t *name,
                        size_t name_len)
{
    bulgefs_uuid uuid = {{1, 2, 3}};
    buffer image = lend(m->image, m->image_len);
    buffer lent = lend_const(name, name_len);
    uint32_t number = bulgefs_format(image.at, image.len, root_blocks, 5, uuid, lent.at, lent.len);
    expect(MAY(BIT(1) | BIT(9) | BIT(14), number), "format: number");
    expect(number == 0 ? bulgefs_check(image.at, image.len) == 0 : unchanged(&image),
           "format: sound or unchanged");
    expect(unchanged(&lent), "format: the name stays");
    give_back(&image);
    give_back(&lent);
}

static void call_makers(const material *m)
{
    call_format(m, (uint32_t)m->offset, m->path, m->path_len);
    call_format(m, 1 + random_below(4), volume_name, sizeof volume_name);

    buffer journal = lend(m->journal, m->journal_len);
    uint32_t number = bulgefs_journal_start(journal.at, journal.len);
    expect(number == (journal.len < 5 || journal.len > BULGEFS_MAX_JOURNAL ? 8 : 0), "start: number");
    expect(number == 0 || unchanged(&journal), "start: refused without a change");
    give_back(&journal);
}

/* The table loaded and stored back, in runs of its length and of another. */
static void call_table(const material *m)
{
    static const uint32_t numbers[BULGEFS_MAX_BLOCKS + 2] = {1, 1, 3};
    size_t n = m->image_len / 512;
    size_t counts[] = {n > BULGEFS_MAX_BLOCKS ? BULGEFS_MAX_BLOCKS : n, n % 3, 0};
    for (size_t i = 0; i < sizeof counts / sizeof counts[0]; i++) {
        buffer image = lend_const(m->image, m->image_len);
        buffer run = lend((const uint8_t *)numbers, 4 * counts[i]);
        uint32_t number = bulgefs_load_table(image.at, image.len, (uint32_t *)(void *)run.at,
                                             counts[i]);
        expect(number <= 7 || number == BULGEFS_BAD_TABLE_SIZE, "load: number");
        expect(unchanged(&image), "load: the image stays");
        expect(number == 0 || unchanged(&run), "load: refused without a change");
        give_back(&image);
        image = lend(m->image, m->image_len);
        uint32_t stored = bulgefs_store_table(image.at, image.len, (uint32_t *)(void *)run.at,
                                              counts[i]);
        expect(stored == number, "store: the load's number");
        expect(unchanged(&image), "load and store: the image stays");
        give_back(&image);
        give_back(&run);
    }
}

/* Salvage, with a report for the largest root, with a shorter one, and with none. */
static void call_salvage(const material *m)
{
    static const uint8_t blank[BULGEFS_MAX_REPORT];
    size_t lengths[] = {sizeof blank, random_below(sizeof blank), 0};
    for (size_t i = 0; i < sizeof lengths / sizeof lengths[0]; i++) {
        buffer image = lend(m->image, m->image_len);
        buffer report = lend(blank, lengths[i]);
        uint32_t number = bulgefs_salvage(image.at, image.len, report.at, report.len);
        expect(MAY(0x3Eu | BIT(9), number), "salvage: number");
        expect(number != 0 || bulgefs_check(image.at, image.len) == 0, "salvage: sound");
        expect(number == 0 || (unchanged(&image) && unchanged(&report)),
               "salvage: refused without a change");
        if (bulgefs_check(m->image, m->image_len) == 0)
            expect(unchanged(&image) && unchanged(&report), "salvage: a sound image stays");
        give_back(&image);
        give_back(&report);
    }
}

/* Salvage of a tree, with a report of just the length, with a shorter one, and with none. */
static void call_salvage_tree(const material *m)
{
    static const uint8_t blank[4 * 1024];
    size_t enough = 4 * (m->image_len / 512);
    size_t lengths[] = {enough, random_below((uint32_t)enough + 1), 0};
    for (size_t i = 0; i < sizeof lengths / sizeof lengths[0] && enough <= sizeof blank; i++) {
        buffer image = lend(m->image, m->image_len);
        buffer report = lend(blank, lengths[i]);
        bulgefs_salvaged s = bulgefs_salvage_tree(image.at, image.len, report.at, report.len);
        expect(MAY(BIT(1) | BIT(3) | BIT(9), s.number), "salvage tree: number");
        expect(s.number != 0 || bulgefs_check(image.at, image.len) == 0, "salvage tree: sound");
        expect(s.number == 0 || (unchanged(&image) && unchanged(&report) && s.dropped == 0 && s.freed == 0),
               "salvage tree: refused without a change");
        if (s.number == 0)
            expect(unchanged(&image) == unchanged(&report), "salvage tree: the report tells");
        if (bulgefs_check(m->image, m->image_len) == 0)
            expect(unchanged(&image) && unchanged(&report), "salvage tree: a sound image stays");
        give_back(&image);
        give_back(&report);
    }
}

static void call_all(const material *m)
{
    for (place = HEAP; place < PLACES; place++) {
        call_looks(m);
        call_changes(m);
        call_makers(m);
        call_table(m);
        call_salvage(m);
        call_salvage_tree(m);
    }
}

/* ---- cases ---- */

static const size_t lengths[] = {0, 1, 2, 3, 4, 5, 6, 31, 32, 79, 80, 81, 127, 128, 129, 511, 512,
                                 513, 525, 1024, 1535, 1536, 1537, 2048, 4096, 4097, 8192};
enum { LENGTHS = sizeof lengths / sizeof lengths[0], MOST = 100000 };

static size_t any_length(void)
{
    return lengths[random_below(LENGTHS)];
}

static uint64_t any_offset(void)
{
    static const uint64_t far[] = {511, 512, 513, 4096, 4294967295u, 4294967296u, UINT64_MAX};
    return random_below(2) ? random_below(70) : far[random_below(7)];
}

/* Every length of one buffer, random lengths of the others, random bytes. */
static void random_buffers(void)
{
    static uint8_t image[8192], journal[8192], path[8192], data[8192];
    for (size_t i = 0; i < 8 * LENGTHS; i++) {
        fill_random(image, sizeof image);
        fill_random(journal, sizeof journal);
        fill_random(path, sizeof path);
        fill_random(data, sizeof data);
        material m = {image, journal, path, data, any_length(), any_length(), any_length(),
                      any_length(), any_offset()};
        size_t *all[] = {&m.image_len, &m.journal_len, &m.path_len, &m.data_len};
        *all[i % 4] = lengths[i / 8];
        if (random_below(2))
            memcpy(image, "BulgeFS!\0\1\0\0", 12);
        if (random_below(2))
            path[0] = '/';
        call_all(&m);
    }
    material nothing = {NULL, NULL, NULL, NULL, 0, 0, 0, 0, 0};
    for (int i = 0; i < 16; i++)
        call_all(&nothing);
}

/* The path of so many folders, each in the one before, and of a file in the last. */
static size_t file_path(uint32_t folders, uint32_t file, uint8_t *path)
{
    size_t len = 0;
    for (uint32_t i = 0; i < folders; i++) {
        path[len++] = '/';
        path[len++] = 'd';
    }
    path[len++] = '/';
    path[len++] = 'f';
    path[len++] = (uint8_t)('0' + file);
    return len;
}

/*
 * A volume of n blocks with folders below one another, some files of many
 * sizes in the root and in the folders, some with attributes, and its journal.
 */
static void fill_volume(uint8_t *image, size_t n, uint8_t *journal, size_t journal_len)
{
    static const uint8_t data[4096] = {1, 2, 3};
    bulgefs_uuid uuid = {{0}};
    uint32_t root = n < 16 ? 1 : n < 512 ? (uint32_t)n / 8 : 64;
    uint32_t folders = n < 16 ? 0 : n < 100 ? 2 : 8;
    expect(bulgefs_format(image, n * 512, root, 1, uuid, volume_name, 128) == 0, "fill: format");
    expect(bulgefs_journal_start(journal, journal_len) == 0, "fill: start");
    for (uint32_t i = 0; i < 6 + folders; i++) {
        uint8_t path[32];
        uint32_t depth = i < 6 ? 0 : i - 5;
        size_t len = file_path(depth, i % 6, path);
        if (depth > 0)
            bulgefs_create_directory(image, n * 512, journal, journal_len, path, len - 3, 0x20,
                                     0, 0, 0, 0, 1 + i % 2, i);
        bulgefs_create(image, n * 512, journal, journal_len, path, len, 0x60, 0, 0, 0, 0, i);
        bulgefs_write(image, n * 512, journal, journal_len, path, len, 0, data, i * 230, i);
    }
    for (uint32_t i = 0; i < 6; i += 2) {
        uint8_t path[32];
        size_t len = file_path(i < 4 ? 0 : folders, i, path);
        bulgefs_set_attributes(image, n * 512, journal, journal_len, path, len, data,
                               512 * (1 + i));
    }
    for (uint32_t i = 0; i < 3; i++)
        bulgefs_put_settings(image, n * 512, journal, journal_len, (const uint8_t *)"S1", 2, data,
                             i * 100, i);
    uint8_t deepest[32];
    size_t len = file_path(folders, (5 + folders) % 6, deepest);
    expect(n < 100 || bulgefs_lookup(image, n * 512, deepest, len).number == 0, "fill: folders");
    expect(bulgefs_check(image, n * 512) == 0, "fill: sound");
}

static size_t used_length(const uint8_t *journal)
{
    return (size_t)journal[2] << 16 | (size_t)journal[3] << 8 | journal[4];
}

/* Sound volumes, with paths of one name and of many, data and journals of every length. */
static void sound_volumes(void)
{
    static uint8_t image[16 * 512], journal[8192], path[8192], names[8192], data[8192];
    memset(path, 'f', sizeof path);
    path[0] = '/';
    for (size_t i = 0; i < sizeof names; i++)
        names[i] = i % 2 == 0 ? '/' : 'd';
    fill_volume(image, 16, journal, sizeof journal);
    for (size_t i = 0; i < LENGTHS; i++)
        for (size_t k = 0; k < LENGTHS; k++) {
            material m = {image, journal, random_below(2) ? path : names, data, sizeof image,
                          lengths[i], lengths[k], any_length(), any_offset()};
            call_all(&m);
        }
}

/*
 * Journals that end with the buffer: within a record, with the used length as
 * it was and as it is, and a few bytes after the last record.
 */
static void cut_journals(void)
{
    static const int more[] = {-600, -519, -517, -516, -515, -5, -4, -3, -2, -1, 0, 1, 2, 3, 4, 5};
    static uint8_t image[16 * 512], journal[16384];
    fill_volume(image, 16, journal, sizeof journal);
    size_t used = used_length(journal);
    for (size_t i = 0; i < sizeof more / sizeof more[0]; i++) {
        size_t length = used + (size_t)more[i];
        material m = {image, journal, (const uint8_t *)"/f3", image, sizeof image, length, 3, 600,
                      100};
        call_all(&m);
        put_number(journal + 1, (uint32_t)length);
        call_all(&m);
        put_number(journal + 1, (uint32_t)used);
    }
}

/* Puts a block number of the image's length or more into the last record. */
static void damage_last_record(uint8_t *journal, size_t n)
{
    static const uint32_t more[] = {0, 1, 100, 4000, 0x7FFFFFFF};
    size_t used = used_length(journal);
    if (used > 5)
        put_number(journal + used - 516, (uint32_t)n + more[random_below(5)]);
}

/* Leads a chain out of the image: by a table entry, or by a first block of a file. */
static void damage_chain(uint8_t *image, size_t n)
{
    static const uint32_t more[] = {0, 1, 112, 2000, 4000, 65000, 0x7FFFFFFF};
    size_t root = (n + 127) / 128 + 1;
    size_t file = root * 512 + 128 * (1 + random_below(6));
    size_t entry = 512 + 4 * (root + random_below((uint32_t)(n - root)));
    size_t field = file + (random_below(2) ? 4 : 32);
    put_number(image + (random_below(2) && field + 4 <= n * 512 ? field : entry),
               (uint32_t)n + more[random_below(7)]);
}

/* Changes a byte that says something in a slot of a block after the table. */
static void damage_slot(uint8_t *image, size_t n)
{
    static const size_t fields[] = {0, 4, 7, 11, 12, 15, 35, 39, 48, 49, 127};
    static const uint8_t values[] = {0x00, 0x01, 0x20, 0x2F, 0x60, 0xFF};
    size_t root = (n + 127) / 128 + 1;
    size_t slots = 4 * (n - root);
    size_t slot = random_below((uint32_t)(slots < 120 ? slots : 120));
    image[root * 512 + slot * 128 + fields[random_below(11)]] = values[random_below(6)];
}

/* Turns the folders of the root into files that are empty: salvage refuses folders. */
static void drop_folders(uint8_t *image, size_t n)
{
    size_t root = ((n + 127) / 128 + 1) * 512;
    for (size_t at = root + 128; at < root + 4 * 512 && at < n * 512; at += 128)
        if (image[at] >= 0x20 && image[at] <= 0x5F) {
            image[at] = 0x60;
            memset(image + at + 4, 0, 12);
        }
}

/* Good volumes, and volumes and journals with a few bytes changed. */
static void damaged_volumes(void)
{
    static const size_t blocks[] = {3, 4, 16, 17, 127, 128, 129};
    static uint8_t image[MOST], journal[MOST], saved[MOST], saved_journal[MOST], data[4097];
    for (size_t i = 0; i < 7; i++) {
        size_t n = blocks[i];
        fill_volume(image, n, journal, sizeof journal);
        size_t journal_len = used_length(journal) + random_below(3000);
        memcpy(saved, image, n * 512);
        memcpy(saved_journal, journal, journal_len);
        for (int round = 0; round < 90; round++) {
            uint8_t path[40];
            size_t path_len = file_path(random_below(2) ? 0 : random_below(11), random_below(7),
                                        path);
            path_len -= random_below(4) == 0 && path_len > 3 ? 3 : 0;
            memcpy(image, saved, n * 512);
            memcpy(journal, saved_journal, journal_len);
            for (uint32_t k = random_below(3); k > 0; k--)
                image[random_below((uint32_t)n * 512)] = (uint8_t)random_below(256);
            if (round % 3 == 1)
                image[512 + random_below((uint32_t)n * 4)] ^= (uint8_t)(1u << random_below(8));
            if (round % 3 == 2)
                damage_chain(image, n);
            if (round % 5 == 4)
                damage_slot(image, n);
            if (round % 2 == 1)
                drop_folders(image, n);
            if (round % 4 == 1)
                journal[random_below(9)] ^= (uint8_t)(1u << random_below(8));
            if (round % 4 == 2)
                damage_last_record(journal, n);
            material m = {image, journal, path, data, n * 512, journal_len, path_len,
                          random_below(sizeof data + 1), any_offset()};
            call_all(&m);
        }
    }
}

/*
 * A name that fills its field: created, written, found, read and taken back;
 * one that differs in its last byte is another file, and one byte more is bad.
 */
static void full_name(void)
{
    static uint8_t image[16 * 512], before[16 * 512], journal[8192], path[82], other[81], got[5];
    bulgefs_uuid uuid = {{0}};
    memset(path, 'n', sizeof path);
    path[0] = '/';
    memcpy(other, path, sizeof other);
    other[80] = 'm';
    expect(bulgefs_format(image, sizeof image, 2, 1, uuid, volume_name, 128) == 0, "full: format");
    expect(bulgefs_journal_start(journal, sizeof journal) == 0, "full: start");
    memcpy(before, image, sizeof image);
    bulgefs_created c = bulgefs_create(image, sizeof image, journal, sizeof journal, path, 81,
                                       0x60, 0, 0, 0, 0, 2);
    expect(c.number == 0 && c.slot == 1 && c.record == 520, "full: create");
    expect(bulgefs_create(image, sizeof image, journal, sizeof journal, other, 81, 0x60, 0, 0, 0,
                          0, 2).slot == 2, "full: another last byte");
    expect(bulgefs_create(image, sizeof image, journal, sizeof journal, path, 82, 0x60, 0, 0, 0,
                          0, 2).number == BULGEFS_BAD_ARGUMENT, "full: one byte more");
    bulgefs_changed w = bulgefs_write(image, sizeof image, journal, sizeof journal, path, 81, 0,
                                      (const uint8_t *)"bytes", 5, 3);
    expect(w.number == 0, "full: write");
    expect(bulgefs_check(image, sizeof image) == 0, "full: sound");
    bulgefs_found f = bulgefs_lookup(image, sizeof image, path, 81);
    expect(f.number == 0 && f.slot == 1 && f.size == 5, "full: lookup");
    expect(bulgefs_lookup(image, sizeof image, path, 80).number == BULGEFS_NOT_FOUND,
           "full: one byte less");
    bulgefs_filled r = bulgefs_read(image, sizeof image, path, 81, 0, got, sizeof got);
    expect(r.number == 0 && r.count == 5 && memcmp(got, "bytes", 5) == 0, "full: read");
    for (int i = 0; i < 3; i++)
        expect(bulgefs_undo(image, sizeof image, journal, sizeof journal).number == 0,
               "full: undo");
    expect(memcmp(image, before, sizeof image) == 0, "full: as it was");
}

/* Whether so many bytes stand anywhere in others. */
static bool holds(const uint8_t *in, size_t in_len, const uint8_t *part, size_t len)
{
    for (size_t at = 0; at + len <= in_len; at++)
        if (memcmp(in + at, part, len) == 0)
            return true;
    return false;
}

/*
 * A file of three blocks, deleted: no sixteen bytes of it are left in the image,
 * a block that was free before keeps its bytes, and undo brings all back.
 */
static void freed_blocks(void)
{
    static uint8_t image[16 * 512], before[16 * 512], journal[16384], data[1300];
    static const uint8_t path[] = "/scenes";
    bulgefs_uuid uuid = {{0}};
    bool left = false;
    fill_random(data, sizeof data);
    expect(bulgefs_format(image, sizeof image, 2, 1, uuid, volume_name, 128) == 0, "freed: format");
    expect(bulgefs_journal_start(journal, sizeof journal) == 0, "freed: start");
    fill_random(image + 15 * 512, 512);
    expect(bulgefs_create(image, sizeof image, journal, sizeof journal, path, 7, 0x60, 0, 0, 0, 0,
                          2).number == 0, "freed: create");
    expect(bulgefs_write(image, sizeof image, journal, sizeof journal, path, 7, 0, data,
                         sizeof data, 3).number == 0, "freed: write");
    memcpy(before, image, sizeof image);
    bulgefs_changed d = bulgefs_delete(image, sizeof image, journal, sizeof journal, path, 7);
    expect(d.number == 0 && d.record == BULGEFS_RECORD_SIZE(6), "freed: delete");
    for (size_t at = 0; at + 16 <= sizeof data; at++)
        left = left || holds(image, sizeof image, data + at, 16);
    expect(!left, "freed: nothing is left");
    expect(memcmp(image + 15 * 512, before + 15 * 512, 512) == 0, "freed: a block free before");
    expect(bulgefs_undo(image, sizeof image, journal, sizeof journal).record == d.record,
           "freed: undo");
    expect(memcmp(image, before, sizeof image) == 0, "freed: as it was");
}

/*
 * Attributes of one block and of two beside a file, read into buffers that hold
 * them in whole and in part, cleared and taken back.
 */
static void attributes(void)
{
    static uint8_t image[16 * 512], before[16 * 512], journal[16384], data[1024], got[2000];
    static const uint8_t path[] = "/A";
    bulgefs_uuid uuid = {{0}};
    fill_random(data, sizeof data);
    expect(bulgefs_format(image, sizeof image, 2, 1, uuid, volume_name, 128) == 0, "attr: format");
    expect(bulgefs_journal_start(journal, sizeof journal) == 0, "attr: start");
    expect(bulgefs_create(image, sizeof image, journal, sizeof journal, path, 2, 0x60, 0, 0, 0, 0,
                          2).number == 0, "attr: create");
    expect(bulgefs_write(image, sizeof image, journal, sizeof journal, path, 2, 0, data, 513,
                         3).number == 0, "attr: write");
    memcpy(before, image, sizeof image);
    bulgefs_changed c = bulgefs_set_attributes(image, sizeof image, journal, sizeof journal, path,
                                               2, data, 512);
    expect(c.number == 0 && c.record == 2068 && used_length(journal) == 5177, "attr: one block");
    c = bulgefs_set_attributes(image, sizeof image, journal, sizeof journal, path, 2, data, 1024);
    expect(c.number == 0 && c.record == 2584, "attr: two blocks");
    expect(bulgefs_set_attributes(image, sizeof image, journal, sizeof journal, path, 2, data,
                                  0).number == BULGEFS_BAD_ARGUMENT, "attr: no bytes");
    expect(bulgefs_set_attributes(image, sizeof image, journal, sizeof journal, path, 2, before,
                                  9 * 512).number == BULGEFS_TOO_MANY_BLOCKS, "attr: nine blocks");
    bulgefs_filled r = bulgefs_read_attributes(image, sizeof image, path, 2, got, sizeof got);
    expect(r.number == 0 && r.count == 1024 && memcmp(got, data, 1024) == 0, "attr: read");
    r = bulgefs_read_attributes(image, sizeof image, path, 2, got, 1023);
    expect(r.number == 0 && r.count == 512, "attr: a part");
    r = bulgefs_read_attributes(image, sizeof image, path, 2, got, 511);
    expect(r.number == 0 && r.count == 0, "attr: no whole block");
    c = bulgefs_clear_attributes(image, sizeof image, journal, sizeof journal, path, 2);
    expect(c.number == 0 && c.record == 2584, "attr: clear");
    expect(memcmp(image, before, sizeof image) == 0, "attr: as before the sets");
    c = bulgefs_clear_attributes(image, sizeof image, journal, sizeof journal, path, 2);
    expect(c.number == 0 && c.record == 520, "attr: clear of none");
    for (int i = 0; i < 4; i++)
        expect(bulgefs_undo(image, sizeof image, journal, sizeof journal).number == 0,
               "attr: undo");
    expect(memcmp(image, before, sizeof image) == 0, "attr: as it was");
}

/*
 * Flags: refused by a create; put into a file's entry as an older installer did,
 * they are sound, and a clear changes their four bytes and no other.
 */
static void flags(void)
{
    static uint8_t image[16 * 512], before[16 * 512], journal[16384];
    static const uint8_t path[] = "/A";
    enum { FLAGS = 2 * 512 + 128 + 40 };
    bulgefs_uuid uuid = {{0}};
    expect(bulgefs_format(image, sizeof image, 2, 1, uuid, volume_name, 128) == 0, "flags: format");
    expect(bulgefs_journal_start(journal, sizeof journal) == 0, "flags: start");
    expect(bulgefs_create(image, sizeof image, journal, sizeof journal, path, 2, 0x60, 0, 0, 0, 3,
                          2).number == BULGEFS_BAD_FLAGS, "flags: create with 3");
    expect(bulgefs_create(image, sizeof image, journal, sizeof journal, path, 2, 0x60, 0, 0, 0, 0,
                          2).number == 0, "flags: create");
    image[FLAGS + 3] = 3;
    memcpy(before, image, sizeof image);
    expect(bulgefs_check(image, sizeof image) == 0, "flags: sound with 3");
    bulgefs_changed c = bulgefs_clear_flags(image, sizeof image, journal, sizeof journal, path, 2);
    expect(c.number == 0 && c.record == BULGEFS_RECORD_SIZE(1), "flags: clear");
    image[FLAGS + 3] = 3;
    expect(memcmp(image, before, sizeof image) == 0, "flags: no other byte");
    image[FLAGS + 3] = 0;
    c = bulgefs_clear_flags(image, sizeof image, journal, sizeof journal, path, 2);
    expect(c.number == 0 && c.record == BULGEFS_RECORD_SIZE(1), "flags: clear of none");
    for (int i = 0; i < 2; i++)
        expect(bulgefs_undo(image, sizeof image, journal, sizeof journal).number == 0,
               "flags: undo");
    expect(memcmp(image, before, sizeof image) == 0, "flags: as it was");
}

/*
 * A volume of 16 blocks whose root has two: a file with a bad last value and
 * bad attributes, one whose chain runs into the first one's, one with no name,
 * no end type and wrong counts.  Only the first one is left.
 */
static void salvaged(void)
{
    static const uint8_t codes[8] = {0, 4, 2, 1, 0, 0, 0, 3}, none[8];
    static uint8_t image[16 * 512], once[16 * 512], journal[16384], data[1024], got[1024];
    uint8_t report[9];
    bulgefs_uuid uuid = {{0}};
    fill_random(data, sizeof data);
    expect(bulgefs_format(image, sizeof image, 2, 1, uuid, volume_name, 128) == 0, "salv: format");
    expect(bulgefs_journal_start(journal, sizeof journal) == 0, "salv: start");
    for (char name = 'A'; name <= 'C'; name++) {
        uint8_t path[2] = {'/', (uint8_t)name};
        expect(bulgefs_create(image, sizeof image, journal, sizeof journal, path, 2, 0x60, 0, 0, 0,
                              0, 2).number == 0, "salv: create");
        expect(bulgefs_write(image, sizeof image, journal, sizeof journal, path, 2, 0, data, 600,
                             3).number == 0, "salv: write");
    }
    expect(bulgefs_set_attributes(image, sizeof image, journal, sizeof journal,
                                  (const uint8_t *)"/A", 2, data, 1024).number == 0, "salv: set");
    /* A has blocks 4 and 5 and attributes 10 and 11, B has 6 and 7, C has 8 and 9. */
    put_number(image + 512 + 4 * 5, 0);
    put_number(image + 512 + 4 * 10, 4);
    put_number(image + 512 + 4 * 6, 5);
    image[2 * 512 + 3 * 128 + 48] = 0;
    image[3 * 512 + 3 * 128] = 0;
    image[24] = 1;
    report[8] = 0xEE;
    expect(bulgefs_salvage(image, sizeof image, report, 7) == BULGEFS_BAD_ARGUMENT, "salv: short");
    expect(bulgefs_salvage(image, sizeof image, report, 9) == 0, "salv: number");
    expect(memcmp(report, codes, 8) == 0 && report[8] == 0xEE, "salv: report");
    expect(bulgefs_check(image, sizeof image) == 0, "salv: sound");
    bulgefs_filled r = bulgefs_read(image, sizeof image, (const uint8_t *)"/A", 2, 0, got, 1024);
    expect(r.number == 0 && r.count == 600 && memcmp(got, data, 600) == 0, "salv: kept");
    r = bulgefs_read_attributes(image, sizeof image, (const uint8_t *)"/A", 2, got, 1024);
    expect(r.number == 0 && r.count == 0, "salv: no attributes");
    expect(bulgefs_lookup(image, sizeof image, (const uint8_t *)"/B", 2).number == 10
               && bulgefs_lookup(image, sizeof image, (const uint8_t *)"/C", 2).number == 10,
           "salv: gone");
    expect(!holds(image + 6 * 512, 6 * 512, data + 100, 16), "salv: blank");
    memcpy(once, image, sizeof image);
    expect(bulgefs_salvage(image, sizeof image, report, 8) == 0, "salv: again");
    expect(memcmp(report, none, 8) == 0 && memcmp(image, once, sizeof image) == 0,
           "salv: twice is once");
}

/*
 * A volume of 16 blocks with two directories: no header, no root, a directory's
 * chain broken and its end type gone.  Both directories are found again.
 */
static void rescued(void)
{
    static uint8_t image[16 * 512], before[16 * 512], journal[16384], report[65], data[600], got[600];
    static const uint8_t none[64];
    bulgefs_uuid uuid = {{0}};
    fill_random(data, sizeof data);
    expect(bulgefs_format(image, sizeof image, 1, 1, uuid, volume_name, 128) == 0, "tree: format");
    expect(bulgefs_journal_start(journal, sizeof journal) == 0, "tree: start");
    for (uint8_t k = 1; k <= 2; k++) {
        uint8_t name[5] = {'/', (uint8_t)('a' + k), '/', 'S', 'N'};
        expect(bulgefs_create_directory(image, sizeof image, journal, sizeof journal, name, 2, 0x20, 0, 0, 0, 0, k, 2).number == 0,
               "tree: directory");
        expect(bulgefs_create(image, sizeof image, journal, sizeof journal, name, 5, 0x60, 0, 0, 0, 0, 3).number == 0, "tree: create");
        expect(bulgefs_write(image, sizeof image, journal, sizeof journal, name, 5, 0, data, 600, 4).number == 0, "tree: write");
    }
    /* The root is block 2; b has block 3 and its file 4 and 5; c has 6 and 7 and its file 8 and 9. */
    memcpy(before, image, sizeof image);
    memset(image, 0, 32);
    memset(image + 2 * 512, 0, 512);
    put_number(image + 512 + 4 * 6, 99);
    report[64] = 0xEE;
    expect(bulgefs_salvage_tree(image, sizeof image, report, 63).number == BULGEFS_BAD_ARGUMENT, "tree: short");
    bulgefs_salvaged s = bulgefs_salvage_tree(image, sizeof image, report, 65);
    expect(s.number == 0 && s.dropped == 0 && s.freed == 0, "tree: answer");
    expect(report[0] == BULGEFS_END_MENDED && report[4 * 2] == BULGEFS_END_MENDED && report[4 * 2 + 3] == BULGEFS_END_MENDED
               && report[4 * 2 + 1] == BULGEFS_DIRECTORY_FOUND && report[4 * 2 + 2] == BULGEFS_DIRECTORY_FOUND
               && report[4 * 6] == BULGEFS_END_MENDED && report[4 * 3] == BULGEFS_KEPT && report[64] == 0xEE,
           "tree: report");
    expect(bulgefs_check(image, sizeof image) == 0, "tree: sound");
    expect(memcmp(image + 3 * 512, before + 3 * 512, 13 * 512) == 0 && memcmp(image, before, 1024) == 0, "tree: all else is as it was");
    bulgefs_filled r = bulgefs_read(image, sizeof image, (const uint8_t *)"/c/SN", 5, 0, got, 600);
    expect(r.number == 0 && r.count == 600 && memcmp(got, data, 600) == 0, "tree: kept");
    memcpy(before, image, sizeof image);
    s = bulgefs_salvage_tree(image, sizeof image, report, 64);
    expect(s.number == 0 && memcmp(report, none, 64) == 0 && memcmp(image, before, sizeof image) == 0, "tree: twice is once");
    /* A file that was cut: refused, and accepted with zeros in the place of what is missing. */
    s = bulgefs_salvage_tree(image, 12 * 512, report, 64);
    expect(s.number == BULGEFS_BAD_GEOMETRY && memcmp(image, before, sizeof image) == 0, "tree: cut");
    memset(image + 9 * 512, 0, 7 * 512);
    s = bulgefs_salvage_tree(image, sizeof image, report, 64);
    expect(s.number == 0 && s.dropped == 0 && bulgefs_check(image, sizeof image) == 0, "tree: padded");
}

/*
 * A list of three writes: each has its own record and is taken back on its own;
 * a fourth that is refused leaves the three; a byte less, and nothing is done.
 */
static void lists(void)
{
    static uint8_t image[16 * 512], before[16 * 512], journal[16384], list[2048];
    static const uint8_t path[] = "/A", missing[] = "/B";
    const uint32_t records[3] = {1036, 2584, 520};
    material m = {image, journal, path, before, sizeof image, sizeof journal, 2, 0, 0};
    bulgefs_uuid uuid = {{0}};
    expect(bulgefs_format(image, sizeof image, 2, 1, uuid, volume_name, 128) == 0, "list: format");
    expect(bulgefs_journal_start(journal, sizeof journal) == 0, "list: start");
    expect(bulgefs_create(image, sizeof image, journal, sizeof journal, path, 2, 0x60, 0, 0, 0, 0,
                          2).number == 0, "list: create");
    memcpy(before, image, sizeof image);
    list[0] = 1;
    size_t len = BULGEFS_LIST_HEAD;
    len += put_item(list + len, &m, 0, 0);
    len += put_item(list + len, &m, 0, 513);
    len += put_item(list + len, &m, 513, 1);
    m.path = missing;
    len += put_item(list + len, &m, 0, 0);
    put_number(list + 1, (uint32_t)len);
    expect(len == BULGEFS_LIST_HEAD + 4 * BULGEFS_ITEM_SIZE(2, 0) + 514, "list: length");
    expect(bulgefs_write_list(image, sizeof image, journal, sizeof journal, list, len - 1).number
               == BULGEFS_BAD_LIST, "list: a byte less");
    expect(memcmp(image, before, sizeof image) == 0, "list: nothing done");
    bulgefs_listed w = bulgefs_write_list(image, sizeof image, journal, sizeof journal, list, len);
    expect(w.number == BULGEFS_NOT_FOUND && w.done == 3, "list: three of four");
    expect(bulgefs_lookup(image, sizeof image, path, 2).size == 514, "list: size");
    for (int i = 0; i < 3; i++)
        expect(bulgefs_undo(image, sizeof image, journal, sizeof journal).record == records[i],
               "list: undo");
    expect(memcmp(image, before, sizeof image) == 0, "list: as it was");
}

/*
 * A file of three blocks read to its end, into buffers of each of these lengths;
 * a refused read keeps the place, also one that is above the file's size.
 */
static void reader(void)
{
    static uint8_t image[16 * 512], journal[16384], data[1300], got[1300];
    static const size_t lengths[] = {1, 7, 511, 512, 513, 1299, 1300};
    static const uint8_t path[] = "/A", missing[] = "/B";
    bulgefs_uuid uuid = {{0}};
    bulgefs_filled r;
    uint64_t position;
    for (size_t i = 0; i < sizeof data; i++)
        data[i] = (uint8_t)random_below(256);
    expect(bulgefs_format(image, sizeof image, 2, 1, uuid, volume_name, 128) == 0, "next: format");
    expect(bulgefs_journal_start(journal, sizeof journal) == 0, "next: start");
    expect(bulgefs_create(image, sizeof image, journal, sizeof journal, path, 2, 0x60, 0, 0, 0, 0,
                          2).number == 0, "next: create");
    expect(bulgefs_write(image, sizeof image, journal, sizeof journal, path, 2, 0, data,
                         sizeof data, 3).number == 0, "next: write");
    for (size_t i = 0; i < sizeof lengths / sizeof lengths[0]; i++) {
        size_t all = 0;
        memset(got, 0, sizeof got);
        position = 0;
        do {
            buffer into = lend(data, lengths[i]);
            r = bulgefs_read_next(image, sizeof image, path, 2, &position, into.at, into.len);
            expect(r.number == 0 && r.count <= sizeof got - all, "next: count");
            memcpy(got + all, into.at, r.count);
            all += r.count;
            expect(position == all, "next: position");
            give_back(&into);
        } while (r.count != 0);
        expect(all == sizeof data && memcmp(got, data, all) == 0, "next: the file's bytes");
    }
    position = 5;
    r = bulgefs_read_next(image, sizeof image, missing, 2, &position, got, 1);
    expect(r.number == BULGEFS_NOT_FOUND && r.count == 0 && position == 5, "next: not found");
    r = bulgefs_read_next(image, sizeof image, path, 2, &position, got, 1);
    expect(r.number == 0 && got[0] == data[5] && position == 6, "next: found again");
    position = UINT64_MAX;
    r = bulgefs_read_next(image, sizeof image, path, 2, &position, got, 1);
    expect(r.number == BULGEFS_BAD_OFFSET && position == UINT64_MAX, "next: above the size");
}

/*
 * A file that arrives in pieces of these lengths, by turns: the image is that of
 * writes of the whole, and undo takes back one piece at a time.
 */
static void pieces(void)
{
    static uint8_t image[16 * 512], whole[16 * 512], before[16 * 512], journal[65536], data[5000];
    static const size_t lengths[] = {1, 0, 511, 512, 513, 2000, 0, 1463};
    static const uint8_t path[] = "/A";
    enum { COUNT = sizeof lengths / sizeof lengths[0] };
    bulgefs_uuid uuid = {{0}};
    size_t at = 0;
    for (size_t i = 0; i < sizeof data; i++)
        data[i] = (uint8_t)random_below(256);
    expect(bulgefs_format(image, sizeof image, 2, 1, uuid, volume_name, 128) == 0, "piece: format");
    expect(bulgefs_journal_start(journal, sizeof journal) == 0, "piece: start");
    expect(bulgefs_create(image, sizeof image, journal, sizeof journal, path, 2, 0x60, 0, 0, 0, 0,
                          2).number == 0, "piece: create");
    memcpy(before, image, sizeof image);
    memcpy(whole, image, sizeof image);
    for (size_t i = 0; i < COUNT; i++) {
        buffer piece = lend_const(data + at, lengths[i]);
        bulgefs_changed a = bulgefs_append(image, sizeof image, journal, sizeof journal, path, 2,
                                           piece.at, piece.len, 7);
        expect(a.number == 0 && (a.record == 0) == (lengths[i] == 0), "piece: accepted");
        at += lengths[i];
        expect(bulgefs_lookup(image, sizeof image, path, 2).size == at, "piece: size");
        give_back(&piece);
    }
    expect(at == sizeof data, "piece: all");
    static uint8_t other[65536];
    expect(bulgefs_journal_start(other, sizeof other) == 0, "piece: another journal");
    for (size_t from = 0; from < at; from += 4096) {
        size_t len = at - from < 4096 ? at - from : 4096;
        expect(bulgefs_write(whole, sizeof whole, other, sizeof other, path, 2, from, data + from,
                             len, 7).number == 0, "piece: whole");
    }
    expect(memcmp(image, whole, sizeof image) == 0, "piece: the image of the whole");
    expect(bulgefs_append(image, sizeof image, journal, sizeof journal, path, 2, data, 4097, 7)
               .number == BULGEFS_BAD_ARGUMENT, "piece: too long");
    for (size_t i = 0; i < COUNT; i++)
        expect(lengths[i] == 0
                   || bulgefs_undo(image, sizeof image, journal, sizeof journal).number == 0,
               "piece: undo");
    expect(memcmp(image, before, sizeof image) == 0, "piece: as it was");
}

/*
 * Twenty revisions of the settings of one box: the last sixteen stand.  Their
 * file then has just that form, in a byte more or less it is refused, and undo
 * brings back one revision after the other.
 */
static void settings(void)
{
    static uint8_t image[16 * 512], before[16 * 512], journal[131072], data[201], got[300];
    static const uint8_t serial[] = "SN4471", path[] = "/SN4471";
    bulgefs_uuid uuid = {{0}};
    fill_random(data, sizeof data);
    expect(bulgefs_format(image, sizeof image, 2, 1, uuid, volume_name, 128) == 0, "put: format");
    expect(bulgefs_journal_start(journal, sizeof journal) == 0, "put: start");
    memcpy(before, image, sizeof image);
    for (uint32_t i = 1; i <= 20; i++) {
        bulgefs_put p = bulgefs_put_settings(image, sizeof image, journal, sizeof journal, serial,
                                             6, data, 10 * i, i);
        expect(p.number == 0 && p.revision == i, "put: revision");
        expect(i > 1 || p.record == BULGEFS_RECORD_SIZE(4), "put: first record");
        expect(p.record <= BULGEFS_RECORD_SIZE(BULGEFS_PUT_BLOCKS(7)), "put: record");
    }
    for (uint32_t i = 0; i <= 22; i++) {
        buffer into = lend(got, 200 + i);
        bulgefs_got g = bulgefs_get_settings(image, sizeof image, serial, 6, i, into.at, into.len);
        if (i < 5 || i > 20)
            expect(g.number == BULGEFS_NO_REVISION && unchanged(&into), "put: not standing");
        else
            expect(g.number == 0 && g.revision == i && g.length == 10 * i
                       && memcmp(into.at, data, g.length) == 0, "put: standing");
        give_back(&into);
    }
    bulgefs_got g = bulgefs_get_latest_settings(image, sizeof image, serial, 6, got, 200);
    expect(g.number == 0 && g.revision == 20 && g.length == 200, "put: latest");
    expect(bulgefs_get_latest_settings(image, sizeof image, serial, 6, got, 199).number
               == BULGEFS_BAD_SETTINGS, "put: a short buffer");
    expect(bulgefs_get_latest_settings(image, sizeof image, path, 7, got, 200).number
               == BULGEFS_BAD_SETTINGS, "put: a path");
    expect(bulgefs_get_latest_settings(image, sizeof image, serial, 5, got, 200).number
               == BULGEFS_NOT_FOUND, "put: another serial number");
    expect(bulgefs_put_settings(image, sizeof image, journal, sizeof journal, serial, 6, data, 201,
                                1).number == BULGEFS_BAD_SETTINGS, "put: 201 bytes");
    uint32_t size = bulgefs_lookup(image, sizeof image, path, 7).size;
    expect(size == 5 + 16 * 5 + 10 * (5 + 20) * 16 / 2, "put: size");
    expect(bulgefs_append(image, sizeof image, journal, sizeof journal, path, 7,
                          (const uint8_t *)"", 1, 1).number == 0, "put: a zero more");
    expect(bulgefs_get_latest_settings(image, sizeof image, serial, 6, got, 200).number == 0,
           "put: zeros may follow");
    expect(bulgefs_append(image, sizeof image, journal, sizeof journal, path, 7,
                          (const uint8_t *)"x", 1, 1).number == 0, "put: a byte more");
    expect(bulgefs_get_latest_settings(image, sizeof image, serial, 6, got, 200).number
               == BULGEFS_NOT_SETTINGS, "put: no other bytes");
    for (int i = 0; i < 22; i++)
        expect(bulgefs_undo(image, sizeof image, journal, sizeof journal).number == 0, "put: undo");
    expect(memcmp(image, before, sizeof image) == 0, "put: as it was");
}

/*
 * One serial number in the root, in a directory, and in the deepest one, whose path
 * has the most bytes that the calls take: each has its own revisions.
 */
static void settings_apart(void)
{
    static uint8_t image[64 * 512], before[64 * 512], journal[131072], data[3][200], got[200];
    static const uint8_t serial[] = "ABCDEFGHIJKLMNOP";
    uint8_t deep[8 * 81];
    bulgefs_uuid uuid = {{0}};
    unsigned changes = 8;
    expect(bulgefs_format(image, sizeof image, 2, 1, uuid, volume_name, 128) == 0, "apart: format");
    expect(bulgefs_journal_start(journal, sizeof journal) == 0, "apart: start");
    memcpy(before, image, sizeof image);
    for (size_t level = 1; level <= 8; level++) {
        deep[81 * (level - 1)] = '/';
        memset(deep + 81 * (level - 1) + 1, (int)('a' + level), 80);
        expect(bulgefs_create_directory(image, sizeof image, journal, sizeof journal, deep,
                                        81 * level, 0x20, 0, 0, 0, 0, 1, 1).number == 0,
               "apart: directory");
    }
    const size_t lengths[] = {0, 81, 8 * 81};
    for (uint32_t turn = 1; turn <= 4; turn++)
        for (size_t i = 0; i < 3; i++) {
            buffer directory = i == 0 ? lend_const((const uint8_t *)"/", 1)
                                      : lend_const(deep, lengths[i]);
            buffer name = lend_const(serial, 16);
            fill_random(data[i], 200);
            bulgefs_put p = bulgefs_put_settings_in(image, sizeof image, journal, sizeof journal,
                                                    directory.at, directory.len, name.at, 16,
                                                    data[i], 200, turn);
            expect(p.number == 0 && p.revision == turn, "apart: revision");
            changes++;
            for (size_t k = 0; k < 3; k++) {
                bulgefs_got g = bulgefs_get_latest_settings_in(image, sizeof image,
                    k == 0 ? (const uint8_t *)"/" : deep, k == 0 ? 1 : lengths[k], name.at, 16, got,
                    sizeof got);
                uint32_t latest = k <= i ? turn : turn - 1;
                expect(latest == 0 ? g.number == BULGEFS_NOT_FOUND
                                   : g.number == 0 && g.revision == latest
                                         && memcmp(got, data[k], 200) == 0,
                       "apart: each has its own");
            }
            give_back(&directory);
            give_back(&name);
        }
    while (changes-- > 0)
        expect(bulgefs_undo(image, sizeof image, journal, sizeof journal).number == 0, "apart: undo");
    expect(memcmp(image, before, sizeof image) == 0, "apart: as it was");
}

/* The largest image and the longest journal. */
static void largest(void)
{
    size_t image_len = BULGEFS_MAX_BLOCKS * 512, journal_len = BULGEFS_MAX_JOURNAL;
    uint8_t *image = must_have(calloc(image_len + 1, 1));
    uint8_t *journal = must_have(calloc(journal_len + 1, 1));
    fill_volume(image, BULGEFS_MAX_BLOCKS, journal, journal_len);
    for (size_t more = 0; more < 2; more++) {
        material m = {image, journal, (const uint8_t *)"/f5", image, image_len + more,
                      journal_len, 3, 4096, 1000};
        call_all(&m);
        m.image_len = image_len;
        m.journal_len = journal_len + more;
        call_all(&m);
    }
    free(image);
    free(journal);
}

int main(void)
{
    random_buffers();
    sound_volumes();
    cut_journals();
    damaged_volumes();
    full_name();
    freed_blocks();
    attributes();
    flags();
    salvaged();
    rescued();
    lists();
    reader();
    pieces();
    settings();
    settings_apart();
    largest();
    printf("%lu passed, %lu failed\n", passed, failed);
    return failed == 0 ? 0 : 1;
}
