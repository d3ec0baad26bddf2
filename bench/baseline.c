/*
 * The volume in plain C, without proofs: the baseline of the benchmark.
 *
 * It makes the same checks and gives the same answers as the library, under
 * the same names; -DBULGEFS_PREFIX=baseline_ renames the entry points, so
 * that both fit into one program.
 */
#include "baseline_image.h"

#ifndef BULGEFS_PREFIX
#define BULGEFS_PREFIX bulgefs_
#endif
#define JOIN_NOW(a, b) a##b
#define JOIN(a, b)     JOIN_NOW(a, b)
#define ENTRY(name)    JOIN(BULGEFS_PREFIX, name)

/* ---- entry points that look ---- */

uint32_t ENTRY(check)(const uint8_t *image, size_t image_len)
{
    volume v;
    return check(image, image_len, &v);
}

/*
 * Weighs 9 and 17.  others_good says whether what else the call brings is good;
 * own is how many of the path's names need not be directories.
 */
static uint32_t path_refusal(const uint8_t *path, size_t path_len, bool others_good, size_t own)
{
    size_t names = count_names(path, path_len);
    if (names == 0 || !others_good)
        return BULGEFS_BAD_ARGUMENT;
    return names - own > BULGEFS_MAX_LEVELS ? BULGEFS_TOO_DEEP : BULGEFS_OK;
}

/* Weighs 9, 17 and 10 for a file. */
static uint32_t find_file(const uint8_t *image, const volume *v, const uint8_t *path,
                          size_t path_len, bool others_good, target *to)
{
    uint32_t number = path_refusal(path, path_len, others_good, 1);
    if (number != BULGEFS_OK)
        return number;
    if (!follow(image, v, path, path_len, to) || to->slot == 0
        || !is_file(image[slot_at(&to->home, to->slot) + TYPE]))
        return BULGEFS_NOT_FOUND;
    return BULGEFS_OK;
}

/* Weighs 1 to 7, 9, 17 and 10; on success gives the file's entry. */
static uint32_t look(const uint8_t *image, size_t image_len, const uint8_t *path,
                     size_t path_len, target *to, const uint8_t **entry)
{
    volume v;
    uint32_t number = check(image, image_len, &v);
    if (number == BULGEFS_OK)
        number = find_file(image, &v, path, path_len, true, to);
    if (number == BULGEFS_OK)
        *entry = image + slot_at(&to->home, to->slot);
    return number;
}

bulgefs_found ENTRY(lookup)(const uint8_t *image, size_t image_len,
                            const uint8_t *path, size_t path_len)
{
    target to;
    const uint8_t *entry;
    uint32_t number = look(image, image_len, path, path_len, &to, &entry);
    if (number != BULGEFS_OK)
        return (bulgefs_found){number, 0, 0, 0};
    return (bulgefs_found){BULGEFS_OK, to.slot, get32(entry + SIZE), get32(entry + BLOCKS)};
}

/* A place in a chain: a block, and an offset in it. */
typedef struct { uint32_t b, at; } place;

/* The place of byte at of the chain that starts with block b. */
static place seek(const uint8_t *image, uint32_t b, uint32_t at)
{
    for (; at >= BLOCK; at -= BLOCK)
        b = next_of(image, b);
    return (place){b, at};
}

/*
 * Steps over those of len bytes that lie in the place's block, on to the next
 * block.  Gives their count, and where they start in the image.
 */
static size_t step(const uint8_t *image, place *p, size_t len, size_t *start)
{
    size_t piece = BLOCK - p->at;
    *start = (size_t)p->b * BLOCK + p->at;
    p->b = next_of(image, p->b);
    p->at = 0;
    return piece < len ? piece : len;
}

/* Copies len bytes of the chain that starts with block b, from offset at on. */
static void gather(const uint8_t *image, uint32_t b, uint32_t at, uint8_t *to, size_t len)
{
    place p = seek(image, b, at);
    while (len > 0) {
        size_t start, piece = step(image, &p, len, &start);
        memcpy(to, image + start, piece);
        to += piece;
        len -= piece;
    }
}

bulgefs_filled ENTRY(read)(const uint8_t *image, size_t image_len,
                           const uint8_t *path, size_t path_len,
                           uint64_t offset, uint8_t *buffer, size_t buffer_len)
{
    target to;
    const uint8_t *entry;
    uint32_t number = look(image, image_len, path, path_len, &to, &entry);
    if (number != BULGEFS_OK)
        return (bulgefs_filled){number, 0};
    uint32_t size = get32(entry + SIZE);
    if (offset > size)
        return (bulgefs_filled){BULGEFS_BAD_OFFSET, 0};
    uint32_t count = size - (uint32_t)offset;
    if (count > buffer_len)
        count = (uint32_t)buffer_len;
    gather(image, get32(entry + FIRST), (uint32_t)offset, buffer, count);
    return (bulgefs_filled){BULGEFS_OK, count};
}

bulgefs_filled ENTRY(read_attributes)(const uint8_t *image, size_t image_len,
                                      const uint8_t *path, size_t path_len,
                                      uint8_t *buffer, size_t buffer_len)
{
    target to;
    const uint8_t *entry;
    uint32_t number = look(image, image_len, path, path_len, &to, &entry);
    if (number != BULGEFS_OK)
        return (bulgefs_filled){number, 0};
    uint32_t count = get32(entry + ATTRIBUTE_SIZE);
    if (count > buffer_len / BLOCK)
        count = (uint32_t)(buffer_len / BLOCK);
    gather(image, get32(entry + ATTRIBUTE_BLOCK), 0, buffer, count * BLOCK);
    return (bulgefs_filled){BULGEFS_OK, count * BLOCK};
}

bulgefs_part ENTRY(look_in_place)(const uint8_t *image, size_t image_len,
                                  const uint8_t *path, size_t path_len, uint64_t index)
{
    target to;
    const uint8_t *entry;
    bulgefs_part part = {0, 0};
    if (look(image, image_len, path, path_len, &to, &entry) != BULGEFS_OK)
        return part;
    if (index >= get32(entry + BLOCKS))
        return part;
    uint32_t b = get32(entry + FIRST);
    for (uint32_t i = 0; i < index; i++)
        b = next_of(image, b);
    uint32_t left = get32(entry + SIZE) - (uint32_t)index * BLOCK;
    part.start = b * BLOCK;
    part.length = left < BLOCK ? left : BLOCK;
    return part;
}

/* ---- entry points that change ---- */

/* Puts self entry and end type of an empty directory, all zeros so far. */
static void put_directory(uint8_t *image, uint32_t first, uint32_t parent, uint32_t last,
                          uint32_t d, uint64_t time)
{
    uint8_t *self = image + (size_t)first * BLOCK;
    self[TYPE] = TYPE_SELF;
    put32(self + SELF_BLOCK, first);
    put32(self + SELF_PARENT, parent);
    put32(self + BLOCKS, d);
    put64(self + CREATED, time);
    put64(self + MODIFIED, time);
    image[(size_t)last * BLOCK + 3 * SLOT + TYPE] = TYPE_END;
}

uint32_t ENTRY(format)(uint8_t *image, size_t image_len, uint32_t root_blocks, uint64_t time,
                       bulgefs_uuid uuid, const uint8_t *volume_name, size_t volume_name_len)
{
    volume v;
    if (!good_length(image_len))
        return BULGEFS_BAD_LENGTH;
    set_geometry(&v, image_len);
    if (root_blocks < BULGEFS_MIN_DIRECTORY_BLOCKS || root_blocks > BULGEFS_MAX_DIRECTORY_BLOCKS
        || volume_name_len != BULGEFS_VOLUME_NAME_SIZE)
        return BULGEFS_BAD_ARGUMENT;
    uint32_t root = v.t + 1;
    uint32_t occupied = root + root_blocks;
    if (occupied > v.n)
        return BULGEFS_VOLUME_FULL;

    memset(image, 0, image_len);
    memcpy(image, signature, sizeof signature);
    put32(image + TOTAL, v.n);
    put32(image + TABLE, v.t);
    put32(image + OCCUPIED, occupied);
    put32(image + FREE, v.n - occupied);
    put32(image + ROOT, root);
    memcpy(image + UUID, uuid.bytes, sizeof uuid.bytes);
    memcpy(image + VOLUME_NAME, volume_name, BULGEFS_VOLUME_NAME_SIZE);
    for (uint32_t b = 0; b < occupied; b++)
        set_next(image, b, b < root || b + 1 == occupied ? 1 : b + 1);

    put_directory(image, root, root, occupied - 1, root_blocks, time);
    return BULGEFS_OK;
}

uint32_t ENTRY(journal_start)(uint8_t *journal, size_t journal_len)
{
    if (journal_len < BULGEFS_MIN_JOURNAL || journal_len > BULGEFS_MAX_JOURNAL)
        return BULGEFS_BAD_JOURNAL;
    memset(journal, 0, journal_len);
    journal[0] = 1;
    put32(journal + 1, JOURNAL_HEAD);
    return BULGEFS_OK;
}

/* Weighs 26, 10, 11 and 13 for something new; on success fills its slot. */
static uint32_t find_room(const uint8_t *image, const volume *v, const uint8_t *path,
                          size_t path_len, uint32_t flags, target *to)
{
    if (flags != 0)
        return BULGEFS_BAD_FLAGS;
    if (!follow(image, v, path, path_len, to))
        return BULGEFS_NOT_FOUND;
    if (to->slot != 0)
        return BULGEFS_NAME_TAKEN;
    to->slot = 1;
    while (to->slot < end_slot(&to->home) && image[slot_at(&to->home, to->slot) + TYPE] != TYPE_FREE)
        to->slot++;
    return to->slot == end_slot(&to->home) ? BULGEFS_DIRECTORY_FULL : BULGEFS_OK;
}

static uint32_t block_of(const target *to)
{
    return to->home.blocks[to->slot / 4];
}

static uint8_t *put_entry(uint8_t *image, const target *to, uint8_t type, uint8_t user,
                          uint8_t group, uint8_t permissions, uint32_t flags, uint64_t time)
{
    uint8_t *entry = image + slot_at(&to->home, to->slot);
    memset(entry, 0, SLOT);
    entry[TYPE] = type;
    entry[USER] = user;
    entry[GROUP] = group;
    entry[PERMISSIONS] = permissions;
    put64(entry + CREATED, time);
    put64(entry + MODIFIED, time);
    put32(entry + FLAGS, flags);
    memcpy(entry + NAME, to->name, to->name_len);
    return entry;
}

bulgefs_created ENTRY(create)(uint8_t *image, size_t image_len,
                              uint8_t *journal, size_t journal_len,
                              const uint8_t *path, size_t path_len,
                              uint8_t type, uint8_t user, uint8_t group,
                              uint8_t permissions, uint32_t flags, uint64_t time)
{
    volume v;
    target to;
    uint32_t number = check_both(image, image_len, journal, journal_len, &v);
    if (number == BULGEFS_OK)
        number = path_refusal(path, path_len, is_file(type), 1);
    if (number == BULGEFS_OK)
        number = find_room(image, &v, path, path_len, flags, &to);
    if (number != BULGEFS_OK)
        return (bulgefs_created){number, 0, 0};
    block_set named = {{0}};
    add(&named, block_of(&to));
    uint32_t record = save(image, v.n, &named, journal, journal_len);
    if (record == 0)
        return (bulgefs_created){BULGEFS_JOURNAL_FULL, 0, 0};
    put_entry(image, &to, type, user, group, permissions, flags, time);
    return (bulgefs_created){BULGEFS_OK, to.slot, record};
}

/* Adds by (which may wrap to a negative step) to occupied, and takes it off free. */
static void count_blocks(uint8_t *image, uint32_t by)
{
    put32(image + OCCUPIED, get32(image + OCCUPIED) + by);
    put32(image + FREE, get32(image + FREE) - by);
}

/* The count lowest free blocks.  There are enough. */
static void lowest_free(const uint8_t *image, uint32_t count, uint32_t *taken)
{
    for (uint32_t b = 0, found = 0; found < count; b++)
        if (next_of(image, b) == 0)
            taken[found++] = b;
}

/* Zeroes the taken blocks and links them after the chain's last block, if any. */
static void grow(uint8_t *image, uint8_t *entry, uint32_t last, const uint32_t *taken,
                 uint32_t count)
{
    for (uint32_t i = 0; i < count; i++) {
        memset(image + (size_t)taken[i] * BLOCK, 0, BLOCK);
        set_next(image, taken[i], i + 1 < count ? taken[i + 1] : 1);
    }
    if (last == 0)
        put32(entry + FIRST, taken[0]);
    else
        set_next(image, last, taken[0]);
    put32(entry + BLOCKS, get32(entry + BLOCKS) + count);
    count_blocks(image, count);
}

/* Copies data into the chain that starts with block b, from offset at on. */
static void scatter(uint8_t *image, uint32_t b, uint32_t at, const uint8_t *data, size_t len)
{
    place p = seek(image, b, at);
    while (len > 0) {
        size_t start, piece = step(image, &p, len, &start);
        memcpy(image + start, data, piece);
        data += piece;
        len -= piece;
    }
}

/* What a write, or a new directory, is about to do. */
typedef struct {
    uint32_t offset, end;       /* the written bytes                    */
    uint32_t blocks, last;      /* the file's blocks and its last block */
    uint32_t count;             /* blocks to take                       */
    uint32_t taken[MAX_TAKEN];
} plan;

/* Names the file's blocks that are written to; sets the plan's last block. */
static void name_written(const uint8_t *image, const uint8_t *entry, plan *p, block_set *named)
{
    uint32_t b = get32(entry + FIRST);
    p->last = 0;
    for (uint32_t i = 0; i < p->blocks; i++) {
        if (p->offset < p->end && i >= p->offset / BLOCK && i <= (p->end - 1) / BLOCK)
            add(named, b);
        p->last = b;
        b = next_of(image, b);
    }
}

/* Names what taking blocks changes. */
static void name_taken(const plan *p, block_set *named)
{
    if (p->count == 0)
        return;
    add(named, 0);
    if (p->last != 0)
        add(named, table_block(p->last));
    for (uint32_t i = 0; i < p->count; i++) {
        add(named, p->taken[i]);
        add(named, table_block(p->taken[i]));
    }
}

/* A write to an image and a journal that were checked.  Weighs 9 to 15 and 17. */
static bulgefs_changed write_file(uint8_t *image, const volume *v,
                                  uint8_t *journal, size_t journal_len,
                                  const uint8_t *path, size_t path_len,
                                  uint64_t offset, const uint8_t *data, size_t data_len,
                                  uint64_t time)
{
    target to;
    uint32_t number = find_file(image, v, path, path_len, data_len <= BULGEFS_MAX_DATA, &to);
    if (number != BULGEFS_OK)
        return (bulgefs_changed){number, 0};
    uint8_t *entry = image + slot_at(&to.home, to.slot);
    uint32_t size = get32(entry + SIZE);
    if (offset > size)
        return (bulgefs_changed){BULGEFS_BAD_OFFSET, 0};
    plan p;
    p.offset = (uint32_t)offset;
    p.end = p.offset + (uint32_t)data_len;
    p.blocks = get32(entry + BLOCKS);
    uint32_t new_size = p.end > size ? p.end : size;
    p.count = blocks_for(new_size) - p.blocks;
    if (p.count > get32(image + FREE))
        return (bulgefs_changed){BULGEFS_VOLUME_FULL, 0};
    lowest_free(image, p.count, p.taken);

    block_set named = {{0}};
    add(&named, block_of(&to));
    name_written(image, entry, &p, &named);
    name_taken(&p, &named);
    uint32_t record = save(image, v->n, &named, journal, journal_len);
    if (record == 0)
        return (bulgefs_changed){BULGEFS_JOURNAL_FULL, 0};
    if (p.count > 0)
        grow(image, entry, p.last, p.taken, p.count);
    scatter(image, get32(entry + FIRST), p.offset, data, data_len);
    put32(entry + SIZE, new_size);
    put64(entry + MODIFIED, time);
    return (bulgefs_changed){BULGEFS_OK, record};
}

bulgefs_changed ENTRY(write)(uint8_t *image, size_t image_len,
                             uint8_t *journal, size_t journal_len,
                             const uint8_t *path, size_t path_len,
                             uint64_t offset, const uint8_t *data, size_t data_len,
                             uint64_t time)
{
    volume v;
    uint32_t number = check_both(image, image_len, journal, journal_len, &v);
    if (number != BULGEFS_OK)
        return (bulgefs_changed){number, 0};
    return write_file(image, &v, journal, journal_len, path, path_len, offset, data, data_len,
                      time);
}

/* The fields of an item of a list; its path begins at ITEM_PATH. */
enum { ITEM_TIME = 4, ITEM_OFFSET = 12, ITEM_PATH_LENGTH = 16, ITEM_PATH = 18 };

static size_t item_path_length(const uint8_t *item)
{
    return (size_t)item[ITEM_PATH_LENGTH] << 8 | item[ITEM_PATH_LENGTH + 1];
}

/* Whether items fill the list exactly, and their paths fit into them. */
static bool good_list(const uint8_t *list, size_t len)
{
    if (len < BULGEFS_LIST_HEAD || len > BULGEFS_MAX_LIST || list[0] != 1
        || get32(list + 1) != len)
        return false;
    for (size_t at = BULGEFS_LIST_HEAD; at < len; at += get32(list + at)) {
        size_t left = len - at;
        if (left < ITEM_PATH || get32(list + at) > left
            || get32(list + at) < ITEM_PATH + item_path_length(list + at))
            return false;
    }
    return true;
}

bulgefs_listed ENTRY(write_list)(uint8_t *image, size_t image_len,
                                 uint8_t *journal, size_t journal_len,
                                 const uint8_t *list, size_t list_len)
{
    volume v;
    uint32_t done = 0;
    uint32_t number = check_both(image, image_len, journal, journal_len, &v);
    if (number == BULGEFS_OK && !good_list(list, list_len))
        number = BULGEFS_BAD_LIST;
    for (size_t at = BULGEFS_LIST_HEAD; number == BULGEFS_OK && at < list_len;) {
        const uint8_t *item = list + at;
        size_t size = get32(item), path_len = item_path_length(item);
        uint64_t time = (uint64_t)get32(item + ITEM_TIME) << 32 | get32(item + ITEM_TIME + 4);
        number = write_file(image, &v, journal, journal_len, item + ITEM_PATH, path_len,
                            get32(item + ITEM_OFFSET), item + ITEM_PATH + path_len,
                            size - ITEM_PATH - path_len, time).number;
        done += number == BULGEFS_OK;
        at += size;
    }
    return (bulgefs_listed){number, done};
}

/* Names what freeing a chain changes: its blocks, their table blocks, and block 0. */
static void name_freed(const uint8_t *image, uint32_t first, uint32_t count, block_set *named)
{
    if (count > 0)
        add(named, 0);
    for (uint32_t i = 0, b = first; i < count; i++, b = next_of(image, b)) {
        add(named, b);
        add(named, table_block(b));
    }
}

/* Frees a chain and zeroes its blocks. */
static void free_chain(uint8_t *image, uint32_t first, uint32_t count)
{
    for (uint32_t i = 0, b = first; i < count; i++) {
        uint32_t next = next_of(image, b);
        set_next(image, b, 0);
        memset(image + (size_t)b * BLOCK, 0, BLOCK);
        b = next;
    }
    count_blocks(image, 0u - count);
}

/* Removes a file or an empty directory.  Weighs 15. */
static bulgefs_changed release(uint8_t *image, const volume *v, uint8_t *journal,
                               size_t journal_len, const target *to)
{
    uint8_t *entry = image + slot_at(&to->home, to->slot);
    block_set named = {{0}};
    add(&named, block_of(to));
    name_freed(image, get32(entry + FIRST), get32(entry + BLOCKS), &named);
    name_freed(image, get32(entry + ATTRIBUTE_BLOCK), get32(entry + ATTRIBUTE_SIZE), &named);
    uint32_t record = save(image, v->n, &named, journal, journal_len);
    if (record == 0)
        return (bulgefs_changed){BULGEFS_JOURNAL_FULL, 0};
    free_chain(image, get32(entry + FIRST), get32(entry + BLOCKS));
    free_chain(image, get32(entry + ATTRIBUTE_BLOCK), get32(entry + ATTRIBUTE_SIZE));
    memset(entry, 0, SLOT);
    return (bulgefs_changed){BULGEFS_OK, record};
}

bulgefs_changed ENTRY(delete)(uint8_t *image, size_t image_len,
                              uint8_t *journal, size_t journal_len,
                              const uint8_t *path, size_t path_len)
{
    volume v;
    target to;
    uint32_t number = check_both(image, image_len, journal, journal_len, &v);
    if (number == BULGEFS_OK)
        number = find_file(image, &v, path, path_len, true, &to);
    if (number != BULGEFS_OK)
        return (bulgefs_changed){number, 0};
    return release(image, &v, journal, journal_len, &to);
}

/* ---- entry points for attributes ---- */

/* Weighs 9, 20, 17 and 10 for attributes that are to be set. */
static uint32_t find_for_set(const uint8_t *image, const volume *v, const uint8_t *path,
                             size_t path_len, size_t data_len, target *to)
{
    bool good = data_len != 0 && data_len % BLOCK == 0;
    uint32_t number = path_refusal(path, path_len, good, 1);
    if (number == BULGEFS_BAD_ARGUMENT)
        return number;
    if (data_len / BLOCK > BULGEFS_MAX_ATTRIBUTE_BLOCKS)
        return BULGEFS_TOO_MANY_BLOCKS;
    return find_file(image, v, path, path_len, true, to);
}

/*
 * The count lowest blocks that are free or of the chain from first on, which
 * has old blocks.  False if there are not so many.
 */
static bool lowest_with(const uint8_t *image, const volume *v, uint32_t first, uint32_t old,
                        uint32_t count, uint32_t *taken)
{
    block_set own = {{0}};
    uint32_t found = 0;
    if (get32(image + FREE) + old < count)
        return false;
    for (uint32_t i = 0, b = first; i < old; i++, b = next_of(image, b))
        add(&own, b);
    for (uint32_t b = 0; b < v->n && found < count; b++)
        if (next_of(image, b) == 0 || has(&own, b))
            taken[found++] = b;
    return true;
}

/* Makes the taken blocks a file's attributes. */
static void put_attributes(uint8_t *image, uint8_t *entry, const uint32_t *taken, uint32_t count,
                           const uint8_t *data)
{
    for (uint32_t i = 0; i < count; i++) {
        set_next(image, taken[i], i + 1 < count ? taken[i + 1] : 1);
        memcpy(image + (size_t)taken[i] * BLOCK, data + (size_t)i * BLOCK, BLOCK);
    }
    put32(entry + ATTRIBUTE_BLOCK, count > 0 ? taken[0] : 0);
    put32(entry + ATTRIBUTE_SIZE, count);
    count_blocks(image, count);
}

bulgefs_changed ENTRY(set_attributes)(uint8_t *image, size_t image_len,
                                      uint8_t *journal, size_t journal_len,
                                      const uint8_t *path, size_t path_len,
                                      const uint8_t *data, size_t data_len)
{
    volume v;
    target to;
    uint32_t number = check_both(image, image_len, journal, journal_len, &v);
    if (number == BULGEFS_OK)
        number = find_for_set(image, &v, path, path_len, data_len, &to);
    if (number != BULGEFS_OK)
        return (bulgefs_changed){number, 0};
    uint8_t *entry = image + slot_at(&to.home, to.slot);
    uint32_t first = get32(entry + ATTRIBUTE_BLOCK), old = get32(entry + ATTRIBUTE_SIZE);
    plan p = {0, 0, 0, 0, (uint32_t)(data_len / BLOCK), {0}};
    if (!lowest_with(image, &v, first, old, p.count, p.taken))
        return (bulgefs_changed){BULGEFS_VOLUME_FULL, 0};
    block_set named = {{0}};
    add(&named, block_of(&to));
    name_freed(image, first, old, &named);
    name_taken(&p, &named);
    uint32_t record = save(image, v.n, &named, journal, journal_len);
    if (record == 0)
        return (bulgefs_changed){BULGEFS_JOURNAL_FULL, 0};
    free_chain(image, first, old);
    put_attributes(image, entry, p.taken, p.count, data);
    return (bulgefs_changed){BULGEFS_OK, record};
}

bulgefs_changed ENTRY(clear_attributes)(uint8_t *image, size_t image_len,
                                        uint8_t *journal, size_t journal_len,
                                        const uint8_t *path, size_t path_len)
{
    volume v;
    target to;
    uint32_t number = check_both(image, image_len, journal, journal_len, &v);
    if (number == BULGEFS_OK)
        number = find_file(image, &v, path, path_len, true, &to);
    if (number != BULGEFS_OK)
        return (bulgefs_changed){number, 0};
    uint8_t *entry = image + slot_at(&to.home, to.slot);
    uint32_t first = get32(entry + ATTRIBUTE_BLOCK), old = get32(entry + ATTRIBUTE_SIZE);
    block_set named = {{0}};
    add(&named, block_of(&to));
    name_freed(image, first, old, &named);
    uint32_t record = save(image, v.n, &named, journal, journal_len);
    if (record == 0)
        return (bulgefs_changed){BULGEFS_JOURNAL_FULL, 0};
    free_chain(image, first, old);
    put_attributes(image, entry, NULL, 0, NULL);
    return (bulgefs_changed){BULGEFS_OK, record};
}

bulgefs_changed ENTRY(clear_flags)(uint8_t *image, size_t image_len,
                                   uint8_t *journal, size_t journal_len,
                                   const uint8_t *path, size_t path_len)
{
    volume v;
    target to;
    uint32_t number = check_both(image, image_len, journal, journal_len, &v);
    if (number == BULGEFS_OK)
        number = find_file(image, &v, path, path_len, true, &to);
    if (number != BULGEFS_OK)
        return (bulgefs_changed){number, 0};
    block_set named = {{0}};
    add(&named, block_of(&to));
    uint32_t record = save(image, v.n, &named, journal, journal_len);
    if (record == 0)
        return (bulgefs_changed){BULGEFS_JOURNAL_FULL, 0};
    put32(image + slot_at(&to.home, to.slot) + FLAGS, 0);
    return (bulgefs_changed){BULGEFS_OK, record};
}

/* ---- entry points for directories ---- */

bulgefs_created ENTRY(create_directory)(uint8_t *image, size_t image_len,
                                        uint8_t *journal, size_t journal_len,
                                        const uint8_t *path, size_t path_len,
                                        uint8_t type, uint8_t user, uint8_t group,
                                        uint8_t permissions, uint32_t flags,
                                        uint32_t blocks, uint64_t time)
{
    volume v;
    target to;
    bool good = is_directory(type) && blocks >= BULGEFS_MIN_DIRECTORY_BLOCKS
        && blocks <= BULGEFS_MAX_DIRECTORY_BLOCKS;
    uint32_t number = check_both(image, image_len, journal, journal_len, &v);
    if (number == BULGEFS_OK)
        number = path_refusal(path, path_len, good, 0);
    if (number == BULGEFS_OK)
        number = find_room(image, &v, path, path_len, flags, &to);
    if (number == BULGEFS_OK && blocks > get32(image + FREE))
        number = BULGEFS_VOLUME_FULL;
    if (number != BULGEFS_OK)
        return (bulgefs_created){number, 0, 0};
    plan p = {0, 0, 0, 0, blocks, {0}};
    lowest_free(image, p.count, p.taken);
    block_set named = {{0}};
    add(&named, block_of(&to));
    name_taken(&p, &named);
    uint32_t record = save(image, v.n, &named, journal, journal_len);
    if (record == 0)
        return (bulgefs_created){BULGEFS_JOURNAL_FULL, 0, 0};
    uint8_t *entry = put_entry(image, &to, type, user, group, permissions, flags, time);
    grow(image, entry, 0, p.taken, p.count);
    put_directory(image, p.taken[0], to.home.blocks[0], p.taken[blocks - 1], blocks, time);
    memcpy(image + (size_t)p.taken[0] * BLOCK + NAME, to.name, to.name_len);
    return (bulgefs_created){BULGEFS_OK, to.slot, record};
}

/* Weighs 9, 17, 10 and 18 for a directory that is to go. */
static uint32_t find_empty(const uint8_t *image, const volume *v, const uint8_t *path,
                           size_t path_len, target *to)
{
    directory dir;
    uint32_t number = path_refusal(path, path_len, true, 0);
    if (number != BULGEFS_OK)
        return number;
    if (!follow(image, v, path, path_len, to) || to->slot == 0)
        return BULGEFS_NOT_FOUND;
    const uint8_t *entry = image + slot_at(&to->home, to->slot);
    if (!is_directory(entry[TYPE]))
        return BULGEFS_NOT_FOUND;
    open_directory(image, get32(entry + FIRST), &dir);
    for (uint32_t s = 1; s < end_slot(&dir); s++)
        if (image[slot_at(&dir, s) + TYPE] != TYPE_FREE)
            return BULGEFS_NOT_EMPTY;
    return BULGEFS_OK;
}

bulgefs_changed ENTRY(delete_directory)(uint8_t *image, size_t image_len,
                                        uint8_t *journal, size_t journal_len,
                                        const uint8_t *path, size_t path_len)
{
    volume v;
    target to;
    uint32_t number = check_both(image, image_len, journal, journal_len, &v);
    if (number == BULGEFS_OK)
        number = find_empty(image, &v, path, path_len, &to);
    if (number != BULGEFS_OK)
        return (bulgefs_changed){number, 0};
    return release(image, &v, journal, journal_len, &to);
}

bulgefs_changed ENTRY(undo)(uint8_t *image, size_t image_len,
                            uint8_t *journal, size_t journal_len)
{
    volume v;
    size_t last, length;
    uint32_t number = check(image, image_len, &v);
    if (number != BULGEFS_OK)
        return (bulgefs_changed){number, 0};
    if (!read_journal(journal, journal_len, v.n, &last, &length))
        return (bulgefs_changed){BULGEFS_BAD_JOURNAL, 0};
    if (length == 0)
        return (bulgefs_changed){BULGEFS_NOTHING_TO_UNDO, 0};
    uint8_t *record = journal + last;
    for (size_t at = RECORD_HEAD; at < length; at += SAVED)
        memcpy(image + (size_t)get32(record + at) * BLOCK, record + at + 4, BLOCK);
    memset(record, 0, length);
    put32(journal + 1, (uint32_t)last);
    return (bulgefs_changed){BULGEFS_OK, (uint32_t)length};
}

/* ---- salvage ---- */

/*
 * Claims a chain of count blocks; last gets its last block, 0 if it has none.
 * False, and nothing claimed, if it meets a number outside or a claimed block.
 */
static bool claim(const uint8_t *image, const volume *v, uint32_t first, uint32_t count,
                  block_set *claimed, uint32_t *last)
{
    uint32_t b = first;
    *last = 0;
    for (uint32_t i = 0; i < count; i++) {
        if (b <= v->t || b >= v->n || has(claimed, b)) {
            for (b = first; i > 0; i--, b = next_of(image, b))
                take_off(claimed, b);
            return false;
        }
        add(claimed, b);
        *last = b;
        b = next_of(image, b);
    }
    return true;
}

/* Ends a chain with its last block; gives the code. */
static uint8_t end_chain(uint8_t *image, uint32_t last)
{
    if (last == 0 || next_of(image, last) == 1)
        return BULGEFS_KEPT;
    set_next(image, last, 1);
    return BULGEFS_END_MENDED;
}

/* A slot between the first and the last; gives its code. */
static uint8_t salvage_slot(uint8_t *image, const volume *v, const directory *root, uint32_t s,
                            block_set *claimed)
{
    uint8_t *slot = image + slot_at(root, s);
    uint32_t last;
    if (slot[TYPE] == TYPE_FREE)
        return BULGEFS_KEPT;
    bool good = good_entry(slot) && name_is_new(image, root, s);
    if (!good || !claim(image, v, get32(slot + FIRST), get32(slot + BLOCKS), claimed, &last)) {
        memset(slot, 0, SLOT);
        return good ? BULGEFS_FILE_LOST : BULGEFS_ENTRY_LOST;
    }
    uint8_t code = end_chain(image, last);
    if (!claim(image, v, get32(slot + ATTRIBUTE_BLOCK), get32(slot + ATTRIBUTE_SIZE), claimed,
               &last)) {
        memset(slot + ATTRIBUTE_BLOCK, 0, 8);
        return BULGEFS_ATTRIBUTES_LOST;
    }
    return code | end_chain(image, last);
}

/* All that no file claims, and the counts. */
static void put_table(uint8_t *image, const volume *v, const block_set *claimed)
{
    uint32_t occupied = 0;
    for (uint32_t b = 0; b < v->t * ENTRIES; b++) {
        bool used = b <= v->t || (b < v->n && has(claimed, b));
        occupied += used;
        if (b <= v->t)
            set_next(image, b, 1);
        if (used || next_of(image, b) == 0)
            continue;
        set_next(image, b, 0);
        if (b < v->n)
            memset(image + (size_t)b * BLOCK, 0, BLOCK);
    }
    put32(image + OCCUPIED, occupied);
    put32(image + FREE, v->n - occupied);
}

uint32_t ENTRY(salvage)(uint8_t *image, size_t image_len, uint8_t *report, size_t report_len)
{
    volume v;
    expected self;
    directory root;
    block_set claimed = {{0}};
    uint32_t number = check_header(image, image_len, &v, &self);
    if (number != BULGEFS_OK)
        return number;
    if (!good_self(image, &v, &self, &claimed))
        return BULGEFS_BAD_SELF;
    open_directory(image, self.first, &root);
    for (uint32_t s = 1; s < end_slot(&root); s++)
        if (is_directory(image[slot_at(&root, s) + TYPE]))
            return BULGEFS_BAD_SLOT;
    if (report_len <= end_slot(&root))
        return BULGEFS_BAD_ARGUMENT;
    report[0] = BULGEFS_KEPT;
    for (uint32_t s = 1; s < end_slot(&root); s++)
        report[s] = salvage_slot(image, &v, &root, s, &claimed);
    uint8_t *end = image + slot_at(&root, end_slot(&root));
    report[end_slot(&root)] = end[TYPE] == TYPE_END ? BULGEFS_KEPT : BULGEFS_END_MENDED;
    end[TYPE] = TYPE_END;
    put_table(image, &v, &claimed);
    return BULGEFS_OK;
}
