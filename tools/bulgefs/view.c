/*
 * A sound image: its numbers, labels and entries as the library tells them
 * (bulgefs_info, bulgefs_entry), which is proved.  Chains, the block of a slot
 * and the root's own times are read here in plain C, and that is not.  So are
 * all entries where a whole image is counted, drawn or compared (view_scan); a
 * comparison shows of these only what the library tells too (view_told).  Every
 * number that is followed is held against the image's length first, and every
 * walk has an end, so that a damaged image gives wrong words and nothing worse.
 */
#include <stdlib.h>
#include <string.h>

#include "look.h"

#define SLOT 128u
#define NAME_AT 48u

uint32_t view_number(const bytes *image, size_t at)
{
    const uint8_t *p;
    if (image->length < 4 || at > image->length - 4) return 0;
    p = image->bytes + at;
    return (uint32_t)p[0] << 24 | (uint32_t)p[1] << 16 | (uint32_t)p[2] << 8 | p[3];
}

static uint64_t view_time(const bytes *image, size_t at)
{
    return (uint64_t)view_number(image, at) << 32 | view_number(image, at + 4);
}

uint32_t view_blocks(const bytes *image)
{
    return (uint32_t)(image->length / BULGEFS_BLOCK_SIZE);
}

uint32_t view_table(const bytes *image)
{
    return BULGEFS_TABLE_BLOCKS(view_blocks(image));
}

uint32_t view_next(const bytes *image, uint32_t block)
{
    return view_number(image, BULGEFS_BLOCK_SIZE + 4 * (size_t)block);
}

int view_is_file(const entry *e)
{
    return e->type >= BULGEFS_MIN_FILE_TYPE && e->type <= BULGEFS_MAX_FILE_TYPE;
}

int view_is_directory(const entry *e)
{
    return e->type >= BULGEFS_MIN_DIRECTORY_TYPE && e->type <= BULGEFS_MAX_DIRECTORY_TYPE;
}

entry view_slot(const bytes *image, size_t offset, uint32_t slot)
{
    entry e;
    const uint8_t *p;
    memset(&e, 0, sizeof e);
    e.slot = slot;
    e.offset = offset;
    if (image->length < SLOT || offset > image->length - SLOT) return e;
    p = image->bytes + offset;
    e.type = p[0];
    e.user = p[1];
    e.group = p[2];
    e.permissions = p[3];
    e.first = view_number(image, offset + 4);
    e.size = view_number(image, offset + 8);
    e.blocks = view_number(image, offset + 12);
    e.created = view_time(image, offset + 16);
    e.modified = view_time(image, offset + 24);
    e.attribute_block = view_number(image, offset + 32);
    e.attribute_size = view_number(image, offset + 36);
    e.flags = view_number(image, offset + 40);
    while (e.name_length < BULGEFS_MAX_NAME && p[NAME_AT + e.name_length] != 0) e.name_length++;
    memcpy(e.name, p + NAME_AT, e.name_length);
    return e;
}

chain chain_of(const bytes *image, uint32_t first, uint32_t blocks)
{
    chain c;
    c.image = image;
    c.block = first;
    c.left = blocks < view_blocks(image) ? blocks : view_blocks(image);
    return c;
}

int chain_step(chain *c, uint32_t *block)
{
    if (c->left == 0 || c->block <= view_table(c->image) || c->block >= view_blocks(c->image)) return 0;
    *block = c->block;
    c->left--;
    c->block = view_next(c->image, c->block);
    return 1;
}

uint32_t chain_pieces(const bytes *image, uint32_t first, uint32_t blocks)
{
    chain c = chain_of(image, first, blocks);
    uint32_t block, last = 0, pieces = 0;
    while (chain_step(&c, &block)) {
        pieces += pieces == 0 || block != last + 1;
        last = block;
    }
    return pieces;
}

volume_info view_volume(const bytes *image)
{
    volume_info v;
    memset(&v, 0, sizeof v);
    v.numbers = bulgefs_info(image->bytes, image->length, v.labels, sizeof v.labels);
    return v;
}

/* No directory has more blocks than this, whatever a damaged entry says. */
static uint32_t view_directory_blocks(const entry *e)
{
    return e->blocks < BULGEFS_MAX_DIRECTORY_BLOCKS ? e->blocks : BULGEFS_MAX_DIRECTORY_BLOCKS;
}

entry view_root(const bytes *image)
{
    uint32_t first = view_table(image) + 1;
    entry e = view_slot(image, BULGEFS_BLOCK_SIZE * (size_t)first, 0);
    e.type = BULGEFS_PLAIN_DIRECTORY;
    e.first = first;
    e.blocks = view_directory_blocks(&e);
    e.size = 0;
    e.name_length = 0;
    e.name[0] = 0;
    return e;
}

/* A directory: the first length bytes of path, none for the root, and its entry. */
typedef struct { const bytes *image; const char *path; size_t length; entry self; } folder;

/* Where slot k of a directory stands in the image; 0 where its chain is wrong. */
static size_t slot_offset(const folder *f, uint32_t slot)
{
    chain c = chain_of(f->image, f->self.first, f->self.blocks);
    uint32_t block = 0, i;
    for (i = 0; i <= slot / 4; i++)
        if (!chain_step(&c, &block)) return 0;
    return BULGEFS_BLOCK_SIZE * (size_t)block + SLOT * (size_t)(slot % 4);
}

/*
 * Asks the library for the entry in the lowest slot, from the given one on, that
 * is not free, of the directory at the first length bytes of path, none for the
 * root; 0 if there is none.  The entry's offset is left 0.
 */
static int ask_entry(const bytes *image, const char *path, size_t length, uint32_t slot, entry *e)
{
    uint8_t name[BULGEFS_MAX_NAME + 1] = { 0 };
    const uint8_t *directory = (const uint8_t *)(length == 0 ? "/" : path);
    bulgefs_slot s = bulgefs_entry(image->bytes, image->length, directory, length == 0 ? 1 : length,
                                   slot, name, BULGEFS_MAX_NAME);
    memset(e, 0, sizeof *e);
    if (s.slot == 0) return 0;
    e->slot = s.slot;
    e->type = s.type;
    e->user = s.user;
    e->group = s.group;
    e->permissions = s.permissions;
    e->first = s.first;
    e->size = s.size;
    e->blocks = s.blocks;
    e->created = s.created;
    e->modified = s.modified;
    e->attribute_block = s.attribute_block;
    e->attribute_size = s.attribute_size;
    e->flags = s.flags;
    e->name_length = strlen((const char *)name);
    memcpy(e->name, name, sizeof name);
    return 1;
}

/* The entry in the lowest slot, from the given one on, that is not free; 0 if there is none. */
static int next_entry(const folder *f, uint32_t slot, entry *e)
{
    if (!ask_entry(f->image, f->path, f->length, slot, e)) return 0;
    e->offset = slot_offset(f, e->slot);
    return 1;
}

/* The same in plain C: the library checks the whole image for each entry that it tells. */
static int next_plain(const folder *f, uint32_t slot, entry *e)
{
    uint32_t end = BULGEFS_SLOTS_PER_BLOCK * view_directory_blocks(&f->self);
    size_t offset;
    for (; slot + 1 < end; slot++) {
        offset = slot_offset(f, slot);
        if (offset == 0) return 0;
        *e = view_slot(f->image, offset, slot);
        if (e->type != 0) return 1;
    }
    return 0;
}

static int find_name(const folder *f, const char *name, size_t length, entry *found)
{
    uint32_t slot = 1;
    while (next_entry(f, slot, found)) {
        if (found->name_length == length && memcmp(found->name, name, length) == 0) return 1;
        slot = found->slot + 1;
    }
    return 0;
}

uint32_t view_find(const bytes *image, const char *path, entry *found)
{
    folder f = { image, path, 0, view_root(image) };
    const char *rest = path;
    size_t length;
    if (*path != '/') return BULGEFS_NOT_FOUND;
    while (rest[0] == '/' && rest[1] != 0) {
        length = strcspn(rest + 1, "/");
        if (!view_is_directory(&f.self) || !find_name(&f, rest + 1, length, found)) return BULGEFS_NOT_FOUND;
        f.self = *found;
        rest += 1 + length;
        f.length = (size_t)(rest - path);
    }
    if (*rest == '/' && !view_is_directory(&f.self)) return BULGEFS_NOT_FOUND;
    *found = f.self;
    return 0;
}

uint32_t view_refusal(const bytes *image, const char *path)
{
    size_t length = strlen(path);
    uint32_t number;
    if (length > 1 && path[length - 1] == '/') length--;
    number = bulgefs_lookup(image->bytes, image->length, (const uint8_t *)path, length).number;
    return number == 0 ? BULGEFS_NOT_FOUND : number;
}

/* Where a visit of the tree is, and whom it tells. */
typedef struct {
    const bytes *image;
    char path[BULGEFS_MAX_PATH + 1];
    int recursive;
    uint8_t *seen;             /* of a scan: the first blocks of directories, each of which is visited once */
    int (*next)(const folder *, uint32_t, entry *);
    each_entry each;
    void *context;
} visit;

/* Whether a directory was not visited before; in a damaged image two entries may lead to one. */
static int is_new(visit *v, const entry *directory)
{
    if (v->seen == NULL) return 1;
    if (directory->first >= view_blocks(v->image) || v->seen[directory->first]) return 0;
    v->seen[directory->first] = 1;
    return 1;
}

static int visit_directory(visit *v, const entry *directory, size_t length, unsigned level)
{
    folder f = { v->image, v->path, length, *directory };
    uint32_t slot = 1;
    entry e;
    int stop;
    if (!is_new(v, directory)) return 0;

    while (v->next(&f, slot, &e)) {
        slot = e.slot + 1;
        if (length + 1 + e.name_length > BULGEFS_MAX_PATH) continue;
        v->path[length] = '/';
        memcpy(v->path + length + 1, e.name, e.name_length);
        v->path[length + 1 + e.name_length] = 0;
        stop = v->each(v->context, v->path, &e);
        if (stop == 0 && v->recursive && view_is_directory(&e) && level < BULGEFS_MAX_LEVELS)
            stop = visit_directory(v, &e, length + 1 + e.name_length, level + 1);
        if (stop != 0) return stop;
    }
    return 0;
}

int view_each(const bytes *image, const char *path, int recursive, each_entry each, void *context)
{
    visit v;
    entry at;
    size_t length = strlen(path);
    if (view_find(image, path, &at) != 0 || length > BULGEFS_MAX_PATH) return BULGEFS_NOT_FOUND;
    v.image = image;
    v.recursive = recursive;
    v.seen = NULL;
    v.next = next_entry;
    v.each = each;
    v.context = context;
    if (path[length - 1] == '/') length--;
    memcpy(v.path, path, length);
    v.path[length] = 0;
    if (view_is_file(&at)) return each(context, v.path, &at);
    return visit_directory(&v, &at, length, 0);
}

void view_scan(const bytes *image, each_entry each, void *context)
{
    visit v = { image, "", 1, take_memory(view_blocks(image)), next_plain, each, context };
    entry root = view_root(image);
    visit_directory(&v, &root, 0, 0);
    free(v.seen);
}

/* The offset is left out: the library tells none. */
static int same_entry(const entry *a, const entry *b)
{
    return a->slot == b->slot && a->type == b->type && a->user == b->user && a->group == b->group
        && a->permissions == b->permissions && a->first == b->first && a->size == b->size
        && a->blocks == b->blocks && a->created == b->created && a->modified == b->modified
        && a->attribute_block == b->attribute_block && a->attribute_size == b->attribute_size
        && a->flags == b->flags && a->name_length == b->name_length
        && memcmp(a->name, b->name, sizeof a->name) == 0;
}

entry view_told(const bytes *image, const char *path, const entry *scanned)
{
    entry told;
    ask_entry(image, path, (size_t)(strrchr(path, '/') - path), scanned->slot, &told);
    told.offset = scanned->offset;
    if (same_entry(&told, scanned)) return told;
    say("%s: internal error: the library tells another entry than the one read in plain C; nothing was changed", path);
    exit(FAILED);
}
