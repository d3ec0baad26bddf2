/*
 * Finds the first fault of an image by the rules of docs/FORMAT.md section 4,
 * in the order of the check.  This is an explanation and not the verdict: the
 * verdict is the library's number.  Nothing here is proved, so the caller holds
 * the stage that is found against that number.
 */
#include <inttypes.h>
#include <stdlib.h>
#include <string.h>

#include "look.h"

#define SLOT 128u
#define NAME_AT 48u
#define NO_ENTRY SIZE_MAX      /* the root has none */

/* A directory that was visited, with its blocks in chain order. */
typedef struct { char *path; uint32_t count, blocks[BULGEFS_MAX_DIRECTORY_BLOCKS]; } folder;

/* Whose a block is: slot 0 is the directory itself. */
typedef struct { uint32_t folder, slot; int attributes; } claim;

typedef struct {
    const bytes *image;
    uint32_t n, t;
    folder *folders;
    uint32_t folder_count, folder_room;
    claim *claims;
    uint32_t claim_count, claim_room;
    uint32_t *owner;           /* of each block: 1 + its claim's index, 0 for none */
    char path[BULGEFS_MAX_PATH + BULGEFS_MAX_NAME + 2];
    fault fault;
} search;

#define EXPECTED(s, ...) snprintf((s)->fault.expected, sizeof (s)->fault.expected, __VA_ARGS__)
#define FOUND(s, ...) snprintf((s)->fault.found, sizeof (s)->fault.found, __VA_ARGS__)

const char *stage_name(uint32_t stage)
{
    static const char *const names[8] = {
        "none", "length", "signature and version", "geometry", "a directory's own form",
        "slots of a directory", "chains and table", "counts"
    };

    return stage < 8 ? names[stage] : "none";
}

/* Notes a fault; path is NULL where no path applies.  Always 1. */
static int fault_at(search *s, uint32_t stage, const char *rule, const char *path, long slot,
                    long block)
{
    s->fault.stage = stage;
    s->fault.rule = rule;
    s->fault.slot = slot;
    s->fault.block = block;
    snprintf(s->fault.path, sizeof s->fault.path, "%s", path == NULL ? "" : path);
    return 1;
}

/* A number that is not what it should be: notes the fault with both. */
static int wrong_number(search *s, uint32_t expected, uint32_t found)
{
    EXPECTED(s, "%" PRIu32, expected);
    FOUND(s, "%" PRIu32, found);
    return 1;
}

static size_t block_at(uint32_t block)
{
    return BULGEFS_BLOCK_SIZE * (size_t)block;
}

static int outside(const search *s, uint32_t block)
{
    return block <= s->t || block >= s->n;
}

/* ---- stages 1 to 3: the header ---- */

static int length_fault(search *s)
{
    size_t length = s->image->length;

    if (length % BULGEFS_BLOCK_SIZE == 0 && s->n >= BULGEFS_MIN_BLOCKS && s->n <= BULGEFS_MAX_BLOCKS)
        return 0;
    EXPECTED(s, "a multiple of 512 from 1536 to 33554432 bytes");
    if (length / BULGEFS_BLOCK_SIZE >= BULGEFS_MAX_BLOCKS)
        FOUND(s, "more than 33554432 bytes");
    else
        FOUND(s, "%zu bytes", length);
    return fault_at(s, 1, "the length is 512 times the blocks, 3 to 65536 of them", NULL, -1, -1);
}

static void put_hex(char *to, const uint8_t *from, size_t length)
{
    size_t i;

    for (i = 0; i < length; i++)
        sprintf(to + 3 * i, i + 1 < length ? "%02x " : "%02x", from[i]);
}

static int signature_fault(search *s)
{
    static const uint8_t right[12] = "BulgeFS!\0\1\0";
    size_t at = memcmp(s->image->bytes, right, 8) != 0 ? 0 : 8, length = at == 0 ? 8 : 4;

    if (memcmp(s->image->bytes, right, 12) == 0)
        return 0;
    put_hex(s->fault.expected, right + at, length);
    put_hex(s->fault.found, s->image->bytes + at, length);
    return fault_at(s, 2, at == 0 ? "bytes 0 to 7 are the signature BulgeFS!"
                                  : "bytes 8 to 11 are the version", NULL, -1, 0);
}

static int header_number(search *s, uint32_t stage, size_t at, uint32_t expected, const char *rule)
{
    uint32_t found = view_number(s->image, at);

    if (found == expected)
        return 0;
    wrong_number(s, expected, found);
    return fault_at(s, stage, rule, NULL, -1, 0);
}

static int geometry_fault(search *s)
{
    return header_number(s, 3, 12, s->n, "total blocks, at offset 12, are the image's blocks")
        || header_number(s, 3, 16, s->t,
                         "table blocks, at offset 16, are a 128th of the blocks, rounded up")
        || header_number(s, 3, 28, s->t + 1,
                         "the root block, at offset 28, is the first behind the table");
}

/* ---- claims ---- */

static size_t slot_at(const folder *f, uint32_t slot)
{
    return block_at(f->blocks[slot / 4]) + SLOT * (size_t)(slot % 4);
}

/* The path of a slot's entry; of slot 0 the directory's own. */
static void slot_path(const search *s, const folder *f, uint32_t slot, char *to, size_t room)
{
    entry e = view_slot(s->image, slot_at(f, slot), slot);

    if (slot == 0)
        snprintf(to, room, "%s", f->path);
    else
        snprintf(to, room, "%s/%.*s", f->path[1] == 0 ? "" : f->path, (int)e.name_length,
                 (const char *)e.name);
}

/* Notes who has a block that was met a second time. */
static void found_owner(search *s, uint32_t block)
{
    const claim *c = &s->claims[s->owner[block] - 1];
    char path[sizeof s->path];

    slot_path(s, &s->folders[c->folder], c->slot, path, sizeof path);
    EXPECTED(s, "a block that no other chain has");
    FOUND(s, "block %" PRIu32 ", which %s %s has", block,
          c->slot == 0 ? "the directory" : c->attributes ? "the attributes of" : "the file", path);
}

static uint32_t claim_new(search *s, uint32_t folder, uint32_t slot, int attributes)
{
    claim *c;

    if (s->claim_count == s->claim_room) {
        s->claim_room = s->claim_room == 0 ? 64 : 2 * s->claim_room;
        s->claims = take_more(s->claims, s->claim_room * sizeof *s->claims);
    }
    c = &s->claims[s->claim_count++];
    c->folder = folder;
    c->slot = slot;
    c->attributes = attributes;
    return s->claim_count;
}

/* ---- stage 4: a directory's own form ---- */

static int form_place(search *s, uint32_t first, size_t entry, unsigned level)
{
    long block = entry == NO_ENTRY ? 0 : (long)(entry / BULGEFS_BLOCK_SIZE);

    if (level > BULGEFS_MAX_LEVELS) {
        EXPECTED(s, "at most 8");
        FOUND(s, "%u", level);
        return fault_at(s, 4, "a directory is at most 8 levels below the root", s->path, -1, block);
    }
    if (outside(s, first)) {
        EXPECTED(s, "a block from %" PRIu32 " to %" PRIu32, s->t + 1, s->n - 1);
        FOUND(s, "%" PRIu32, first);
        return fault_at(s, 4, "the first block of a directory is behind the table and in the image",
                        s->path, -1, block);
    }
    return 0;
}

static int form_self(search *s, uint32_t first, uint32_t parent)
{
    size_t at = block_at(first);
    uint8_t type = s->image->bytes[at];
    uint32_t d = view_number(s->image, at + 12);

    if (type != 0x01) {
        EXPECTED(s, "0x01");
        FOUND(s, "0x%02x", type);
        return fault_at(s, 4, "slot 0 has the type of a self entry", s->path, 0, first);
    }
    if (view_number(s->image, at + 4) != first) {
        wrong_number(s, first, view_number(s->image, at + 4));
        return fault_at(s, 4, "the self entry has the directory's own first block", s->path, 0, first);
    }
    if (view_number(s->image, at + 8) != parent) {
        wrong_number(s, parent, view_number(s->image, at + 8));
        return fault_at(s, 4, "the self entry has the first block of the directory above", s->path, 0,
                        first);
    }
    if (d < 1 || d > BULGEFS_MAX_DIRECTORY_BLOCKS) {
        EXPECTED(s, "1 to 64");
        FOUND(s, "%" PRIu32, d);
        return fault_at(s, 4, "the self entry has the directory's number of blocks", s->path, 0, first);
    }
    return 0;
}

/* What the entry of a child and its self entry must agree on. */
static int form_entry(search *s, uint32_t first, size_t entry_at)
{
    const uint8_t *name = s->image->bytes + block_at(first) + NAME_AT;
    entry in_self = view_slot(s->image, block_at(first), 0), above;

    if (entry_at == NO_ENTRY)
        return 0;
    above = view_slot(s->image, entry_at, 0);
    if (in_self.blocks != above.blocks) {
        wrong_number(s, above.blocks, in_self.blocks);
        return fault_at(s, 4, "the self entry has as many blocks as the directory's entry", s->path, 0,
                        first);
    }
    if (memcmp(s->image->bytes + entry_at + NAME_AT, name, BULGEFS_MAX_NAME) != 0) {
        EXPECTED(s, "'%.*s' and then zeros", (int)above.name_length, (const char *)above.name);
        FOUND(s, "'%.*s'%s", (int)in_self.name_length, (const char *)in_self.name,
              strcmp((const char *)in_self.name, (const char *)above.name) == 0
              ? " and then another byte" : "");
        return fault_at(s, 4, "the self entry has the name of the directory's entry", s->path, 0, first);
    }
    return 0;
}

/* Follows a directory's chain and claims its blocks. */
static int form_chain(search *s, uint32_t first, folder *f, uint32_t owner)
{
    uint32_t block = first, last = first, i;

    for (i = 0; i < f->count; i++) {
        if (outside(s, block)) {
            EXPECTED(s, "a block from %" PRIu32 " to %" PRIu32, s->t + 1, s->n - 1);
            FOUND(s, "%" PRIu32 " as block %" PRIu32 " of %" PRIu32, block, i + 1, f->count);
            return fault_at(s, 4, "the chain of a directory stays in the image", s->path, -1, last);
        }
        if (s->owner[block] != 0) {
            found_owner(s, block);
            return fault_at(s, 4, "no block of a directory is another one's, or its own twice",
                            s->path, -1, block);
        }
        s->owner[block] = owner;
        f->blocks[i] = last = block;
        block = view_next(s->image, block);
    }
    if (block != 1) {
        wrong_number(s, 1, block);
        return fault_at(s, 4, "the table entry of a directory's last block is 1", s->path, -1, last);
    }
    return 0;
}

static folder *folder_new(search *s)
{
    folder *f;

    if (s->folder_count == s->folder_room) {
        s->folder_room = s->folder_room == 0 ? 16 : 2 * s->folder_room;
        s->folders = take_more(s->folders, s->folder_room * sizeof *s->folders);
    }
    f = &s->folders[s->folder_count++];
    f->path = take_memory(strlen(s->path) + 1);
    strcpy(f->path, s->path);
    return f;
}

static int form_fault(search *s, uint32_t first, uint32_t parent, size_t entry, unsigned level)
{
    folder *f;

    if (form_place(s, first, entry, level) || form_self(s, first, parent)
        || form_entry(s, first, entry))
        return 1;
    f = folder_new(s);
    f->count = view_number(s->image, block_at(first) + 12);
    f->blocks[0] = first;
    return form_chain(s, first, f, claim_new(s, s->folder_count - 1, 0, 0));
}

/* ---- stage 5: the slots of a directory ---- */

static int slot_fault(search *s, uint32_t folder, uint32_t slot, const char *rule)
{
    const char *path = s->folders[folder].path;

    return fault_at(s, 5, rule, path, slot, s->folders[folder].blocks[slot / 4]);
}

static int name_fault(search *s, uint32_t folder, uint32_t slot)
{
    const uint8_t *name = s->image->bytes + slot_at(&s->folders[folder], slot) + NAME_AT;
    size_t length = 0, i;

    while (length < BULGEFS_MAX_NAME && name[length] != 0 && name[length] != '/')
        length++;
    EXPECTED(s, "1 to 80 bytes, none of them 0x00 or '/', and then zeros");
    if (length < BULGEFS_MAX_NAME && name[length] == '/') {
        FOUND(s, "'/' as byte %zu", length);
        return slot_fault(s, folder, slot, "the slot has a good name");
    }
    if (length == 0) {
        FOUND(s, "no name");
        return slot_fault(s, folder, slot, "the slot has a good name");
    }
    for (i = length; i < BULGEFS_MAX_NAME && name[i] == 0; i++)
        ;
    if (i < BULGEFS_MAX_NAME) {
        FOUND(s, "0x%02x as byte %zu, behind a name of %zu bytes", name[i], i, length);
        return slot_fault(s, folder, slot, "zeros follow the name");
    }
    return 0;
}

static int twice_fault(search *s, uint32_t folder, uint32_t slot)
{
    const uint8_t *at = s->image->bytes + slot_at(&s->folders[folder], slot), *other;
    uint32_t earlier;

    for (earlier = 1; earlier < slot; earlier++) {
        other = s->image->bytes + slot_at(&s->folders[folder], earlier);
        if (other[0] == 0 || memcmp(other + NAME_AT, at + NAME_AT, BULGEFS_MAX_NAME) != 0)
            continue;
        EXPECTED(s, "a name that no earlier slot has");
        FOUND(s, "the name of slot %" PRIu32, earlier);
        slot_fault(s, folder, slot, "no two entries of a directory have the same name");
        slot_path(s, &s->folders[folder], slot, s->fault.path, sizeof s->fault.path);
        return 1;
    }
    return 0;
}

/* A fault of a slot whose name is known: the path is the entry's own. */
static int entry_fault(search *s, uint32_t folder, uint32_t slot, const char *rule)
{
    slot_fault(s, folder, slot, rule);
    slot_path(s, &s->folders[folder], slot, s->fault.path, sizeof s->fault.path);
    return 1;
}

static int file_fault(search *s, uint32_t folder, uint32_t slot, const entry *e)
{
    uint32_t blocks = e->size / BULGEFS_BLOCK_SIZE + (e->size % BULGEFS_BLOCK_SIZE != 0);

    if (e->blocks != blocks) {
        wrong_number(s, blocks, e->blocks);
        return entry_fault(s, folder, slot, "a file's blocks are its bytes divided by 512, rounded up");
    }
    if ((e->first == 0) != (e->size == 0)) {
        EXPECTED(s, e->size == 0 ? "first block 0, as the size is 0" : "a first block other than 0");
        FOUND(s, "first block %" PRIu32 ", size %" PRIu32, e->first, e->size);
        return entry_fault(s, folder, slot, "a file has a first block exactly if it has bytes");
    }
    if ((e->attribute_block == 0) == (e->attribute_size == 0)
        && e->attribute_size <= BULGEFS_MAX_ATTRIBUTE_BLOCKS)
        return 0;
    EXPECTED(s, "both 0, or an attribute block and a size of 1 to 8");
    FOUND(s, "attribute block %" PRIu32 ", size %" PRIu32, e->attribute_block, e->attribute_size);
    return entry_fault(s, folder, slot, "the two attribute fields go together");
}

static int child_fault(search *s, uint32_t folder, uint32_t slot, const entry *e)
{
    if (e->size != 0) {
        wrong_number(s, 0, e->size);
        return entry_fault(s, folder, slot, "a directory's size in bytes is 0");
    }
    if (e->attribute_block == 0 && e->attribute_size == 0)
        return 0;
    EXPECTED(s, "0 and 0");
    FOUND(s, "attribute block %" PRIu32 ", size %" PRIu32, e->attribute_block, e->attribute_size);
    return entry_fault(s, folder, slot, "a directory has no attributes");
}

static int visit(search *s, uint32_t first, uint32_t parent, size_t entry_at, unsigned level);

/* One slot from 1 to 4 d - 2, and all below it. */
static int visit_slot(search *s, uint32_t folder, uint32_t slot, unsigned level)
{
    size_t at = slot_at(&s->folders[folder], slot);
    entry e = view_slot(s->image, at, slot);

    if (e.type == 0)
        return 0;
    if (!view_is_file(&e) && !view_is_directory(&e)) {
        EXPECTED(s, "0x00 free, 0x20 to 0x5f a directory, 0x60 to 0x9f a file");
        FOUND(s, "0x%02x", e.type);
        return slot_fault(s, folder, slot, "the type of a slot is known");
    }
    if (name_fault(s, folder, slot) || twice_fault(s, folder, slot))
        return 1;
    if (view_is_file(&e))
        return file_fault(s, folder, slot, &e);
    if (child_fault(s, folder, slot, &e))
        return 1;
    slot_path(s, &s->folders[folder], slot, s->path, sizeof s->path);
    return visit(s, e.first, s->folders[folder].blocks[0], at, level + 1);
}

/* The visit of section 4.1. */
static int visit(search *s, uint32_t first, uint32_t parent, size_t entry_at, unsigned level)
{
    uint32_t folder = s->folder_count, slot, end;
    uint8_t type;

    if (form_fault(s, first, parent, entry_at, level))
        return 1;
    end = 4 * s->folders[folder].count - 1;
    type = s->image->bytes[slot_at(&s->folders[folder], end)];
    if (type != 0xFF) {
        EXPECTED(s, "0xff");
        FOUND(s, "0x%02x", type);
        return slot_fault(s, folder, end, "the last slot of a directory has the type of the end");
    }
    for (slot = 1; slot < end; slot++)
        if (visit_slot(s, folder, slot, level))
            return 1;
    return 0;
}

/* ---- stage 6: chains and table ---- */

static int chain_fault(search *s, uint32_t folder, uint32_t slot, const char *rule, long block)
{
    slot_path(s, &s->folders[folder], slot, s->path, sizeof s->path);
    return fault_at(s, 6, rule, s->path, slot, block);
}

static int follow(search *s, uint32_t folder, uint32_t slot, int attributes, uint32_t first,
                  uint32_t count)
{
    uint32_t owner = count == 0 ? 0 : claim_new(s, folder, slot, attributes), block = first, i;
    long last = s->folders[folder].blocks[slot / 4];

    for (i = 0; i < count; i++) {
        if (outside(s, block)) {
            EXPECTED(s, "a block from %" PRIu32 " to %" PRIu32, s->t + 1, s->n - 1);
            FOUND(s, "%" PRIu32 " as block %" PRIu32 " of %" PRIu32, block, i + 1, count);
            return chain_fault(s, folder, slot, attributes ? "the attributes' chain stays in the image"
                               : "the file's chain stays in the image", last);
        }
        if (s->owner[block] != 0) {
            found_owner(s, block);
            return chain_fault(s, folder, slot, "no block stands in two chains, or in one twice", block);
        }
        s->owner[block] = owner;
        last = block;
        block = view_next(s->image, block);
    }
    if (count == 0 || block == 1)
        return 0;
    wrong_number(s, 1, block);
    return chain_fault(s, folder, slot, attributes ? "the table entry of the attributes' last block is 1"
                       : "the table entry of the file's last block is 1", last);
}

static int files_fault(search *s)
{
    uint32_t folder, slot;
    entry e;

    for (folder = 0; folder < s->folder_count; folder++)
        for (slot = 1; slot < 4 * s->folders[folder].count - 1; slot++) {
            e = view_slot(s->image, slot_at(&s->folders[folder], slot), slot);
            if (view_is_file(&e)
                && (follow(s, folder, slot, 0, e.first, e.blocks)
                    || follow(s, folder, slot, 1, e.attribute_block, e.attribute_size)))
                return 1;
        }
    return 0;
}

static int table_fault(search *s)
{
    uint32_t b, expected, found;
    const char *rule;

    for (b = 0; b < 128 * s->t; b++) {
        found = view_next(s->image, b);
        expected = b <= s->t ? 1 : 0;
        if (found == expected || (b > s->t && b < s->n && s->owner[b] != 0))
            continue;
        rule = b <= s->t ? "the table entries of header and table are 1"
             : b < s->n ? "the table entry of a block in no chain is 0"
             : "the table entries behind the last block are 0";
        wrong_number(s, expected, found);
        return fault_at(s, 6, rule, NULL, -1, b);
    }
    return 0;
}

/* ---- stage 7: counts ---- */

static int counts_fault(search *s)
{
    uint32_t used = 0, b;

    for (b = 0; b < s->n; b++)
        used += view_next(s->image, b) != 0;
    return header_number(s, 7, 20, used, "occupied blocks, at offset 20, are the entries other than 0")
        || header_number(s, 7, 24, s->n - used, "free blocks, at offset 24, are the others");
}

static void search_free(search *s)
{
    uint32_t i;

    for (i = 0; i < s->folder_count; i++)
        free(s->folders[i].path);
    free(s->folders);
    free(s->claims);
    free(s->owner);
}

fault explain(const bytes *image)
{
    search s;

    memset(&s, 0, sizeof s);
    s.image = image;
    s.n = view_blocks(image);
    s.t = view_table(image);
    s.fault.slot = s.fault.block = -1;
    if (length_fault(&s) || signature_fault(&s) || geometry_fault(&s))
        return s.fault;
    s.owner = take_memory(s.n * sizeof *s.owner);
    strcpy(s.path, "/");
    if (!visit(&s, s.t + 1, s.t + 1, NO_ENTRY, 0) && !files_fault(&s) && !table_fault(&s))
        counts_fault(&s);
    search_free(&s);
    return s.fault;
}
