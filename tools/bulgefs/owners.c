/* The tree of a sound image as a list, as the library tells it or in plain C, and the owner of each block, by chains walked in plain C. */
#include <stdlib.h>
#include <string.h>

#include "look.h"

const char *const use_names[USE_KINDS] = {
    "free", "header", "table", "directory", "file", "attributes"
};
const char *const use_words[USE_KINDS] = {
    "free", "header", "table", "folder", "file", "attributes"
};
const char use_letters[USE_KINDS + 1] = ".HTDFA";

static int listing_add(void *context, const char *path, const entry *e)
{
    listing *list = context;
    listed *item;
    if (list->count == list->room) {
        list->room = list->room == 0 ? 64 : 2 * list->room;
        list->items = take_more(list->items, list->room * sizeof *list->items);
    }
    item = &list->items[list->count++];
    item->path = take_memory(strlen(path) + 1);
    strcpy(item->path, path);
    item->entry = *e;
    return 0;
}

listing listing_below(const bytes *image, const char *path)
{
    listing list = { NULL, 0, 0 };
    view_each(image, path, 1, listing_add, &list);
    return list;
}

listing listing_read(const bytes *image)
{
    return listing_below(image, "/");
}

listing listing_scan(const bytes *image)
{
    listing list = { NULL, 0, 0 };
    view_scan(image, listing_add, &list);
    return list;
}

void listing_free(listing *list)
{
    size_t i;
    for (i = 0; i < list->count; i++) free(list->items[i].path);
    free(list->items);
    list->items = NULL;
    list->count = list->room = 0;
}

totals listing_totals(const bytes *image, const listing *list)
{
    totals sum = { 0, 0, 0, 0, 0, 0 };
    size_t i;
    for (i = 0; i < list->count; i++) {
        const entry *e = &list->items[i].entry;
        if (!view_is_file(e)) {
            sum.directories++;
            continue;
        }
        sum.files++;
        sum.file_bytes += e->size;
        sum.with_attributes += e->attribute_size != 0;
        sum.with_flags += e->flags != 0;
        sum.in_pieces += chain_pieces(image, e->first, e->blocks) > 1;
    }
    return sum;
}

static void owners_chain(block_use *blocks, const bytes *image, uint32_t first, uint32_t count,
                         block_use as)
{
    chain c = chain_of(image, first, count);
    uint32_t block;
    for (as.index = 0; chain_step(&c, &block); as.index++) blocks[block] = as;
}

block_use *owners_read(const bytes *image, const listing *list)
{
    uint32_t n = view_blocks(image), t = view_table(image), b;
    block_use *blocks = take_memory((n == 0 ? 1 : n) * sizeof *blocks);
    block_use as = { USE_DIRECTORY, NO_OWNER, 0 };
    entry root = view_root(image);
    size_t i;
    for (b = 0; b < n; b++) {
        blocks[b].use = b == 0 ? USE_HEADER : b <= t ? USE_TABLE : USE_FREE;
        blocks[b].owner = NO_OWNER;
        blocks[b].index = 0;
    }
    owners_chain(blocks, image, root.first, root.blocks, as);
    for (i = 0; i < list->count; i++) {
        const entry *e = &list->items[i].entry;
        as.owner = (uint32_t)i;
        as.use = view_is_directory(e) ? USE_DIRECTORY : USE_FILE;
        owners_chain(blocks, image, e->first, e->blocks, as);
        as.use = USE_ATTRIBUTES;
        owners_chain(blocks, image, e->attribute_block, e->attribute_size, as);
    }
    return blocks;
}

const char *owner_path(const listing *list, const block_use *b)
{
    if (b->owner < list->count) return list->items[b->owner].path;
    return b->use == USE_DIRECTORY ? "/" : "";
}

cell cell_of(const block_use *blocks, uint32_t n, uint32_t first, uint32_t width)
{
    cell c;
    uint32_t b;
    int use;
    memset(&c, 0, sizeof c);
    c.first = first;
    for (b = first; b < n && b - first < width; b++) {
        c.counts[blocks[b].use]++;
        c.blocks++;
    }
    for (use = 1; use < USE_KINDS; use++)
        if (c.counts[use] > 0 && (c.main_use == USE_FREE || c.counts[use] > c.counts[c.main_use])) c.main_use = use;
    return c;
}
