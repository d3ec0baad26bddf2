/* changes.c - which paths differ between two sound images. */
#include <stdlib.h>
#include <string.h>

#include "look.h"

typedef struct { const bytes *image; listing list; } side;

static int by_path(const void *a, const void *b)
{
    return strcmp(((const listed *)a)->path, ((const listed *)b)->path);
}

static side side_of(const bytes *image)
{
    side s = { image, listing_scan(image) };
    if (s.list.count) qsort(s.list.items, s.list.count, sizeof *s.list.items, by_path);
    return s;
}

/* If the first length bytes of two chains are equal. */
static int same_content(chain a, chain b, size_t length)
{
    uint32_t block_a, block_b;
    while (length && chain_step(&a, &block_a) && chain_step(&b, &block_b)) {
        size_t part = length < BULGEFS_BLOCK_SIZE ? length : BULGEFS_BLOCK_SIZE;
        const uint8_t *from = a.image->bytes + (size_t)block_a * BULGEFS_BLOCK_SIZE;
        if (memcmp(from, b.image->bytes + (size_t)block_b * BULGEFS_BLOCK_SIZE, part)) return 0;
        length -= part;
    }
    return length == 0;
}

static int same_bytes(const side *a, const entry *x, const side *b, const entry *y)
{
    if (x->size != y->size) return 0;
    return same_content(chain_of(a->image, x->first, x->blocks), chain_of(b->image, y->first, y->blocks), x->size);
}

static int same_attributes(const side *a, const entry *x, const side *b, const entry *y)
{
    if (x->attribute_size != y->attribute_size) return 0;
    return same_content(chain_of(a->image, x->attribute_block, x->attribute_size),
                        chain_of(b->image, y->attribute_block, y->attribute_size),
                        (size_t)x->attribute_size * BULGEFS_BLOCK_SIZE);
}

static unsigned compare(const side *a, const entry *x, const side *b, const entry *y)
{
    unsigned parts = 0;
    if (x->type != y->type) parts |= CHANGED_TYPE;
    if (x->user != y->user || x->group != y->group || x->permissions != y->permissions) parts |= CHANGED_OWNER;
    if (x->created != y->created || x->modified != y->modified) parts |= CHANGED_TIMES;
    if (x->flags != y->flags) parts |= CHANGED_FLAGS;
    if (view_is_directory(x)) return x->blocks != y->blocks ? parts | CHANGED_BLOCKS : parts;
    if (!same_bytes(a, x, b, y)) parts |= CHANGED_BYTES;
    if (!same_attributes(a, x, b, y)) parts |= CHANGED_ATTRIBUTES;
    return parts;
}

static int only_one(each_change call, void *ctx, int kind, const side *from, const listed *item)
{
    entry told = view_told(from->image, item->path, &item->entry);
    change one = { kind, 0, item->path, NULL, NULL };
    if (kind == VANISHED) one.before = &told;
    else one.after = &told;
    return call(ctx, &one);
}

static int changed(each_change call, void *ctx, const side *a, const listed *x, const side *b, const listed *y)
{
    unsigned parts = compare(a, &x->entry, b, &y->entry);
    entry before, after;
    change one = { CHANGED, parts, x->path, &before, &after };
    if (!parts) return 0;
    before = view_told(a->image, x->path, &x->entry);
    after = view_told(b->image, y->path, &y->entry);
    return call(ctx, &one);
}

static int both(each_change call, void *ctx, const side *a, const listed *x, const side *b, const listed *y)
{
    int result;
    if (view_is_directory(&x->entry) == view_is_directory(&y->entry)) return changed(call, ctx, a, x, b, y);
    result = only_one(call, ctx, VANISHED, a, x);
    return result ? result : only_one(call, ctx, APPEARED, b, y);
}

static int merge(const side *a, const side *b, each_change call, void *ctx)
{
    const listed *x = a->list.items, *y = b->list.items;
    size_t left = a->list.count, right = b->list.count;
    int result = 0;
    while ((left || right) && !result) {
        int order = !left ? 1 : !right ? -1 : strcmp(x->path, y->path);
        if (order < 0) result = only_one(call, ctx, VANISHED, a, x);
        else if (order > 0) result = only_one(call, ctx, APPEARED, b, y);
        else result = both(call, ctx, a, x, b, y);
        if (order <= 0) x++, left--;
        if (order >= 0) y++, right--;
    }
    return result;
}

int changes_each(const bytes *before, const bytes *after, each_change call, void *ctx)
{
    side a = side_of(before), b = side_of(after);
    int result = merge(&a, &b, call, ctx);
    listing_free(&a.list);
    listing_free(&b.list);
    return result;
}

static const char *const part_names[] = { "bytes", "attributes", "times", "type", "owner", "flags", "blocks" };

void put_parts(FILE *out, unsigned parts)
{
    const char *between = "";
    for (size_t i = 0; i < sizeof part_names / sizeof *part_names; i++) {
        if (!(parts >> i & 1)) continue;
        fprintf(out, "%s%s", between, part_names[i]);
        between = ", ";
    }
}

void put_change(FILE *out, const change *one)
{
    fprintf(out, "%c ", one->kind);
    put_text(out, (const uint8_t *)one->path, strlen(one->path));
    if (one->after ? view_is_directory(one->after) : view_is_directory(one->before)) fputc('/', out);
    if (one->parts) {
        fputs(" (", out);
        put_parts(out, one->parts);
        fputc(')', out);
    }
    fputc('\n', out);
}

void json_change(FILE *out, const change *one)
{
    const char *kind = one->kind == APPEARED ? "appeared" : one->kind == VANISHED ? "vanished" : "changed";
    const char *between = "";
    fprintf(out, "{\"change\":\"%s\",\"path\":", kind);
    json_text(out, one->path);
    fputs(",\"parts\":[", out);
    for (size_t i = 0; i < sizeof part_names / sizeof *part_names; i++) {
        if (!(one->parts >> i & 1)) continue;
        fprintf(out, "%s\"%s\"", between, part_names[i]);
        between = ",";
    }
    fputs("]}", out);
}
