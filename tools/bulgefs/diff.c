/* diff A B: paths in one volume only, and what differs in those of both. */
#include <inttypes.h>
#include <stdlib.h>
#include <string.h>

#include "look.h"
#include "json.h"

enum { FIELDS = 8 };
typedef struct { const char *name; uint64_t a, b; } field;

typedef struct {
    const bytes *a, *b;
    int json;
    uint32_t only_a, only_b, both;
} comparison;

/* The fields of an entry that are not the same; blocks count for directories only. */
static int different_fields(const entry *a, const entry *b, field out[FIELDS])
{
    int directory = view_is_directory(a), count = 0, i;
    const field all[FIELDS] = {
        { "type", a->type, b->type }, { "user", a->user, b->user }, { "group", a->group, b->group },
        { "permissions", a->permissions, b->permissions }, { "flags", a->flags, b->flags },
        { "created", a->created, b->created }, { "modified", a->modified, b->modified },
        { "blocks", directory ? a->blocks : 0, directory ? b->blocks : 0 }
    };
    for (i = 0; i < FIELDS; i++)
        if (all[i].a != all[i].b) out[count++] = all[i];
    return count;
}

/* The first offset below length where two chains differ, or length. */
static size_t first_difference(chain a, chain b, size_t length)
{
    uint32_t x, y;
    size_t at = 0, i;
    while (at < length && chain_step(&a, &x) && chain_step(&b, &y)) {
        const uint8_t *p = a.image->bytes + BULGEFS_BLOCK_SIZE * (size_t)x;
        const uint8_t *q = b.image->bytes + BULGEFS_BLOCK_SIZE * (size_t)y;
        for (i = 0; i < BULGEFS_BLOCK_SIZE && at + i < length; i++)
            if (p[i] != q[i]) return at + i;
        at += BULGEFS_BLOCK_SIZE;
    }
    return length;
}

static size_t first_byte(const comparison *c, const entry *a, const entry *b)
{
    return first_difference(chain_of(c->a, a->first, a->blocks), chain_of(c->b, b->first, b->blocks),
                            a->size < b->size ? a->size : b->size);
}

static size_t first_attribute(const comparison *c, const entry *a, const entry *b)
{
    uint32_t blocks = a->attribute_size < b->attribute_size ? a->attribute_size : b->attribute_size;
    return first_difference(chain_of(c->a, a->attribute_block, a->attribute_size),
                            chain_of(c->b, b->attribute_block, b->attribute_size),
                            BULGEFS_BLOCK_SIZE * (size_t)blocks);
}

static void print_value(const char *name, uint64_t value)
{
    if (strcmp(name, "created") == 0 || strcmp(name, "modified") == 0) put_time(stdout, value);
    else if (strcmp(name, "permissions") == 0) put_permissions(stdout, (uint8_t)value);
    else if (strcmp(name, "type") == 0) printf("0x%02x", (unsigned)value);
    else printf("%" PRIu64, value);
}

static void print_parts(const comparison *c, const change *one)
{
    const entry *a = one->before, *b = one->after;
    field fields[FIELDS];
    int count = different_fields(a, b, fields), i;
    if (one->parts & CHANGED_BYTES)
        printf("    bytes differ from offset %zu on, sizes %" PRIu32 " and %" PRIu32 "\n",
               first_byte(c, a, b), a->size, b->size);
    if (one->parts & CHANGED_ATTRIBUTES)
        printf("    attributes differ from offset %zu on, %" PRIu32 " and %" PRIu32 " blocks\n",
               first_attribute(c, a, b), a->attribute_size, b->attribute_size);
    for (i = 0; i < count; i++) {
        printf("    %s ", fields[i].name);
        print_value(fields[i].name, fields[i].a);
        printf(" and ");
        print_value(fields[i].name, fields[i].b);
        printf("\n");
    }
}

static void json_parts(const comparison *c, const change *one)
{
    const entry *a = one->before, *b = one->after;
    field fields[FIELDS];
    int count = different_fields(a, b, fields), i;
    if (one->parts & CHANGED_BYTES)
        printf(",\"bytes\":{\"first\":%zu,\"sizes\":[%" PRIu32 ",%" PRIu32 "]}", first_byte(c, a, b),
               a->size, b->size);
    if (one->parts & CHANGED_ATTRIBUTES)
        printf(",\"attributes\":{\"first\":%zu,\"blocks\":[%" PRIu32 ",%" PRIu32 "]}",
               first_attribute(c, a, b), a->attribute_size, b->attribute_size);
    printf(",\"fields\":{");
    for (i = 0; i < count; i++)
        printf("%s\"%s\":[%" PRIu64 ",%" PRIu64 "]", i == 0 ? "" : ",", fields[i].name, fields[i].a,
               fields[i].b);
    printf("}");
}

static void print_change(const comparison *c, const change *one)
{
    const entry *e = one->before != NULL ? one->before : one->after;
    printf("%s ", one->kind == VANISHED ? "only in A:" : one->kind == APPEARED ? "only in B:" : "differ:   ");
    put_path(stdout, one->path);
    printf(view_is_directory(e) ? "/\n" : "\n");
    if (one->kind == CHANGED) print_parts(c, one);
}

static void print_json(const comparison *c, const change *one)
{
    printf("%s\n{\"path\":", c->only_a + c->only_b + c->both == 0 ? "" : ",");
    json_text(stdout, one->path);
    printf(",\"in\":\"%s\"", one->kind == VANISHED ? "a" : one->kind == APPEARED ? "b" : "both");
    if (one->kind == CHANGED) {
        json_parts(c, one);
    } else {
        printf(",\"entry\":");
        json_entry(stdout, one->path, one->kind == VANISHED ? one->before : one->after);
    }
    printf("}");
}

static int each_difference(void *context, const change *one)
{
    comparison *c = context;
    if (c->json) print_json(c, one);
    else print_change(c, one);
    c->only_a += one->kind == VANISHED;
    c->only_b += one->kind == APPEARED;
    c->both += one->kind == CHANGED;
    return 0;
}

static int compare_volumes(const bytes *a, const bytes *b, int json)
{
    comparison c = { a, b, json, 0, 0, 0 };
    int same;
    if (json) printf("{\"differences\":[");
    changes_each(a, b, each_difference, &c);
    same = c.only_a + c.only_b + c.both == 0;
    if (json)
        printf("%s],\"only_a\":%" PRIu32 ",\"only_b\":%" PRIu32 ",\"both\":%" PRIu32 ",\"same\":%s}\n",
               same ? "" : "\n", c.only_a, c.only_b, c.both, same ? "true" : "false");
    else if (same) printf("the same\n");
    else
        printf("%" PRIu32 " only in A, %" PRIu32 " only in B, %" PRIu32 " differ\n", c.only_a, c.only_b,
               c.both);
    return same ? DONE : REFUSED;
}

int command_diff(int argc, char **argv, const options *o)
{
    store a, b;
    int status;
    if (!good_arguments(&argc, argv, 2, 2)) return usage("diff A B");
    status = open_sound(&a, argv[1], o);
    if (status != DONE) return status;
    status = open_sound(&b, argv[2], o);
    if (status == DONE) {
        status = compare_volumes(&a.image, &b.image, o->json);
        store_close(&b);
    }
    store_close(&a);
    return status;
}
