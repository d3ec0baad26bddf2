/* info VOLUME [PATH]: the volume and its journal in numbers, or all fields of one entry. */
#include <inttypes.h>
#include <stdlib.h>
#include <string.h>

#include "look.h"
#include "json.h"

static void line(const char *name)
{
    printf("%-12s", name);
}

static void print_volume(const bytes *image, const totals *sum)
{
    volume_info volume = view_volume(image);
    const uint8_t *name;
    size_t length = volume_name(&volume, &name);
    entry root = view_root(image);
    line("name");
    put_text(stdout, name, length);
    printf("\n");
    line("uuid");
    put_uuid(stdout, &volume);
    printf("\n");
    line("blocks");
    printf("%" PRIu32 ", used %" PRIu32 ", free %" PRIu32 "\n", volume.numbers.blocks,
           volume.numbers.used, volume.numbers.free);
    line("table");
    put_count(stdout, view_table(image), "block", "blocks");
    printf("\n");
    line("root");
    put_count(stdout, root.blocks, "block", "blocks");
    printf(" from %" PRIu32 " on, room for %" PRIu32 ", created ", root.first,
           BULGEFS_MAX_FILES(root.blocks));
    put_time(stdout, root.created);
    printf("\n");
    line("folders");
    printf("%" PRIu32 " below the root\n", sum->directories);
    line("files");
    printf("%" PRIu32 " of %" PRIu64 " bytes; %" PRIu32 " with attributes, %" PRIu32
           " with flags, %" PRIu32 " in more than one piece\n", sum->files, sum->file_bytes,
           sum->with_attributes, sum->with_flags, sum->in_pieces);
}

static void print_journal(const store *s)
{
    record_list list = { NULL, 0, 0, 0 };
    line("journal");
    if (s->journal.bytes == NULL) printf("none\n");
    else if (steps_list(s, &list) != 0) printf("not well formed\n");
    else
        printf("%zu bytes, used %" PRIu32 ", %zu records in %" PRIu32 " steps\n", s->journal.length,
               list.used, list.count, list.steps);
    free(list.records);
}

static void json_journal(const store *s)
{
    record_list list = { NULL, 0, 0, 0 };
    if (s->journal.bytes == NULL) printf(",\"journal\":null");
    else if (steps_list(s, &list) != 0) printf(",\"journal\":{\"length\":%zu,\"well_formed\":false}", s->journal.length);
    else
        printf(",\"journal\":{\"length\":%zu,\"well_formed\":true,\"used\":%" PRIu32
               ",\"records\":%zu,\"steps\":%" PRIu32 "}", s->journal.length, list.used, list.count,
               list.steps);
    free(list.records);
}

static void json_volume(const store *s, const totals *sum)
{
    const bytes *image = &s->image;
    volume_info volume = view_volume(image);
    const uint8_t *name;
    size_t length = volume_name(&volume, &name);
    entry root = view_root(image);
    printf("{\"name\":");
    json_string(stdout, name, length);
    printf(",\"uuid\":\"");
    put_uuid(stdout, &volume);
    printf("\",\"blocks\":%" PRIu32 ",\"used\":%" PRIu32 ",\"free\":%" PRIu32
           ",\"table_blocks\":%" PRIu32, volume.numbers.blocks, volume.numbers.used,
           volume.numbers.free, view_table(image));
    printf(",\"root_block\":%" PRIu32 ",\"root_blocks\":%" PRIu32 ",\"created\":%" PRIu64,
           root.first, root.blocks, root.created);
    printf(",\"directories\":%" PRIu32 ",\"files\":%" PRIu32 ",\"bytes\":%" PRIu64,
           sum->directories, sum->files, sum->file_bytes);
    printf(",\"with_attributes\":%" PRIu32 ",\"with_flags\":%" PRIu32 ",\"in_pieces\":%" PRIu32,
           sum->with_attributes, sum->with_flags, sum->in_pieces);
    json_journal(s);
    printf("}\n");
}

/* The blocks of a chain as stretches, in plain C: "4-7 12". */
static void print_chain(const char *name, const bytes *image, uint32_t first, uint32_t count)
{
    chain c = chain_of(image, first, count);
    uint32_t block, start = 0, last = 0;
    if (count == 0) return;
    line(name);
    while (chain_step(&c, &block)) {
        if (start != 0 && block == last + 1) {
            last = block;
            continue;
        }
        if (start != 0) printf(start == last ? "%" PRIu32 " " : "%" PRIu32 "-%" PRIu32 " ", start, last);
        start = last = block;
    }
    if (start != 0) printf(start == last ? "%" PRIu32 : "%" PRIu32 "-%" PRIu32, start, last);
    printf("\n");
}

static void print_entry(const bytes *image, const char *path, const entry *e)
{
    line("path");
    put_path(stdout, path);
    printf("\n");
    line("type");
    printf("0x%02x, %s\n", e->type, view_is_directory(e) ? "folder" : "file");
    line("size");
    put_count(stdout, e->size, "byte", "bytes");
    printf(", ");
    put_count(stdout, e->blocks, "block", "blocks");
    printf("\n");
    line("slot");
    printf("%" PRIu32 ", in block %zu\n", e->slot, e->offset / BULGEFS_BLOCK_SIZE);
    line("user, group");
    printf("%u, %u\n", e->user, e->group);
    line("permissions");
    put_permissions(stdout, e->permissions);
    printf("\n");
    line("created");
    put_time(stdout, e->created);
    printf("\n");
    line("modified");
    put_time(stdout, e->modified);
    printf("\n");
    line("flags");
    printf("%" PRIu32 "\n", e->flags);
    print_chain("blocks", image, e->first, e->blocks);
    print_chain("attributes", image, e->attribute_block, e->attribute_size);
}

static int info_entry(const store *s, const char *path, int json)
{
    entry e;
    if (view_find(&s->image, path, &e) != 0) return refuse_path(s, view_refusal(&s->image, path), path);
    if (json) {
        json_entry(stdout, path, &e);
        printf("\n");
    } else {
        print_entry(&s->image, path, &e);
    }
    return DONE;
}

static int info_volume(const store *s, int json)
{
    listing list = listing_read(&s->image);
    totals sum = listing_totals(&s->image, &list);
    if (json) {
        json_volume(s, &sum);
    } else {
        print_volume(&s->image, &sum);
        print_journal(s);
    }
    listing_free(&list);
    return DONE;
}

int command_info(int argc, char **argv, const options *o)
{
    store s;
    int status;
    if (!good_arguments(&argc, argv, 1, 2)) return usage("info VOLUME [PATH]");
    status = open_sound(&s, argv[1], o);
    if (status != DONE) return status;
    status = argc > 2 ? info_entry(&s, argv[2], o->json) : info_volume(&s, o->json);
    store_close(&s);
    return status;
}
