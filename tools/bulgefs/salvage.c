/* salvage.c - a sound copy of what is whole of a damaged volume, and what became of the rest. */
#include <inttypes.h>
#include <stdlib.h>
#include <string.h>

#include "salvage.h"

enum { SLOT = 128, CODES = 7 };

/* Names for JSON, and words; of a slot that is the first or the last of a folder 3 has others. */
static const char *const fates[CODES] = { "kept", "entry lost", "chain lost", "put right", "attributes lost", "freed", "folder found" };
static const char *const words[CODES] = {
    "kept", "dropped: its entry was damaged, or its name was taken", "dropped: its chain of blocks was broken or crossed another",
    "kept: its size or the end of its chain was put right", "kept without its attributes: their chain was broken", "freed",
    "a lost folder was found, and is here again"
};

typedef struct { const bytes *damaged; const salvaged *made; int json; unsigned told, put_right; } teller;

/* A slot of a folder; its name is that of the damaged image, or of a folder that was found. */
typedef struct { const char *folder; uint32_t block, index; int own, end; } place;

static uint8_t code_of(const teller *t, const place *p)
{
    uint8_t code = t->made->report[BULGEFS_SLOTS_PER_BLOCK * p->block + p->index];
    return code < CODES ? code : 0;
}

static char *path_of(const teller *t, const place *p, uint8_t code)
{
    const bytes *from = code == BULGEFS_DIRECTORY_FOUND ? &t->made->image : t->damaged;
    entry found = view_slot(from, (size_t)p->block * BULGEFS_BLOCK_SIZE + SLOT * (size_t)p->index, 0);
    char *start = joined(p->folder, "/"), *path = joined(start, p->own || p->end ? "" : (const char *)found.name);
    free(start);
    return path;
}

static void tell_slot(teller *t, const place *p)
{
    uint8_t code = code_of(t, p);
    char *path = path_of(t, p, code);
    const char *said = p->own ? "the folder's own entry or its chain was put right" : p->end ? "the folder's end was put right" : words[code];
    if (t->json) {
        printf("%s{\"path\":", t->told ? ",\n" : "\n");
        json_text(stdout, path);
        printf(",\"block\":%" PRIu32 ",\"slot\":%" PRIu32 ",\"code\":%u,\"fate\":\"%s\"}", p->block, p->index, (unsigned)code, fates[code]);
    } else {
        put_path(stdout, path);
        printf(": %s\n", said);
    }
    t->told++;
    t->put_right += !p->own && !p->end && (code == BULGEFS_END_MENDED || code == BULGEFS_ATTRIBUTES_LOST);
    free(path);
}

/* All slots of a folder of the sound copy; the root's path is empty. */
static void tell_folder(teller *t, const char *path, const entry *folder)
{
    chain blocks = chain_of(&t->made->image, folder->first, folder->blocks);
    uint32_t slots = BULGEFS_SLOTS_PER_BLOCK * folder->blocks, slot = 0;
    place p = { path, 0, 0, 0, 0 };
    while (chain_step(&blocks, &p.block)) {
        for (p.index = 0; p.index < BULGEFS_SLOTS_PER_BLOCK; p.index++, slot++) {
            p.own = slot == 0;
            p.end = slot + 1 == slots;
            if (code_of(t, &p)) tell_slot(t, &p);
        }
    }
}

/* The first block behind those that were freed together and had the same owner. */
static uint32_t freed_end(const teller *t, const block_use *uses, uint32_t first)
{
    uint32_t n = view_blocks(t->damaged), end = first;
    while (end < n && t->made->report[BULGEFS_SLOTS_PER_BLOCK * end] == BULGEFS_BLOCK_FREED && uses[end].owner == uses[first].owner) end++;
    return end;
}

static void tell_blocks(const teller *t, uint32_t first, uint32_t end, const char *path, int more)
{
    if (t->json) {
        printf("%s{\"first\":%" PRIu32 ",\"blocks\":%" PRIu32 ",\"path\":", more ? ",\n" : "\n", first, end - first);
        if (path[0]) json_text(stdout, path);
        else fputs("null", stdout);
        fputc('}', stdout);
        return;
    }
    printf(end - first == 1 ? "block %" PRIu32 : "blocks %" PRIu32 " to %" PRIu32, first, end - 1);
    fputs(" had been in use", stdout);
    if (path[0]) fputs(" by ", stdout);
    put_path(stdout, path);
    puts(end - first == 1 ? " and is freed" : " and are freed");
}

/* Whose a freed block was is read in plain C from the damaged image, as far as that can be told. */
static void tell_freed(const teller *t)
{
    listing list = listing_scan(t->damaged);
    block_use *uses = owners_read(t->damaged, &list);
    uint32_t n = view_blocks(t->damaged), first, end;
    int more = 0;
    for (first = 0; first < n; first = end > first ? end : first + 1) {
        end = freed_end(t, uses, first);
        if (end == first) continue;
        tell_blocks(t, first, end, owner_path(&list, &uses[first]), more);
        more = 1;
    }
    free(uses);
    listing_free(&list);
}

static void tell_sum(const teller *t, const totals *sum)
{
    put_count(stdout, sum->files, "file", "files");
    printf(" kept, %u of them put right; ", t->put_right);
    put_count(stdout, t->made->dropped, "entry", "entries");
    fputs(" dropped; ", stdout);
    put_count(stdout, t->made->freed, "block", "blocks");
    puts(" freed");
}

static void json_sum(const teller *t, const totals *sum)
{
    printf(",\"kept\":%" PRIu32 ",\"put_right\":%u,\"dropped\":%" PRIu32 ",\"freed\":%" PRIu32 "}\n", sum->files, t->put_right, t->made->dropped,
           t->made->freed);
}

void salvage_tell(const store *from, const salvaged *made, int json)
{
    teller t = { &from->image, made, json, 0, 0 };
    uint32_t number = bulgefs_check(from->image.bytes, from->image.length);
    listing list = listing_scan(&made->image);
    totals sum = listing_totals(&made->image, &list);
    entry root = view_root(&made->image);
    if (json) printf("{\"check\":%" PRIu32 ",\"rest_put_right\":%s,\"entries\":[", number, made->report[0] ? "true" : "false");
    else if (made->report[0]) puts("header or table: put right");
    else if (!number) puts("the volume was sound");
    tell_folder(&t, "", &root);
    for (size_t i = 0; i < list.count; i++) {
        if (view_is_directory(&list.items[i].entry)) tell_folder(&t, list.items[i].path, &list.items[i].entry);
    }
    if (json) fputs("],\"blocks\":[", stdout);
    tell_freed(&t);
    if (json) fputs("]", stdout);
    (json ? json_sum : tell_sum)(&t, &sum);
    listing_free(&list);
}

static int refuse_salvage(const store *from, uint32_t number)
{
    static char why[96];
    if (number != BULGEFS_BAD_GEOMETRY) return refuse(number, from->path);
    snprintf(why, sizeof why, "the file was cut or has grown: its header is of %" PRIu64 " bytes", (uint64_t)view_number(&from->image, 12) * BULGEFS_BLOCK_SIZE);
    return refuse_because(number, from->path, why);
}

int salvage_copy(const store *from, salvaged *made)
{
    bulgefs_salvaged done;
    size_t length = BULGEFS_TREE_REPORT_SIZE((size_t)view_blocks(&from->image));
    made->image = copy_bytes(&from->image);
    made->report = take_memory(length);
    done = bulgefs_salvage_tree(made->image.bytes, made->image.length, made->report, length);
    made->dropped = done.dropped;
    made->freed = done.freed;
    return done.number ? refuse_salvage(from, done.number) : DONE;
}

void salvage_free(salvaged *made)
{
    free(made->image.bytes);
    free(made->report);
}

/* The length that the journal has, or of a bare image the usual one. */
static size_t journal_length(const store *from)
{
    return from->journal.bytes ? from->journal.length : usual_journal(from->image.length);
}

int command_salvage(int argc, char **argv, const options *o)
{
    salvaged made;
    store from;
    int status;
    if (!good_arguments(&argc, argv, 2, 2)) return usage("salvage VOLUME OUT");
    status = store_open(&from, argv[1], LOOK, o);
    if (status) return status;
    status = salvage_copy(&from, &made);
    if (!status) status = store_start(argv[2], &made.image, journal_length(&from), o);
    if (!status) salvage_tell(&from, &made, o->json);
    salvage_free(&made);
    store_close(&from);
    return status;
}
