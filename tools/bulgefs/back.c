/* back.c - takes steps back. */
#include <stdlib.h>
#include <string.h>

#include "look.h"
#include "redo.h"

/* What goes: so many steps, so many of the last records of the list; the mark before them. */
typedef struct { uint32_t steps; size_t records; uint32_t mark; record_list list; } share;

/* How many records the last steps have. */
static size_t records_of(const record_list *list, uint32_t steps)
{
    size_t count = 0;
    while (count < list->count && list->records[list->count - 1 - count].step > list->steps - steps) count++;
    return count;
}

/* Whether a record goes on with the step of the one before. */
static int goes_on(const record_list *list, size_t at)
{
    return at + 1 < list->count && list->records[at + 1].step == list->records[at].step;
}

/* Tries on copies that each record is one of this volume, and keeps it to be made again. */
static int try_records(const store *s, const share *goes, bytes *kept)
{
    bytes image = copy_bytes(&s->image), journal = copy_bytes(&s->journal), after = copy_bytes(&s->image);
    uint32_t number = BULGEFS_OK;
    size_t done = 0;
    while (done < goes->records && !number) {
        size_t at = goes->list.count - 1 - done;
        redo_keep(kept, &image, &journal, &goes->list.records[at], goes_on(&goes->list, at));
        number = undo_record(&image, &journal, &after, NULL, NULL);
        if (!number) done++;
    }
    free(image.bytes);
    free(journal.bytes);
    free(after.bytes);
    return number ? refuse_record(s, number, goes->list.count - done) : DONE;
}

/* Takes all that goes back in one call. */
static int undo(store *s, const share *goes, bytes *kept)
{
    int status = try_records(s, goes, kept);
    uint32_t number;
    if (status) return status;
    number = bulgefs_undo_to(s->image.bytes, s->image.length, s->journal.bytes, s->journal.length, goes->mark).number;
    return number ? refuse(number, s->path) : DONE;
}

static int show(void *ctx, const change *one)
{
    put_change(ctx, one);
    return 0;
}

static void say_taken(const char *words, const share *gone, const char *end)
{
    printf("%s %u %s, %zu %s%s\n", words, (unsigned)gone->steps, gone->steps == 1 ? "step" : "steps",
           gone->records, gone->records == 1 ? "record" : "records", end);
}

/* Says what the undo of the records changes. */
static int try_back(store *s, const share *goes)
{
    bytes before = copy_bytes(&s->image), kept = { NULL, 0 };
    int status = undo(s, goes, &kept);
    if (!status) {
        changes_each(&before, &s->image, show, stdout);
        say_taken("would take back", goes, "");
    }
    free(before.bytes);
    free(kept.bytes);
    return status;
}

static int do_back(store *s, const share *goes)
{
    bytes kept = redo_kept(s);
    int again = 0, status = undo(s, goes, &kept);
    if (!status) {
        steps_cut(s, &goes->list, goes->list.count - goes->records);
        again = redo_write(s, &kept);
        status = store_save(s);
    }
    if (!status) say_taken("took back", goes, again ? "" : "; too long for redo");
    free(kept.bytes);
    return status;
}

/* wanted 0 is all steps. */
static int weigh(const store *s, uint32_t wanted, share *goes)
{
    record_list *list = &goes->list;
    uint32_t number = steps_list(s, list);
    if (number) return refuse(number, s->path);
    goes->steps = wanted ? wanted : list->steps;
    goes->records = goes->steps <= list->steps ? records_of(list, goes->steps) : 0;
    goes->mark = goes->records ? list->records[list->count - goes->records].start : list->used;
    if (!list->steps) return refuse(BULGEFS_NOTHING_TO_UNDO, s->path);
    if (goes->records) return DONE;
    say("%s: refused (%u): the journal holds just %u %s; nothing was changed", s->path, (unsigned)BULGEFS_NOTHING_TO_UNDO,
        (unsigned)list->steps, list->steps == 1 ? "step" : "steps");
    return REFUSED;
}

int command_back(int argc, char **argv, const options *o)
{
    int all = take_flag(&argc, argv, "--all"), dry = take_flag(&argc, argv, "--dry-run"), status;
    uint64_t steps = 1;
    share goes = { .steps = 0 };
    store s;
    if (!good_arguments(&argc, argv, 1, all ? 1 : 2)) return usage("back VOLUME [N|--all] [--dry-run]");
    if (argc > 2 && read_number(argv[2], "N", 1, UINT32_MAX, &steps)) return FAILED;
    status = store_open(&s, argv[1], dry ? LOOK : CHANGE, o);
    if (status) return status;
    status = need_journal(&s);
    if (!status) status = weigh(&s, all ? 0 : (uint32_t)steps, &goes);
    if (!status) status = dry ? try_back(&s, &goes) : do_back(&s, &goes);
    free(goes.list.records);
    store_close(&s);
    return status;
}
