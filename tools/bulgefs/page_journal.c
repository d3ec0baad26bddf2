/*
 * The journal on the report's page.  What Back would do is found by doing it
 * on copies with the library, and comparing the trees before and after.
 */
#include <inttypes.h>
#include <stdlib.h>
#include <string.h>

#include "page.h"

#define SHOWN_STEPS 100u
#define SHOWN_PATHS 50u
#define SHOWN_RECORDS 100u
#define SHOWN_BLOCKS 40u

typedef struct { FILE *out; uint32_t count; } path_list;

static void put_numbers(FILE *out, const char *what, uint32_t now, uint32_t then)
{
    if (now == then) return;
    fprintf(out, "; %s ", what);
    page_number(out, now);
    fputs(" &rarr; ", out);
    page_number(out, then);
}

/* What is put back of a path that stays. */
static void put_changed(FILE *out, const change *c)
{
    fputs("goes back: ", out);
    put_parts(out, c->parts);
    put_numbers(out, "bytes", c->before->size, c->after->size);
    put_numbers(out, "blocks of attributes", c->before->attribute_size, c->after->attribute_size);
    if (c->before->modified == c->after->modified) return;
    fputs("; modified ", out);
    put_time(out, c->after->modified);
}

static void put_what(FILE *out, const change *c)
{
    fputs(" <span class=\"pale\">", out);
    if (c->kind == CHANGED) {
        put_changed(out, c);
    } else if (c->kind == VANISHED) {
        fputs("goes", out);
    } else {
        fputs("comes back", out);
        if (!view_is_directory(c->after)) {
            fputs(", ", out);
            page_number(out, c->after->size);
            fputs(c->after->size == 1 ? " byte" : " bytes", out);
        }
    }
    fputs("</span>", out);
}

static int put_back_path(void *context, const change *c)
{
    path_list *list = context;
    const entry *e = c->after != NULL ? c->after : c->before;
    if (list->count++ >= SHOWN_PATHS) return 0;
    fprintf(list->out, "<li><span class=\"sign %s\">%s</span>",
            c->kind == APPEARED ? "plus" : c->kind == VANISHED ? "minus" : "star",
            c->kind == APPEARED ? "+" : c->kind == VANISHED ? "&minus;" : "*");
    page_path(list->out, c->path, view_is_directory(e));
    put_what(list->out, c);
    fputs("</li>\n", list->out);
    return 0;
}

static void put_paths(FILE *out, const bytes *now, const bytes *then)
{
    path_list list = { out, 0 };
    fputs("<ul>\n", out);
    changes_each(now, then, put_back_path, &list);
    if (list.count == 0) fputs("<li class=\"pale\">no path changes</li>\n", out);
    if (list.count > SHOWN_PATHS) fprintf(out, "<li class=\"pale\">and %" PRIu32 " more</li>\n", list.count - SHOWN_PATHS);
    fputs("</ul>\n", out);
}

static void put_record(FILE *out, const bytes *journal, const record *r, size_t number)
{
    uint32_t i;
    fprintf(out, "<div>record %zu, ", number + 1);
    page_number(out, r->length);
    fprintf(out, " bytes at %" PRIu32 ": %s", r->start, r->blocks == 1 ? "block" : "blocks");
    for (i = 0; i < r->blocks && i < SHOWN_BLOCKS; i++)
        fprintf(out, "%s %" PRIu32, i == 0 ? "" : ",",
                view_number(journal, (size_t)r->start + 4 + 516 * (size_t)i));
    if (r->blocks > SHOWN_BLOCKS) fprintf(out, " and %" PRIu32 " more", r->blocks - SHOWN_BLOCKS);
    fputs("</div>\n", out);
}

/* The records from first up to end, which are one step. */
static void put_step(FILE *out, const record_list *list, size_t first, size_t end)
{
    uint64_t length = 0;
    size_t i;
    for (i = first; i < end; i++) length += list->records[i].length;
    fprintf(out, "<h3>Step %" PRIu32 " <span class=\"pale\">&middot; ", list->records[first].step);
    put_count(out, end - first, "record", "records");
    fputs(" &middot; ", out);
    page_number(out, length);
    fputs(" bytes</span></h3>\n", out);
}

static void put_records(FILE *out, const store *s, const record_list *list, size_t first, size_t end)
{
    size_t i;
    fputs("<details><summary>records</summary>\n", out);
    for (i = first; i < end && i - first < SHOWN_RECORDS; i++) put_record(out, &s->journal, &list->records[i], i);
    if (i < end) fprintf(out, "<div>and %zu more</div>\n", end - i);
    fputs("</details>\n", out);
}

/* Takes so many records back on copies; 0, or the number of the call that refused. */
static uint32_t take_back(bytes *image, bytes *journal, size_t records)
{
    uint32_t number = 0;
    /* Each undo checks the image that it is given; the last one's is checked here. */
    for (; number == 0 && records > 0; records--)
        number = bulgefs_undo(image->bytes, image->length, journal->bytes, journal->length).number;
    return number == 0 ? bulgefs_check(image->bytes, image->length) : number;
}

static size_t step_start(const record_list *list, size_t end)
{
    size_t first = end - 1;
    while (first > 0 && list->records[first - 1].step == list->records[end - 1].step) first--;
    return first;
}

static void put_line(FILE *out, const store *s, const record_list *list)
{
    bytes now = copy_bytes(&s->image), then = copy_bytes(&s->image), journal = copy_bytes(&s->journal);
    size_t end = list->count, first;
    uint32_t shown = 0, number = 0;
    fputs("<ol class=\"line\">\n", out);
    for (; end > 0 && shown < SHOWN_STEPS && number == 0; end = first, shown++) {
        first = step_start(list, end);
        fputs("<li>", out);
        put_step(out, list, first, end);
        number = take_back(&then, &journal, end - first);
        if (number == 0) put_paths(out, &now, &then);
        else
            fprintf(out, "<p><span class=\"tag bad\">refused with %" PRIu32 "</span> The journal is not this "
                    "volume's own: Back stops here.</p>\n", number);
        put_records(out, s, list, first, end);
        fputs("</li>\n", out);
        memcpy(now.bytes, then.bytes, now.length);
    }
    if (end > 0 && number == 0)
        fprintf(out, "<li class=\"pale\">and %" PRIu32 " older %s</li>\n", list->records[end - 1].step,
                list->records[end - 1].step == 1 ? "step" : "steps");
    fputs("</ol>\n", out);
    free(now.bytes);
    free(then.bytes);
    free(journal.bytes);
}

void page_journal(FILE *out, const store *s)
{
    record_list list = { NULL, 0, 0, 0 };
    fputs("<section>\n<h2>Journal: what Back would do</h2>\n", out);
    if (s->journal.bytes == NULL) {
        fputs("<p class=\"pale\">There is no journal: nothing can be taken back.</p>\n", out);
    } else if (steps_list(s, &list) != 0) {
        fputs("<p><span class=\"tag bad\">refused with 8</span> The journal is not well formed.</p>\n", out);
    } else if (list.count == 0) {
        fputs("<p class=\"pale\">The journal is empty: there is no step to take back.</p>\n", out);
    } else {
        fputs("<p class=\"pale\">The last step stands first; Back takes steps in this order.</p>\n", out);
        put_line(out, s, &list);
    }
    free(list.records);
    fputs("</section>\n", out);
}
