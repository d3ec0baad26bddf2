/* report VOLUME FILE.html: one page about a volume, its files, its blocks and its journal. */
#include <inttypes.h>
#include <stdlib.h>
#include <string.h>

#include "page.h"

#define SHOWN_ENTRIES 5000u

typedef struct { FILE *out; const store *s; uint32_t number; listing list; block_use *blocks; totals sum; } report;

static void put_card(FILE *out, uint64_t number, const char *unit, const char *words)
{
    fputs("<div class=\"card\"><b>", out);
    page_number(out, number);
    fprintf(out, "%s</b><span>%s</span></div>\n", unit, words);
}

static void put_journal_cards(const report *r)
{
    record_list list = { NULL, 0, 0, 0 };
    const bytes *journal = &r->s->journal;
    if (journal->bytes == NULL || steps_list(r->s, &list) != 0) return;
    put_card(r->out, list.steps, "", list.steps == 1 ? "step to take back" : "steps to take back");
    put_card(r->out, 100 * (uint64_t)list.used / journal->length, "%", "of the journal used");
    free(list.records);
}

static void put_cards(const report *r)
{
    bulgefs_volume v = view_volume(&r->s->image).numbers;
    fputs("<div class=\"cards\">\n", r->out);
    put_card(r->out, view_blocks(&r->s->image), "", "blocks of 512 bytes");
    if (r->number == 0) {
        put_card(r->out, v.used, "", "blocks used");
        put_card(r->out, v.free, "", "blocks free");
    }
    put_card(r->out, r->sum.files, "", r->sum.files == 1 ? "file" : "files");
    put_card(r->out, r->sum.directories, "", r->sum.directories == 1 ? "folder" : "folders");
    put_card(r->out, r->sum.file_bytes, "", "bytes in files");
    put_journal_cards(r);
    fputs("</div>\n", r->out);
}

static void put_heading(const report *r, const char *path)
{
    volume_info volume = view_volume(&r->s->image);
    const uint8_t *name;
    size_t length = volume_name(&volume, &name);
    char title[BULGEFS_VOLUME_NAME_SIZE + 1];
    memcpy(title, name, length);
    title[length] = 0;
    page_head(r->out, length == 0 ? path : title);
    fputs("<h1>", r->out);
    put_markup(r->out, length == 0 ? path : title);
    fputs(r->number == 0 ? "</h1>\n<div><span class=\"tag\">sound</span>" : "</h1>\n<div><span class=\"tag bad\">not sound</span>", r->out);
    fputs(" <span class=\"mono pale\">", r->out);
    put_markup(r->out, path);
    if (r->number == 0) {
        fputs(" &middot; ", r->out);
        put_uuid(r->out, &volume);
    }
    fputs("</span></div>\n", r->out);
}

/* Of a damaged volume: the library's number, where the fault is, and how far the page can be believed. */
static void put_fault(const report *r)
{
    fault f = explain(&r->s->image);
    fprintf(r->out, "<section>\n<h2>Not sound: %" PRIu32 ", %s</h2>\n", r->number, bulgefs_text(r->number));
    if (f.stage == r->number) {
        fputs("<p>", r->out);
        page_path(r->out, f.path, 0);
        fputs(" ", r->out);
        put_markup(r->out, f.rule);
        fputs("; expected ", r->out);
        put_markup(r->out, f.expected);
        fputs(", found ", r->out);
        put_markup(r->out, f.found);
        fputs("</p>\n", r->out);
    }
    fputs("<p>This page shows what can be read of the damaged volume. Files may be missing, and what is shown may be wrong. "
          "Blocks that no entry leads to are shown as free.</p>\n</section>\n", r->out);
}

static void put_blocks(const report *r)
{
    uint32_t n = view_blocks(&r->s->image);
    cell all = cell_of(r->blocks, n, 0, n);
    int use;
    fputs("<section>\n<h2>Blocks</h2>\n<div class=\"bar\">", r->out);
    for (use = 1; use <= USE_KINDS; use++)
        if (all.counts[use % USE_KINDS] > 0)
            fprintf(r->out, "<span class=\"u%d\" style=\"width:%.3f%%\" title=\"%s %" PRIu32 "\"></span>",
                    use % USE_KINDS, 100.0 * all.counts[use % USE_KINDS] / n, use_words[use % USE_KINDS],
                    all.counts[use % USE_KINDS]);
    fputs("</div>\n", r->out);
    map_svg(r->out, &r->s->image, &r->list, r->blocks, 0);
    fputs("</section>\n", r->out);
}

static void put_cell_number(FILE *out, uint64_t number, int empty)
{
    fputs("<td class=\"n\">", out);
    if (empty) fputs("<span class=\"pale\">&ndash;</span>", out);
    else page_number(out, number);
    fputs("</td>", out);
}

static void put_row(const report *r, const listed *item)
{
    const entry *e = &item->entry;
    int directory = view_is_directory(e);
    fputs("<tr><td>", r->out);
    page_path(r->out, item->path, directory);
    fputs("</td>", r->out);
    put_cell_number(r->out, e->size, directory);
    put_cell_number(r->out, e->blocks, 0);
    put_cell_number(r->out, chain_pieces(&r->s->image, e->first, e->blocks), e->blocks == 0);
    put_cell_number(r->out, e->attribute_size, e->attribute_size == 0);
    put_cell_number(r->out, e->flags, e->flags == 0);
    fprintf(r->out, "<td class=\"t\">0x%02x</td><td class=\"t\">%u : %u</td><td class=\"mono\">", e->type,
            e->user, e->group);
    put_permissions(r->out, e->permissions);
    fputs("</td><td class=\"t\">", r->out);
    put_time(r->out, e->modified);
    fputs("</td></tr>\n", r->out);
}

static void put_files(const report *r)
{
    size_t i;
    fputs("<section>\n<h2>Files and folders</h2>\n", r->out);
    if (r->list.count == 0) {
        fputs("<p class=\"pale\">The volume is empty.</p>\n</section>\n", r->out);
        return;
    }
    fputs("<div class=\"wide\"><table>\n<tr><th>Path</th><th class=\"n\">Bytes</th>"
          "<th class=\"n\">Blocks</th><th class=\"n\">Pieces</th><th class=\"n\">Attributes</th><th class=\"n\">Flags</th><th>Type</th>"
          "<th>User : group</th><th>Permissions</th><th>Modified</th></tr>\n", r->out);
    for (i = 0; i < r->list.count && i < SHOWN_ENTRIES; i++) put_row(r, &r->list.items[i]);
    fputs("</table></div>\n", r->out);
    if (r->list.count > SHOWN_ENTRIES) fprintf(r->out, "<p class=\"pale\">and %zu more</p>\n", r->list.count - SHOWN_ENTRIES);
    fputs("</section>\n", r->out);
}

static int write_report(const store *s, const char *path, const char *file)
{
    report r = { NULL, s, bulgefs_check(s->image.bytes, s->image.length), { NULL, 0, 0 }, NULL, { 0, 0, 0, 0, 0, 0 } };
    memory_text page;
    int status;
    text_begin(&page);
    r.out = page.out;
    r.list = r.number == 0 ? listing_read(&s->image) : listing_scan(&s->image);
    r.blocks = owners_read(&s->image, &r.list);
    r.sum = listing_totals(&s->image, &r.list);
    put_heading(&r, path);
    if (r.number != 0) put_fault(&r);
    put_cards(&r);
    put_blocks(&r);
    put_files(&r);
    if (r.number == 0) page_journal(r.out, s);
    page_end(r.out, r.number == 0);
    text_end(&page);
    status = write_output(file, (const uint8_t *)page.text, page.length);
    if (status == DONE && r.number != 0) status = refuse_because(r.number, path, "the page shows what can be read");
    free(r.blocks);
    listing_free(&r.list);
    free(page.text);
    return status;
}

int command_report(int argc, char **argv, const options *o)
{
    store s;
    int status;
    if (!good_arguments(&argc, argv, 2, 2)) return usage("report VOLUME FILE.html");
    status = store_open(&s, argv[1], LOOK, o);
    if (status != DONE) return status;
    status = write_report(&s, argv[1], argv[2]);
    store_close(&s);
    return status;
}
