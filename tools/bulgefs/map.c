/* map VOLUME [--all] [--svg FILE]: what each block is used for, found in plain C by walking the chains of all entries. */
#include <ctype.h>
#include <inttypes.h>
#include <stdlib.h>
#include <string.h>
#include <unistd.h>

#include "look.h"
#include "json.h"

#define COLUMNS 64u

typedef struct { const bytes *image; listing list; block_use *blocks; uint32_t n, number; } plan;

/* Colours are for a terminal that has not said that it wants none. */
static int wants_colour(void)
{
    const char *no = getenv("NO_COLOR"), *term = getenv("TERM");
    return isatty(STDOUT_FILENO) && (no == NULL || *no == 0)
        && (term == NULL || strcmp(term, "dumb") != 0);
}

static void put_letter(int use, int small, int colour)
{
    static const char *const codes[USE_KINDS] = { "2", "35", "34", "33", "32", "36" };
    int letter = small ? tolower(use_letters[use]) : use_letters[use];
    if (colour) printf("\033[%sm%c\033[0m", codes[use], letter);
    else putchar(letter);
}

static void print_row(const plan *p, uint32_t first, uint32_t width, int colour)
{
    cell row = cell_of(p->blocks, p->n, first, COLUMNS * width), c;
    uint32_t at;
    printf("%6" PRIu32 "  ", first);
    for (at = first; at < first + row.blocks; at += width) {
        c = cell_of(p->blocks, p->n, at, width);
        put_letter(c.main_use, 2 * c.counts[USE_FREE] > c.blocks, colour);
    }
    if (width > 1)
        printf("%*s %3" PRIu32 "%%", (int)(COLUMNS - (row.blocks + width - 1) / width), "",
               100 * (row.blocks - row.counts[USE_FREE]) / row.blocks);
    printf("\n");
}

/* The first block from here on that is not free; n if there is none. */
static uint32_t free_end(const plan *p, uint32_t first)
{
    while (first < p->n && p->blocks[first].use == USE_FREE) first++;
    return first;
}

/* Three rows or more that are wholly free are one line. */
static void print_rows(const plan *p, uint32_t width, int colour)
{
    uint32_t row = COLUMNS * width, first, end;
    for (first = 0; first < p->n; first += row) {
        end = free_end(p, first);
        end = end == p->n ? end : end - end % row;
        if (end > first && end - first > 2 * row) {
            printf("%6" PRIu32 "  free up to block %" PRIu32 "\n", first, end - 1);
            first += (end - first - 1) / row * row;
        } else {
            print_row(p, first, width, colour);
        }
    }
}

static void print_map(const plan *p, uint32_t width)
{
    cell all = cell_of(p->blocks, p->n, 0, p->n);
    int colour = wants_colour(), use;
    print_rows(p, width, colour);
    printf("\n");
    for (use = 0; use < USE_KINDS; use++) {
        printf(use == 0 ? "" : "  ");
        put_letter(use, 0, colour);
        printf(" %s %" PRIu32, use_words[use], all.counts[use]);
    }
    printf("\n");
    if (width > 1)
        printf("A letter is for %" PRIu32 " blocks, by most of the used ones; a small one where more than "
               "half are free.\nThe number behind a row is its part in use. --all has a letter for each "
               "block.\n", width);
}

/* Blocks that follow one another in the same chain are one stretch. */
static uint32_t stretch_end(const plan *p, uint32_t first)
{
    const block_use *a = &p->blocks[first], *b;
    uint32_t end = first + 1;
    for (; end < p->n; end++) {
        b = &p->blocks[end];
        if (b->use != a->use || b->owner != a->owner) break;
        if (b->index != a->index + (a->use >= USE_DIRECTORY ? end - first : 0)) break;
    }
    return end;
}

static void json_map(const plan *p)
{
    cell all = cell_of(p->blocks, p->n, 0, p->n);
    uint32_t first, end;
    int use;
    printf("{\"sound\":%s,\"number\":%" PRIu32 ",\"blocks\":%" PRIu32 ",\"counts\":{", p->number == 0 ? "true" : "false",
           p->number, p->n);
    for (use = 0; use < USE_KINDS; use++) printf("%s\"%s\":%" PRIu32, use == 0 ? "" : ",", use_names[use], all.counts[use]);
    printf("},\"stretches\":[");
    for (first = 0; first < p->n; first = end) {
        const block_use *b = &p->blocks[first];
        end = stretch_end(p, first);
        printf("%s\n{\"first\":%" PRIu32 ",\"blocks\":%" PRIu32 ",\"use\":\"%s\"", first == 0 ? "" : ",",
               first, end - first, use_names[b->use]);
        if (b->use >= USE_DIRECTORY) {
            printf(",\"path\":");
            json_text(stdout, owner_path(&p->list, b));
            printf(",\"index\":%" PRIu32, b->index);
        }
        printf("}");
    }
    printf("\n]}\n");
}

static int write_svg(const plan *p, const char *path)
{
    memory_text page;
    int status;
    text_begin(&page);
    map_svg(page.out, p->image, &p->list, p->blocks, 1);
    text_end(&page);
    status = write_output(path, (const uint8_t *)page.text, page.length);
    free(page.text);
    return status;
}

int command_map(int argc, char **argv, const options *o)
{
    const char *svg = NULL;
    int all = take_flag(&argc, argv, "--all"), status;
    store s;
    plan p;
    if (!take_value(&argc, argv, "--svg", &svg) || !good_arguments(&argc, argv, 1, 1)) return usage("map VOLUME [--all] [--svg FILE]");
    status = store_open(&s, argv[1], LOOK, o);
    if (status != DONE) return status;
    p.image = &s.image;
    p.number = bulgefs_check(s.image.bytes, s.image.length);
    p.n = view_blocks(&s.image);
    p.list = listing_scan(&s.image);
    p.blocks = owners_read(&s.image, &p.list);
    if (svg != NULL) status = write_svg(&p, svg);
    else if (o->json) json_map(&p);
    else print_map(&p, all ? 1 : map_width(p.n));
    if (status == DONE && p.number != 0)
        status = refuse_because(p.number, argv[1], "shown is what can be read; blocks that no entry leads to are shown as free");
    free(p.blocks);
    listing_free(&p.list);
    store_close(&s);
    return status;
}
