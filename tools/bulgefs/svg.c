/* The block map as a picture: a cell for each block, or for each stretch of a large volume. */
#include <inttypes.h>
#include <string.h>

#include "look.h"

#define MAX_CELLS 4096u
#define LEFT 64u            /* room for the numbers of the rows */
#define WIDTH 800u
#define NAMED_OWNERS 4u     /* paths that the title of a stretch names */

typedef struct {
    FILE *out;
    const listing *list;
    const block_use *blocks;
    uint32_t n, width, cells, columns, rows;
} picture;

uint32_t map_width(uint32_t n)
{
    uint32_t width = 1;
    while ((n + width - 1) / width > MAX_CELLS) width *= 2;
    return width;
}

void map_style(FILE *out)
{
    fputs(".map text{font:11px ui-monospace,Menlo,Consolas,monospace;fill:#5b6472}\n"
          ".map .head{font:600 15px system-ui,sans-serif;fill:#1d2430}\n"
          ".map rect:hover{stroke:#1d2430;stroke-width:1.5}\n"
          ".u0{fill:#e4e7ec;background:#e4e7ec}.u1{fill:#7a4fc0;background:#7a4fc0}\n"
          ".u2{fill:#4772d8;background:#4772d8}.u3{fill:#e39d15;background:#e39d15}\n"
          ".u4{fill:#23966a;background:#23966a}.u4b{fill:#5cbd94}\n"
          ".u5{fill:#d24f8b;background:#d24f8b}\n"
          "@media (prefers-color-scheme:dark){\n"
          ".map text{fill:#9aa4b2}.map .head{fill:#e8ecf2}.map rect:hover{stroke:#e8ecf2}\n"
          ".u0{fill:#2b3039;background:#2b3039}.u1{fill:#ab86ec;background:#ab86ec}\n"
          ".u2{fill:#789af2;background:#789af2}.u3{fill:#f0b94a;background:#f0b94a}\n"
          ".u4{fill:#3fb583;background:#3fb583}.u4b{fill:#2b8760}\n"
          ".u5{fill:#ea7fb0;background:#ea7fb0}\n"
          "}\n", out);
}

static void put_block_title(const picture *p, uint32_t block)
{
    const block_use *b = &p->blocks[block];
    const char *path = owner_path(p->list, b);
    fprintf(p->out, "block %" PRIu32 ": %s", block, use_words[b->use]);
    if (path[0] == 0) return;
    fputs(b->use == USE_ATTRIBUTES ? " of " : " ", p->out);
    put_markup(p->out, path);
    fprintf(p->out, ", block %" PRIu32, b->index + 1);
}

/* The first few owners in a stretch; a chain that is met again is named again. */
static void put_owners(const picture *p, const cell *c)
{
    uint32_t b, last = NO_OWNER, named = 0;
    for (b = c->first; b < c->first + c->blocks; b++) {
        if (p->blocks[b].owner == NO_OWNER || p->blocks[b].owner == last) continue;
        last = p->blocks[b].owner;
        if (named == NAMED_OWNERS) {
            fputs(", and more", p->out);
            return;
        }
        fputs(named == 0 ? "; " : ", ", p->out);
        put_markup(p->out, owner_path(p->list, &p->blocks[b]));
        named++;
    }
}

static void put_cell_title(const picture *p, const cell *c)
{
    const char *between = "";
    int use;
    fprintf(p->out, "blocks %" PRIu32 " to %" PRIu32 ": ", c->first, c->first + c->blocks - 1);
    for (use = 0; use < USE_KINDS; use++) {
        if (c->counts[use] == 0) continue;
        fprintf(p->out, "%s%" PRIu32 " %s", between, c->counts[use], use_words[use]);
        between = ", ";
    }
    put_owners(p, c);
}

static void put_cell(const picture *p, uint32_t index, double pitch)
{
    cell c = cell_of(p->blocks, p->n, index * p->width, p->width);
    double size = pitch - (pitch > 20 ? 3 : 1.5);
    int second = p->width == 1 && c.main_use == USE_FILE && p->blocks[c.first].owner % 2 == 1;
    fprintf(p->out, "<rect class=\"u%d%s\" x=\"%.2f\" y=\"%.2f\" width=\"%.2f\" height=\"%.2f\" rx=\"%d\"",
            c.main_use, second ? "b" : "", LEFT + pitch * (index % p->columns),
            pitch * (index / p->columns), size, size, pitch > 20 ? 4 : 2);
    if (c.main_use != USE_FREE && c.counts[USE_FREE] > 0)
        fprintf(p->out, " fill-opacity=\"%.2f\"", 1 - 0.65 * c.counts[USE_FREE] / c.blocks);
    fputs("><title>", p->out);
    if (p->width == 1) put_block_title(p, c.first);
    else put_cell_title(p, &c);
    fputs("</title></rect>\n", p->out);
}

static void put_rows(const picture *p, double pitch)
{
    uint32_t row, i;
    for (row = 0; row < p->rows; row += p->rows > 24 ? 4 : 1)
        fprintf(p->out, "<text x=\"%u\" y=\"%.2f\" text-anchor=\"end\">%" PRIu32 "</text>\n", LEFT - 10,
                pitch * row + pitch / 2 + 3, row * p->columns * p->width);
    for (i = 0; i < p->cells; i++) put_cell(p, i, pitch);
}

static void put_legend(const picture *p, double y)
{
    cell all = cell_of(p->blocks, p->n, 0, p->n);
    double x = LEFT;
    char text[64];
    int use;
    for (use = 0; use < USE_KINDS; use++) {
        snprintf(text, sizeof text, "%s %" PRIu32, use_words[use], all.counts[use]);
        fprintf(p->out, "<rect class=\"u%d\" x=\"%.0f\" y=\"%.2f\" width=\"12\" height=\"12\" rx=\"3\"/>"
                "<text x=\"%.0f\" y=\"%.2f\">%s</text>\n", use, x, y, x + 18, y + 10, text);
        x += 36 + 7 * (double)strlen(text);
    }
    if (p->width > 1)
        fprintf(p->out, "<text x=\"%u\" y=\"%.2f\">a cell is %" PRIu32
                " blocks and has the colour of most of them; paler with free ones</text>\n", LEFT, y + 30,
                p->width);
}

void map_svg(FILE *out, const bytes *image, const listing *list, const block_use *blocks,
             int with_style)
{
    picture p = { out, list, blocks, view_blocks(image), 1, 0, 0, 0 };
    const double top = with_style ? 44 : 4;
    double pitch, height;
    p.width = map_width(p.n);
    p.cells = (p.n + p.width - 1) / p.width;
    p.columns = p.cells > 512 ? 64 : 32;
    p.rows = (p.cells + p.columns - 1) / p.columns;
    pitch = (double)WIDTH / p.columns;
    height = pitch * p.rows;
    fprintf(out, "<svg xmlns=\"http://www.w3.org/2000/svg\" class=\"map\" role=\"img\" "
            "aria-label=\"Map of %" PRIu32 " blocks\" viewBox=\"0 0 %u %.0f\"", p.n, LEFT + WIDTH + 8,
            top + height + (p.width > 1 ? 56 : 36));
    if (with_style) {
        fprintf(out, " width=\"%u\">\n<style>\nsvg{background:#fff}\n"
                "@media (prefers-color-scheme:dark){svg{background:#14171c}}\n", LEFT + WIDTH + 8);
        map_style(out);
        fprintf(out, "</style>\n<text class=\"head\" x=\"%u\" y=\"26\">%" PRIu32 " blocks of 512 bytes", LEFT,
                p.n);
        fputs("</text>\n", out);
    } else {
        fputs(">\n", out);
    }
    fprintf(out, "<g transform=\"translate(0 %.0f)\">\n", top);
    put_rows(&p, pitch);
    put_legend(&p, height + 14);
    fputs("</g>\n</svg>\n", out);
}
