/* page.h - the parts of the report's page. */
#ifndef BULGEFS_PAGE_H
#define BULGEFS_PAGE_H

#include "look.h"

/* A number with commas between its thousands. */
void page_number(FILE *out, uint64_t number);
/* A path, its directories paler than its name. */
void page_path(FILE *out, const char *path, int directory);
void page_head(FILE *out, const char *title);
/* The foot says what of the page is proved, if the volume is sound. */
void page_end(FILE *out, int sound);
/* The journal as a line of steps, the one that Back takes first on top. */
void page_journal(FILE *out, const store *s);

#endif
