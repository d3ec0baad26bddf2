/* redo.h - what `back` keeps, so that `redo` can make steps again. */
#ifndef BULGEFS_REDO_H
#define BULGEFS_REDO_H

#include "tool.h"

/* Adds a record that is about to be taken back, with the bytes that its blocks now have. */
void redo_keep(bytes *kept, const bytes *image, const bytes *journal, const record *, int goes_on);
/* What was kept before for this image and journal.  Free its bytes. */
bytes redo_kept(const store *);
/* Writes what was kept into own; 0 if there is no room, and then none is kept. */
int redo_write(store *, const bytes *kept);
/* Forgets what was kept. */
void redo_clear(store *);

#endif
