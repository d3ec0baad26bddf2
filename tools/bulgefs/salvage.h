/* salvage.h - a sound copy of what is whole of a damaged image. */
#ifndef BULGEFS_SALVAGE_H
#define BULGEFS_SALVAGE_H

#include "look.h"

/* The copy, the library's report, a code for each slot of each block, and its counts. */
typedef struct { bytes image; uint8_t *report; uint32_t dropped, freed; } salvaged;

/* Makes the copy in memory; the image stays.  Free it in any case. */
int salvage_copy(const store *, salvaged *);
void salvage_free(salvaged *);
/* Says what was dropped, put right and kept. */
void salvage_tell(const store *, const salvaged *, int json);

#endif
