/* Pairs of image and journal, with own bytes, for the tests: made, changed at random, compared, taken back. */
#ifndef PAIR_H
#define PAIR_H

#include "bulgefs_file.h"

#define IMAGE_LEN    (24 * 512u)
#define JOURNAL_LEN  (40 * 512u)
#define LONG_JOURNAL (72 * 512u)
#define OWN_LEN      (2 * 512u)

typedef struct {
    size_t journal_len;
    uint8_t image[IMAGE_LEN], journal[LONG_JOURNAL], own[OWN_LEN];
} pair;

/* The image formatted, the journal started, own bytes 0. */
void pair_start(pair *p);
/* A change at random by a call of the library, or of the own bytes.  next(k) gives a number below k. */
void pair_change(uint8_t *image, uint8_t *journal, size_t journal_len, uint8_t *own, uint32_t (*next)(uint32_t));
/* The pair of an open volume. */
void pair_take(pair *p, const bulgefs_volume_file *v);
/* Whether two are the same, byte for byte; zeros behind the shorter journal do not count. */
int pair_same(const pair *a, const pair *b);
/* Whether undo to the first mark gives image and journal of pair_start. */
int pair_goes_back(const pair *p);

/* The counts of a test program, its last line, and its status. */
void judge(int good, const char *format, ...);
int finish_tests(void);

#endif
