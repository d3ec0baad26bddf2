/*
 * look.h - what the commands that only look share: chains and lists of a sound
 * image, owners of blocks, the first fault of another one, words for the screen.
 */
#ifndef BULGEFS_LOOK_H
#define BULGEFS_LOOK_H

#include "tool.h"

/* ---- view.c ---- */

/* Numbers of an image in plain C; bytes outside of it read as 0. */
uint32_t view_number(const bytes *image, size_t at);
uint32_t view_blocks(const bytes *image);
uint32_t view_table(const bytes *image);
entry view_slot(const bytes *image, size_t offset, uint32_t slot);
int view_is_file(const entry *e);
/* The volume as the library tells it: its numbers, then its UUID and its name. */
typedef struct { bulgefs_volume numbers; uint8_t labels[BULGEFS_LABELS_SIZE]; } volume_info;
volume_info view_volume(const bytes *image);
/* The root has no entry: this is what one would say. */
entry view_root(const bytes *image);

/* A walk along a chain by count; it ends early where the chain leaves the image. */
typedef struct { const bytes *image; uint32_t block, left; } chain;
chain chain_of(const bytes *image, uint32_t first, uint32_t blocks);
int chain_step(chain *c, uint32_t *block);
/* How many stretches of neighbouring blocks a chain has. */
uint32_t chain_pieces(const bytes *image, uint32_t first, uint32_t blocks);

/* ---- owners.c ---- */

/* The whole tree as a list, a directory before what is in it, without the root. */
typedef struct { char *path; entry entry; } listed;
typedef struct { listed *items; size_t count, room; } listing;
listing listing_read(const bytes *image);
/* The same of the folder at a path. */
listing listing_below(const bytes *image, const char *path);
/* The same by view_scan. */
listing listing_scan(const bytes *image);
void listing_free(listing *list);

/* Counts over a listing. */
typedef struct {
    uint32_t files, directories, with_attributes, with_flags, in_pieces;
    uint64_t file_bytes;
} totals;
totals listing_totals(const bytes *image, const listing *list);

/* What each block is used for; owner is an index of the listing, or NO_OWNER. */
#define NO_OWNER UINT32_MAX
enum { USE_FREE, USE_HEADER, USE_TABLE, USE_DIRECTORY, USE_FILE, USE_ATTRIBUTES, USE_KINDS };
typedef struct { int use; uint32_t owner, index; } block_use;
/* Names for JSON, words for people, letters for the map. */
extern const char *const use_names[USE_KINDS], *const use_words[USE_KINDS];
extern const char use_letters[USE_KINDS + 1];
block_use *owners_read(const bytes *image, const listing *list);
/* The owner's path; "" for header, table and free blocks. */
const char *owner_path(const listing *list, const block_use *b);

/* A stretch of blocks that is drawn as one cell, and what it is used for. */
typedef struct { uint32_t first, blocks, counts[USE_KINDS]; int main_use; } cell;
cell cell_of(const block_use *blocks, uint32_t n, uint32_t first, uint32_t width);

/* ---- explain.c ---- */

/* The first fault of an image; slot and block are -1 and texts empty where none applies. */
typedef struct {
    uint32_t stage;
    const char *rule;
    char path[BULGEFS_MAX_PATH + BULGEFS_MAX_NAME + 2];
    long slot, block;
    char expected[160], found[160 + BULGEFS_MAX_PATH + BULGEFS_MAX_NAME];
} fault;
fault explain(const bytes *image);
const char *stage_name(uint32_t stage);

/* ---- text.c ---- */

void put_time(FILE *out, uint64_t milliseconds);
void put_permissions(FILE *out, uint8_t permissions);
void put_uuid(FILE *out, const volume_info *volume);
/* A text that ends with a zero, by put_text. */
void put_path(FILE *out, const char *path);
/* The same for a page or a picture: markup escaped too. */
void put_markup(FILE *out, const char *text);
/* The volume name up to its first zero. */
size_t volume_name(const volume_info *volume, const uint8_t **name);
/* "1 file", "2 files". */
void put_count(FILE *out, uint64_t count, const char *one, const char *many);

/* Opens a volume for a look; a missing or unsound image is said, as by store_open. */
int open_sound(store *s, const char *path, const options *o);

/* Takes an option out of argv, wherever it stands before "--": whether it was there. */
int take_flag(int *argc, char **argv, const char *flag);
/* The same with a value, which stays as it is without the option; 0 if it has none. */
int take_value(int *argc, char **argv, const char *flag, const char **value);
/* Whether so many arguments are left and no unknown option; takes "--" out. */
int good_arguments(int *argc, char **argv, int least, int most);

/* ---- path.c ---- */

/* As refuse, for a path: the words name what is wrong with it. */
int refuse_path(const store *, uint32_t number, const char *path);
int refuse_path_in(const bytes *image, uint32_t number, const char *path);

/* ---- svg.c ---- */

/* The block map as SVG.  A page has its own style, so it asks for none. */
void map_svg(FILE *out, const bytes *image, const listing *list, const block_use *blocks,
             int with_style);
/* How many blocks of a volume of n blocks are drawn as one cell: 1, or more for a large one. */
uint32_t map_width(uint32_t n);
/* The colours of the map, for a light and a dark ground. */
void map_style(FILE *out);

#endif
