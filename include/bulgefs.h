/*
 * bulgefs.h - a verified settings volume (BulgeFS 0.1.0.0) with an undo journal.
 *
 * A volume is one run of bytes, the image: 512 * n bytes with n from 3 to
 * 65,536, holding named files in a tree of directories.  A journal is a second
 * run of bytes.  Every accepted change adds one record to it, and bulgefs_undo
 * takes the last change back, byte for byte.
 *
 * The library keeps nothing between calls: no handles, no allocation, no
 * input or output, no global state.  Calls on different buffers may run at the
 * same time, and so may calls that only look (const image) on one image; a call
 * that changes an image or a journal must be alone with it.  docs/FORMAT.md has
 * every rule; examples/installer.c shows most of the calls in use.
 *
 * Buffers
 *   The caller owns every buffer and lends it for the length of one call.
 *   Buffers lent to the same call must not overlap.  A pointer may be NULL
 *   only together with length 0.  Buffers of bytes need no alignment; runs of
 *   numbers are aligned for uint32_t, and their lengths count numbers.  The
 *   position of bulgefs_read_next is one aligned uint64_t, and never NULL.
 *
 *   Apart from that there are no preconditions: every call accepts any bytes
 *   at all in any buffer, and any length including 0.
 *
 * Answers
 *   Every call but bulgefs_look_in_place and bulgefs_version answers a number: 0
 *   (BULGEFS_OK) if the call was accepted, otherwise one of the refusals below; bulgefs_text
 *   has words for it.  If several refusals apply, the first in this order is
 *   given: 1 to 8, 27, 19, 9 and 22, 20, 17, 26, 21, 10 to 12, 18, 24, 23, 25, 13
 *   to 16.  A refused call changes no byte of any buffer, and all other fields of
 *   its answer are 0.
 *   Only bulgefs_write_list differs: the writes before the one that was refused
 *   stand, and its answer counts them.
 *
 * What it is not
 *   - The journal is an undo journal, not a journal against loss of power.
 *     Image and journal are memory.  To keep them on a disk, use a volume file
 *     (at the end of this header, and bulgefs_file.h), which saves both whole or
 *     not at all.  Do not use a pair that was half written: most such images are
 *     refused (1 to 7), and then undo is refused too, but some look sound.
 *     bulgefs_salvage_tree makes a sound volume of any of them and keeps what is
 *     whole; bulgefs_salvage does so if the root holds no directory.
 *   - A file's bytes have no checksum.  The check finds damage to the header,
 *     the table and the form of directories; a flipped bit in a file's bytes,
 *     a time or a user is not found.
 *   - A write never shortens a file.  "300" written over "9600" leaves "3000".
 *     bulgefs_replace gives a file other bytes as a whole, bulgefs_shorten cuts
 *     it, and bulgefs_put_settings keeps the earlier revisions too.
 *   - Nothing ties a journal to its image.  Undo with another image's journal
 *     puts that image's blocks into this one.  Keep them together, and start
 *     the journal whenever you replace the image, by an older copy too.
 *   - A journal does not grow.  When it is full, changes are refused with
 *     BULGEFS_JOURNAL_FULL.  Then undo, or give up undoing what stands: save
 *     the image and call bulgefs_journal_start.  See the sizes below.
 *   - A journal holds what was deleted.  A delete zeroes the blocks that it
 *     frees, and so do a set over old attributes and a clear; the image has
 *     nothing of them any more.  The journal's record has their bytes, for
 *     undo, until bulgefs_journal_start zeroes it.
 *
 * Cost
 *   Every call but format, journal start and the salvages checks the image first:
 *   it reads the header, the table and all directories, and no file's bytes.
 *   That is linear in the blocks and in the names, but for names of a directory
 *   whose fingerprints meet: these are compared with one another.  What the call
 *   itself does is small beside it; only bulgefs_plain_check takes longer.  A
 *   change also goes through the journal's records, their lengths and block
 *   numbers.  docs/PERFORMANCE.md has figures.  No call needs more stack than
 *   BULGEFS_STACK.
 *
 * Linking
 *   There are archives for x86-64 with the System V calling convention (Linux and
 *   BSD), for 64-bit ARM and RISC-V on Linux, for Windows on x86-64 and for
 *   WebAssembly; docs/PORTS.md says what is proved and what is trusted on each.
 *   An archive needs memset, the calls for settings memcpy too, and nothing else;
 *   on RISC-V the salvage of a tree needs memmove, and on Windows all need the stack
 *   probe of the compiler's own library.  Every function
 *   has a section of its own: with -Wl,--gc-sections a program that only checks,
 *   finds and reads gets just the reader, which needs memset alone.
 *   The code for x86-64 uses the red zone (the 128 bytes below the stack pointer)
 *   and SSE registers.  A boot loader or kernel that must not have these takes the
 *   boot loader's archive: check, lookup, read and look in place without them.
 */
#ifndef BULGEFS_H
#define BULGEFS_H

#include <stddef.h>
#include <stdint.h>

/*
 * The machines that there is an archive for.  On another one the tests have not
 * shown that structures are laid out and handed over as the library expects.
 * Define BULGEFS_UNSERVED to use the header there all the same, with an archive of
 * your own (docs/PORTS.md).
 */
#if !defined(BULGEFS_UNSERVED)
#if defined(__wasm32__)
#elif defined(__APPLE__) || defined(__ILP32__) || defined(_M_ARM64EC)
#define BULGEFS_NO_ARCHIVE
#elif defined(__x86_64__) || defined(_M_X64)
#elif defined(__aarch64__) && !defined(__AARCH64EB__) && !defined(_WIN32)
#elif defined(__riscv) && __riscv_xlen == 64
#else
#define BULGEFS_NO_ARCHIVE
#endif
#if defined(BULGEFS_NO_ARCHIVE)
#error "BulgeFS has no archive for this machine: docs/PORTS.md lists those that it has, and how to build another."
#endif
#endif

#ifdef __cplusplus
extern "C" {
#endif

/*
 * The version of this header, 10000 * major + 100 * minor + patch.  The minor
 * number rises with every call, number or limit that comes or changes.
 * CHANGELOG.md says what came with each.
 */
#define BULGEFS_VERSION            1400u
#define BULGEFS_VERSION_TEXT       "0.14.0"

/*
 * The compiler says if an answer is not used.  Define BULGEFS_CHECKED as
 * nothing before this header to have it silent.
 */
#ifndef BULGEFS_CHECKED
#if defined(__GNUC__)
#define BULGEFS_CHECKED __attribute__((warn_unused_result))
#else
#define BULGEFS_CHECKED
#endif
#endif

/* Limits. */
#define BULGEFS_BLOCK_SIZE         512u      /* bytes in a block                       */
#define BULGEFS_MIN_BLOCKS         3u        /* blocks in the smallest image           */
#define BULGEFS_MAX_BLOCKS         65536u    /* blocks in the largest image            */
#define BULGEFS_MIN_DIRECTORY_BLOCKS 1u      /* blocks of the smallest directory       */
#define BULGEFS_MAX_DIRECTORY_BLOCKS 64u     /* blocks of the largest directory        */
#define BULGEFS_SLOTS_PER_BLOCK    4u        /* directory slots in a block             */
#define BULGEFS_MAX_LEVELS         8u        /* levels of directories below the root   */
#define BULGEFS_MAX_NAME           80u       /* bytes in the longest name              */
#define BULGEFS_VOLUME_NAME_SIZE   128u      /* bytes of a volume name, always         */
#define BULGEFS_LABELS_SIZE        144u      /* bytes of a UUID and a volume name      */
#define BULGEFS_MAX_DATA           4096u     /* bytes that one write or append accepts */
#define BULGEFS_MAX_LIST           65536u    /* bytes in the longest list of writes    */
#define BULGEFS_MAX_ATTRIBUTE_BLOCKS 8u      /* blocks of a file's attributes          */
#define BULGEFS_MAX_SERIAL         16u       /* bytes in the longest serial number     */
#define BULGEFS_MAX_SETTINGS       200u      /* bytes of settings that one put accepts */
#define BULGEFS_MAX_REVISIONS      16u       /* revisions of settings that are kept    */
#define BULGEFS_MIN_JOURNAL        5u        /* bytes in the smallest journal          */
#define BULGEFS_MAX_JOURNAL        67108864u /* bytes in the largest journal           */
#define BULGEFS_MAX_REPORT         256u      /* bytes of a report of bulgefs_salvage   */
#define BULGEFS_STACK              262144u   /* bytes of stack that suffice for a call */

/* Types.  The 64 of each kind are all treated alike; take the plain one. */
#define BULGEFS_PLAIN_FILE         0x60u     /* the type of a plain file               */
#define BULGEFS_PLAIN_DIRECTORY    0x20u     /* the type of a plain directory          */
#define BULGEFS_MIN_FILE_TYPE      0x60u     /* lowest type of a file                  */
#define BULGEFS_MAX_FILE_TYPE      0x9Fu     /* highest type of a file                 */
#define BULGEFS_MIN_DIRECTORY_TYPE 0x20u     /* lowest type of a directory             */
#define BULGEFS_MAX_DIRECTORY_TYPE 0x5Fu     /* highest type of a directory            */

/* The longest path of a file: each of its names after a '/'. */
#define BULGEFS_MAX_PATH           ((BULGEFS_MAX_LEVELS + 1u) * (BULGEFS_MAX_NAME + 1u))

/* Files and directories that a directory of so many blocks has room for. */
#define BULGEFS_MAX_FILES(directory_blocks) (BULGEFS_SLOTS_PER_BLOCK * (directory_blocks) - 2u)

/*
 * Size of an image.  A file of so many bytes takes BULGEFS_FILE_BLOCKS of them,
 * and as many as it has blocks of attributes; a directory the blocks that it is
 * given.  BULGEFS_IMAGE_BLOCKS of their sum, the root included, is the least n
 * that has room for them, and BULGEFS_IMAGE_SIZE(n) its bytes.
 */
#define BULGEFS_FILE_BLOCKS(size)      ((size) / 512u + ((size) % 512u != 0u))
#define BULGEFS_TABLE_BLOCKS(n)        (((n) + 127u) / 128u)
#define BULGEFS_IMAGE_BLOCKS(content)  ((content) + 1u + ((content) + 127u) / 127u)
#define BULGEFS_IMAGE_SIZE(n)          (BULGEFS_BLOCK_SIZE * (n))

/* Bytes of a report of bulgefs_salvage_tree for an image of n blocks. */
#define BULGEFS_TREE_REPORT_SIZE(n)    (BULGEFS_SLOTS_PER_BLOCK * (n))

/*
 * Size of a journal.  A change that saves k blocks adds BULGEFS_RECORD_SIZE(k)
 * bytes.  A create and a clear of flags save 1 block, the others at most
 *
 *   BULGEFS_WRITE_BLOCKS          a write or an append of so many bytes; 20 for
 *                                 the longest
 *   BULGEFS_DELETE_BLOCKS         a delete in an image of n blocks of a file or
 *                                 directory of so many, attributes included:
 *                                 all of them are saved
 *   BULGEFS_NEW_DIRECTORY_BLOCKS  a directory of d blocks made
 *   BULGEFS_ATTRIBUTES_BLOCKS     attributes of new blocks set over old ones;
 *                                 34 for the longest, and a clear has new 0
 *   BULGEFS_PUT_BLOCKS            settings put into a file that has so many
 *                                 blocks then: all of them are saved; 11 for the
 *                                 most that puts alone make of a file
 *
 * BULGEFS_PUTS_SIZE is the bytes that the first so many puts of a box add at most,
 * of up to so many bytes each: its file grows by a block now and then, so this is
 * much less than as many records of the longest.
 *
 * So for a thousand settings that are created and written once, 200 bytes each,
 * with undo for all of them:
 *
 *   BULGEFS_JOURNAL_SIZE(1000, 1) + BULGEFS_JOURNAL_SIZE(1000, BULGEFS_WRITE_BLOCKS(200))
 *
 * BULGEFS_JOURNAL_SIZE(1, n) has room for any one change of an image of n blocks.
 * A size is a number of the arguments' type, of 32 bits at least: hand over a
 * size_t where it may come to 4 GiB, and hold it against BULGEFS_MAX_JOURNAL.
 */
#define BULGEFS_RECORD_SIZE(k)         (4u + 516u * (k))
#define BULGEFS_WRITE_BLOCKS(bytes)    (3u + ((bytes) + 1022u) / 512u + ((bytes) + 511u) / 512u)
#define BULGEFS_DELETE_BLOCKS(blocks, n) (2u + (blocks) \
    + ((blocks) < BULGEFS_TABLE_BLOCKS(n) ? (blocks) : BULGEFS_TABLE_BLOCKS(n)))
#define BULGEFS_NEW_DIRECTORY_BLOCKS(d) (2u + 2u * (d))
#define BULGEFS_ATTRIBUTES_BLOCKS(old_blocks, new_blocks) (2u + 2u * ((old_blocks) + (new_blocks)))
#define BULGEFS_PUT_BLOCKS(blocks)     (4u + (blocks))
#define BULGEFS_JOURNAL_SIZE(changes, k) (BULGEFS_MIN_JOURNAL + (changes) * BULGEFS_RECORD_SIZE(k))
#define BULGEFS_PUTS_SIZE(revisions, data_len) (4u * (revisions) \
    + 516u * (2u * (revisions) + 3u * BULGEFS_FILE_BLOCKS(BULGEFS_SETTINGS_SIZE(revisions, data_len)) \
    + BULGEFS_FILE_BLOCKS(5u * (revisions) + (5u + (data_len)) * ((revisions) * ((revisions) + 1u) / 2u))))

/*
 * Size of a list of writes: BULGEFS_LIST_HEAD and the BULGEFS_ITEM_SIZE of each
 * of its items, at most BULGEFS_MAX_LIST.
 */
#define BULGEFS_LIST_HEAD              5u
#define BULGEFS_ITEM_SIZE(path_len, data_len) (18u + (path_len) + (data_len))

/*
 * Size of a file of settings: so many revisions of so many bytes each.  Puts
 * alone never make it longer than 3,285 bytes, which are 7 blocks.
 */
#define BULGEFS_SETTINGS_SIZE(revisions, data_len) (5u + (revisions) * (5u + (data_len)))

/* The number that a call answers. */
enum bulgefs_number {
    BULGEFS_OK              = 0,

    /* The image is not sound; the number is the first stage of the check that fails. */
    BULGEFS_BAD_LENGTH      = 1,  /* length is not 512 * n with n from 3 to 65,536     */
    BULGEFS_BAD_SIGNATURE   = 2,  /* signature or version                              */
    BULGEFS_BAD_GEOMETRY    = 3,  /* total blocks, table blocks or root block          */
    BULGEFS_BAD_SELF        = 4,  /* self entry, chain or level of a directory         */
    BULGEFS_BAD_SLOT        = 5,  /* another slot of a directory                       */
    BULGEFS_BAD_CHAINS      = 6,  /* a chain of a file, or another entry of the table  */
    BULGEFS_BAD_COUNTS      = 7,  /* the header's counts of occupied and free blocks   */

    /* The image is sound, but the call cannot be done. */
    BULGEFS_BAD_JOURNAL     = 8,  /* the journal is not well formed                    */
    BULGEFS_BAD_ARGUMENT    = 9,  /* bad path or type, too much data; see each call    */
    BULGEFS_NOT_FOUND       = 10, /* no such file, or no such directory                */
    BULGEFS_NAME_TAKEN      = 11, /* creates: a file or directory of that path exists  */
    BULGEFS_BAD_OFFSET      = 12, /* offset above the file's size                      */
    BULGEFS_DIRECTORY_FULL  = 13, /* creates, puts: no free slot in the directory      */
    BULGEFS_VOLUME_FULL     = 14, /* fewer free blocks than needed                     */
    BULGEFS_JOURNAL_FULL    = 15, /* the record does not fit into the journal          */
    BULGEFS_NOTHING_TO_UNDO = 16, /* undo: the journal holds no record                 */
    BULGEFS_TOO_DEEP        = 17, /* more than 8 directories in a path; after 20       */
    BULGEFS_NOT_EMPTY       = 18, /* the directory to delete is not empty; after 12    */
    BULGEFS_BAD_LIST        = 19, /* the list of writes is not of the form; after 8    */
    BULGEFS_TOO_MANY_BLOCKS = 20, /* more than 8 blocks of attributes; just after 9    */
    BULGEFS_BAD_TABLE_SIZE  = 21, /* entry_count is not the number of blocks; after 9  */
    BULGEFS_BAD_SETTINGS    = 22, /* bad serial number, amount or buffer; where 9 is   */
    BULGEFS_NO_REVISION     = 23, /* gets: no such revision stands; after 24           */
    BULGEFS_NOT_SETTINGS    = 24, /* the file is not one of settings; after 12         */
    BULGEFS_REVISIONS_USED  = 25, /* puts: revision numbers are used up; after 23      */
    BULGEFS_BAD_FLAGS       = 26, /* creates: flags other than 0; just after 17        */
    BULGEFS_NO_MARK         = 27  /* undo to a mark: no mark of the journal; after 8   */
};

/*
 * What bulgefs_salvage did with a slot of the root (0 to 4), and what
 * bulgefs_salvage_tree did with a slot or a block.
 */
enum bulgefs_code {
    BULGEFS_KEPT            = 0,  /* nothing                                           */
    BULGEFS_ENTRY_LOST      = 1,  /* cleared it: its entry was bad                     */
    BULGEFS_FILE_LOST       = 2,  /* cleared it: its file's chain was bad              */
    BULGEFS_END_MENDED      = 3,  /* ended a chain at the file's size; last slot: type */
    BULGEFS_ATTRIBUTES_LOST = 4,  /* kept the file and took its attributes away        */
    BULGEFS_BLOCK_FREED     = 5,  /* freed the block, which had been in use            */
    BULGEFS_DIRECTORY_FOUND = 6   /* put a lost directory into this slot of the root   */
};

/* The keyword for a function that stands in a header; C89 has none. */
#if defined(__cplusplus) || (defined(__STDC_VERSION__) && __STDC_VERSION__ >= 199901L)
#define BULGEFS_INLINE static inline
#elif defined(__GNUC__)
#define BULGEFS_INLINE static __inline__
#else
#define BULGEFS_INLINE static
#endif

/* Words for a number. */
BULGEFS_INLINE const char *bulgefs_text(uint32_t number)
{
    switch (number) {
    case BULGEFS_OK:              return "accepted";
    case BULGEFS_BAD_LENGTH:      return "image has a bad length";
    case BULGEFS_BAD_SIGNATURE:   return "image has no signature or another version";
    case BULGEFS_BAD_GEOMETRY:    return "image has bad block numbers in its header";
    case BULGEFS_BAD_SELF:        return "a directory is damaged";
    case BULGEFS_BAD_SLOT:        return "a directory slot is damaged";
    case BULGEFS_BAD_CHAINS:      return "a chain or the table is damaged";
    case BULGEFS_BAD_COUNTS:      return "counts of used and free blocks are wrong";
    case BULGEFS_BAD_JOURNAL:     return "journal is not well formed";
    case BULGEFS_BAD_ARGUMENT:    return "bad path, type or amount";
    case BULGEFS_NOT_FOUND:       return "not found";
    case BULGEFS_NAME_TAKEN:      return "name is taken";
    case BULGEFS_BAD_OFFSET:      return "offset is past the file's end";
    case BULGEFS_DIRECTORY_FULL:  return "no free slot in the directory";
    case BULGEFS_VOLUME_FULL:     return "not enough free blocks";
    case BULGEFS_JOURNAL_FULL:    return "journal is full";
    case BULGEFS_NOTHING_TO_UNDO: return "nothing to undo";
    case BULGEFS_TOO_DEEP:        return "too many directories in the path";
    case BULGEFS_NOT_EMPTY:       return "directory is not empty";
    case BULGEFS_BAD_LIST:        return "list of writes is not of the form";
    case BULGEFS_TOO_MANY_BLOCKS: return "too many blocks of attributes";
    case BULGEFS_BAD_TABLE_SIZE:  return "not one number for each block";
    case BULGEFS_BAD_SETTINGS:    return "bad serial number, amount or buffer for settings";
    case BULGEFS_NO_REVISION:     return "no such revision";
    case BULGEFS_NOT_SETTINGS:    return "file is not one of settings";
    case BULGEFS_REVISIONS_USED:  return "revision numbers are used up";
    case BULGEFS_BAD_FLAGS:       return "system flags are not zero";
    case BULGEFS_NO_MARK:         return "no such mark in the journal";
    default:                      return "no such number";
    }
}

/* Sixteen bytes, handed over by value. */
typedef struct { uint8_t bytes[16]; } bulgefs_uuid;

/* A file: its slot in its directory, size in bytes and size in blocks. */
typedef struct { uint32_t number, slot, size, blocks; } bulgefs_found;

/* How many bytes of a buffer were filled. */
typedef struct { uint32_t number, count; } bulgefs_filled;

/* A part of the caller's image: offset of its first byte, and its length. */
typedef struct { uint32_t start, length; } bulgefs_part;

/*
 * A volume: its blocks, those in use, those free (used + free = blocks), and
 * the blocks of its root directory.
 */
typedef struct { uint32_t number, blocks, used, free, root_blocks; } bulgefs_volume;

/*
 * An entry of a directory: its slot, or 0 if there is none; its fields.  size
 * is in bytes and 0 of a directory; blocks and attribute_size are in blocks;
 * first and attribute_block are 0 where there are none.
 */
typedef struct {
    uint32_t number, slot;
    uint8_t type, user, group, permissions;
    uint32_t flags;
    uint64_t created, modified;
    uint32_t first, size, blocks, attribute_block, attribute_size;
} bulgefs_slot;

/* The slot of what was created, and the length of the record added to the journal. */
typedef struct { uint32_t number, slot, record; } bulgefs_created;

/* The length of the record added to the journal, or taken back by an undo. */
typedef struct { uint32_t number, record; } bulgefs_changed;

/*
 * How many writes of a list were done, and the refusal that stopped it; with
 * BULGEFS_OK all of them were done.  Of an undo to a mark, how many changes were
 * taken back: all since the mark, or with a refusal none.
 */
typedef struct { uint32_t number, done; } bulgefs_listed;

/*
 * A journal: its used length, which is a mark, the number of records that stand,
 * and the length of the last one, 0 if there is none.
 */
typedef struct { uint32_t number, used, records, last; } bulgefs_journal;

/* The revision that was put, and the length of the record added to the journal. */
typedef struct { uint32_t number, revision, record; } bulgefs_put;

/* The revision that a buffer was filled with, and the length of its data. */
typedef struct { uint32_t number, revision, length; } bulgefs_got;

/* How many entries bulgefs_salvage_tree dropped, and how many blocks it freed. */
typedef struct { uint32_t number, dropped, freed; } bulgefs_salvaged;

/*
 * Paths
 *   A name is 1 to 80 bytes, none of them zero or '/'.  Names are equal when
 *   all their bytes are.  A path is '/' and one or more names with '/' between,
 *   as "/stage/SN4471", handed over without a terminating zero.  Every call
 *   that takes a path refuses anything else with BULGEFS_BAD_ARGUMENT; only
 *   bulgefs_entry takes "/" too, as the root.
 *
 *   All names but the last are those of directories, and there may be no more
 *   than 8 of these; in the calls for directories the last name counts too.
 *   A path of more is refused with BULGEFS_TOO_DEEP.  A path that leads through
 *   a file or a missing part, or to a directory where a file is wanted, or the
 *   reverse, is refused with BULGEFS_NOT_FOUND.
 *
 * Times
 *   A time is any 64-bit number, stored as given; no call compares it or looks
 *   at a clock.  BulgeFS means milliseconds since 1970 began (UTC): take these
 *   if other programs read the image.
 */

/*
 * The version of the library that the program was linked with, as BULGEFS_VERSION
 * is that of the header.  With a shared library the two may differ.
 */
BULGEFS_CHECKED
uint32_t bulgefs_version(void);

/*
 * Checks the whole image.  BULGEFS_OK means that the image is sound.
 * Refusals: 1 to 7.
 */
BULGEFS_CHECKED
uint32_t bulgefs_check(const uint8_t *image, size_t image_len);

/*
 * A second check, short enough to be read in an evening: it gives the same
 * number as bulgefs_check on every image, and finds it by walking every chain
 * anew for each block.  Its time grows with the square of the blocks, to 13
 * seconds for the largest volume if files fill it, and to ten minutes if
 * directories do (docs/PLAIN-CHECK.md).
 * Refusals: 1 to 7.
 */
BULGEFS_CHECKED
uint32_t bulgefs_plain_check(const uint8_t *image, size_t image_len);

/*
 * Makes an empty volume of the whole image and writes every byte of it.  The
 * root directory gets root_blocks blocks, room for 4 * root_blocks - 2 files
 * and directories.  time is stored as both times of the root.  The volume name
 * is any 128 bytes.
 * Refusals: BULGEFS_BAD_LENGTH; BULGEFS_BAD_ARGUMENT (root_blocks outside 1
 * to 64, volume_name_len other than 128); BULGEFS_VOLUME_FULL (header, table
 * and root do not fit into the image).
 */
BULGEFS_CHECKED
uint32_t bulgefs_format(uint8_t *image, size_t image_len,
                        uint32_t root_blocks, uint64_t time, bulgefs_uuid uuid,
                        const uint8_t *volume_name, size_t volume_name_len);

/*
 * Finds a file.
 * Refusals: 1 to 7, BULGEFS_BAD_ARGUMENT, BULGEFS_TOO_DEEP, BULGEFS_NOT_FOUND.
 */
BULGEFS_CHECKED
bulgefs_found bulgefs_lookup(const uint8_t *image, size_t image_len,
                             const uint8_t *path, size_t path_len);

/*
 * Copies a file's bytes from offset on into the buffer: as many as there are
 * and fit, and answers how many.  The rest of the buffer stays as it is.
 * Reading at offset = size is accepted and gives 0 bytes.
 * Refusals: 1 to 7, BULGEFS_BAD_ARGUMENT, BULGEFS_TOO_DEEP, BULGEFS_NOT_FOUND,
 * BULGEFS_BAD_OFFSET.
 */
BULGEFS_CHECKED
bulgefs_filled bulgefs_read(const uint8_t *image, size_t image_len,
                            const uint8_t *path, size_t path_len,
                            uint64_t offset, uint8_t *buffer, size_t buffer_len);

/*
 * Reads on: bulgefs_read at *position, which then moves on by the count.  Set
 * it to 0 to read a file from its start, and call until the count is 0, with
 * buffers of one byte or more: if nothing was written to the image between, the
 * bytes joined are the file's.  Image and path are looked at anew by each call.
 * A refused call leaves *position as it is; it may be any number.
 * Refusals: 1 to 7, BULGEFS_BAD_ARGUMENT, BULGEFS_TOO_DEEP, BULGEFS_NOT_FOUND,
 * BULGEFS_BAD_OFFSET (*position above the file's size).
 */
BULGEFS_CHECKED
bulgefs_filled bulgefs_read_next(const uint8_t *image, size_t image_len,
                                 const uint8_t *path, size_t path_len,
                                 uint64_t *position, uint8_t *buffer, size_t buffer_len);

/*
 * Tells where in the image a file's block lies, without copying: the length
 * bytes of the file from 512 * index on are those from image[start] on, until
 * the image is changed.  index counts from 0; the last block is cut at the
 * file's end.  The part is empty, start and length 0, exactly if the image is
 * not sound, the path is bad, too deep or not found, or index is not below the
 * file's blocks; bulgefs_lookup tells which.
 */
BULGEFS_CHECKED
bulgefs_part bulgefs_look_in_place(const uint8_t *image, size_t image_len,
                                   const uint8_t *path, size_t path_len,
                                   uint64_t index);

/*
 * Tells the volume's numbers, and copies its UUID (16 bytes) and behind it its
 * volume name (128 bytes) into the buffer: as many of these 144 as fit.  The
 * rest of the buffer stays as it is.
 * Refusals: 1 to 7.
 */
BULGEFS_CHECKED
bulgefs_volume bulgefs_info(const uint8_t *image, size_t image_len,
                            uint8_t *labels, size_t labels_len);

/*
 * Tells of the entry in the lowest slot, from the given one on, that is not
 * free, of a directory; the path of the root is "/".  Files and directories
 * are both told, in slot order.  The name's field, the name and zeros after
 * it, is copied into the buffer: as many of its 80 bytes as fit.  The rest of
 * the buffer stays as it is, so that a byte 0 at its end ends every name.  If
 * there is no such slot the call is accepted, slot and all other fields are 0,
 * and the buffer stays as it is.  So a directory is listed by
 *
 *   uint8_t name[BULGEFS_MAX_NAME + 1] = { 0 };
 *   bulgefs_slot e = bulgefs_entry(image, image_len, path, path_len,
 *                                  1, name, BULGEFS_MAX_NAME);
 *   while (e.slot != 0) {
 *       ...
 *       e = bulgefs_entry(image, image_len, path, path_len,
 *                         e.slot + 1, name, BULGEFS_MAX_NAME);
 *   }
 *
 * after which e.number is 0, or the refusal.  Slot 0 is taken as slot 1.
 * Refusals: 1 to 7, BULGEFS_BAD_ARGUMENT, BULGEFS_TOO_DEEP, BULGEFS_NOT_FOUND
 * (also for the path of a file).
 */
BULGEFS_CHECKED
bulgefs_slot bulgefs_entry(const uint8_t *image, size_t image_len,
                           const uint8_t *path, size_t path_len,
                           uint32_t slot, uint8_t *name, size_t name_len);

/*
 * Makes an empty journal of the whole buffer and writes every byte of it.
 * Refusals: BULGEFS_BAD_JOURNAL (length outside 5 to 67,108,864).
 */
BULGEFS_CHECKED
uint32_t bulgefs_journal_start(uint8_t *journal, size_t journal_len);

/*
 * Creates an empty file in the lowest free slot of its directory, which must
 * exist.  time becomes both times of the file.  Users, groups, permissions
 * and times are stored as given and never enforced.  flags must be 0.
 * Refusals: 1 to 7, BULGEFS_BAD_JOURNAL, BULGEFS_BAD_ARGUMENT (also for a
 * type outside 0x60 to 0x9F), BULGEFS_TOO_DEEP, BULGEFS_BAD_FLAGS,
 * BULGEFS_NOT_FOUND, BULGEFS_NAME_TAKEN, BULGEFS_DIRECTORY_FULL,
 * BULGEFS_JOURNAL_FULL.
 */
BULGEFS_CHECKED
bulgefs_created bulgefs_create(uint8_t *image, size_t image_len,
                               uint8_t *journal, size_t journal_len,
                               const uint8_t *path, size_t path_len,
                               uint8_t type, uint8_t user, uint8_t group,
                               uint8_t permissions, uint32_t flags, uint64_t time);

/*
 * Puts data into a file at offset; the file grows if the data reaches past
 * its end, and never becomes shorter (see "What it is not").  The modified
 * time becomes time.  A write of no bytes is a change too: it sets the time
 * and adds a record.
 * Refusals: 1 to 7, BULGEFS_BAD_JOURNAL, BULGEFS_BAD_ARGUMENT (also for
 * data_len above 4,096), BULGEFS_TOO_DEEP, BULGEFS_NOT_FOUND,
 * BULGEFS_BAD_OFFSET, BULGEFS_VOLUME_FULL, BULGEFS_JOURNAL_FULL.
 */
BULGEFS_CHECKED
bulgefs_changed bulgefs_write(uint8_t *image, size_t image_len,
                              uint8_t *journal, size_t journal_len,
                              const uint8_t *path, size_t path_len,
                              uint64_t offset, const uint8_t *data, size_t data_len,
                              uint64_t time);

/*
 * Shortens a file to its first size bytes.  The blocks that it no longer needs
 * become free, and their bytes and those behind the new end become 0.  The
 * modified time becomes time.  A size that the file has already is accepted:
 * it sets the time and adds a record.  size must not be above the file's size.
 * Refusals: 1 to 7, BULGEFS_BAD_JOURNAL, BULGEFS_BAD_ARGUMENT,
 * BULGEFS_TOO_DEEP, BULGEFS_NOT_FOUND, BULGEFS_BAD_OFFSET (for size),
 * BULGEFS_JOURNAL_FULL.
 */
BULGEFS_CHECKED
bulgefs_changed bulgefs_shorten(uint8_t *image, size_t image_len,
                                uint8_t *journal, size_t journal_len,
                                const uint8_t *path, size_t path_len,
                                uint64_t size, uint64_t time);

/*
 * Gives a file other bytes: they are then exactly data.  The modified time
 * becomes time, and all else of the file stays.  It is one change that leaves
 * what bulgefs_shorten to the smaller of the two sizes and bulgefs_write at 0
 * would leave, both with this time.
 * Refusals: 1 to 7, BULGEFS_BAD_JOURNAL, BULGEFS_BAD_ARGUMENT (also for
 * data_len above 4,096), BULGEFS_TOO_DEEP, BULGEFS_NOT_FOUND,
 * BULGEFS_VOLUME_FULL, BULGEFS_JOURNAL_FULL.
 */
BULGEFS_CHECKED
bulgefs_changed bulgefs_replace(uint8_t *image, size_t image_len,
                                uint8_t *journal, size_t journal_len,
                                const uint8_t *path, size_t path_len,
                                const uint8_t *data, size_t data_len,
                                uint64_t time);

/*
 * Appends a piece to a file: bulgefs_write at the file's end as it then stands,
 * with the same answer, image and journal.  So a file may arrive a bit at a
 * time: pieces of 0 to 4,096 bytes cut anywhere, all with one time and all
 * accepted, leave the image that one write of all their bytes would if it had
 * no limit.  Each has its own record, and bulgefs_undo takes back one at a time.
 *
 * A piece of no bytes does nothing, not even the time: it adds no record, and
 * is answered with 0 and 0, also beside a full journal.
 * Refusals: 1 to 7, BULGEFS_BAD_JOURNAL, BULGEFS_BAD_ARGUMENT (also for
 * piece_len above 4,096), BULGEFS_TOO_DEEP, BULGEFS_NOT_FOUND,
 * BULGEFS_VOLUME_FULL, BULGEFS_JOURNAL_FULL.
 */
BULGEFS_CHECKED
bulgefs_changed bulgefs_append(uint8_t *image, size_t image_len,
                               uint8_t *journal, size_t journal_len,
                               const uint8_t *path, size_t path_len,
                               const uint8_t *piece, size_t piece_len,
                               uint64_t time);

/*
 * Makes the writes of a list, in order, until the first that is refused.  Image,
 * journal and answer are those of as many calls of bulgefs_write: each write
 * that was done has its own record, and bulgefs_undo takes back one at a time.
 * The image is checked and the journal gone through once for the whole list.
 *
 * A list is the byte 1, the length of the whole list (4 bytes) and the items;
 * an item is its own length (4 bytes, these included), time (8), offset (4),
 * the path's length (2), the path, and the data up to the item's end.  Numbers
 * are big-endian.  A list of no items is accepted.
 * Refusals: 1 to 7, BULGEFS_BAD_JOURNAL, BULGEFS_BAD_LIST (list_len above
 * 65,536, or lengths that do not fill list and items exactly): nothing was
 * done.  Then those of bulgefs_write: done writes stand.
 */
BULGEFS_CHECKED
bulgefs_listed bulgefs_write_list(uint8_t *image, size_t image_len,
                                  uint8_t *journal, size_t journal_len,
                                  const uint8_t *list, size_t list_len);

/*
 * Deletes a file and frees its blocks, those of its attributes too.  All bytes
 * of a freed block become 0; blocks that were free before keep theirs.  The
 * record holds the freed blocks, so it is larger than the file.
 * Refusals: 1 to 7, BULGEFS_BAD_JOURNAL, BULGEFS_BAD_ARGUMENT,
 * BULGEFS_TOO_DEEP, BULGEFS_NOT_FOUND, BULGEFS_JOURNAL_FULL.
 */
BULGEFS_CHECKED
bulgefs_changed bulgefs_delete(uint8_t *image, size_t image_len,
                               uint8_t *journal, size_t journal_len,
                               const uint8_t *path, size_t path_len);

/*
 * Creates an empty directory of so many blocks, with room for 4 * blocks - 2
 * files and directories, in the lowest free slot of the directory above it.
 * What is given is stored in its entry as by bulgefs_create; time is also
 * stored as both times of its self entry.  The times of the directory above
 * stay.
 * Refusals: 1 to 7, BULGEFS_BAD_JOURNAL, BULGEFS_BAD_ARGUMENT (also for a
 * type outside 0x20 to 0x5F, or blocks outside 1 to 64), BULGEFS_TOO_DEEP,
 * BULGEFS_BAD_FLAGS, BULGEFS_NOT_FOUND, BULGEFS_NAME_TAKEN,
 * BULGEFS_DIRECTORY_FULL, BULGEFS_VOLUME_FULL, BULGEFS_JOURNAL_FULL.
 */
BULGEFS_CHECKED
bulgefs_created bulgefs_create_directory(uint8_t *image, size_t image_len,
                                         uint8_t *journal, size_t journal_len,
                                         const uint8_t *path, size_t path_len,
                                         uint8_t type, uint8_t user, uint8_t group,
                                         uint8_t permissions, uint32_t flags,
                                         uint32_t blocks, uint64_t time);

/*
 * Deletes a directory that holds no file and no directory, and frees its
 * blocks, whose bytes become 0 as by bulgefs_delete.
 * Refusals: 1 to 7, BULGEFS_BAD_JOURNAL, BULGEFS_BAD_ARGUMENT,
 * BULGEFS_TOO_DEEP, BULGEFS_NOT_FOUND, BULGEFS_NOT_EMPTY,
 * BULGEFS_JOURNAL_FULL.
 */
BULGEFS_CHECKED
bulgefs_changed bulgefs_delete_directory(uint8_t *image, size_t image_len,
                                         uint8_t *journal, size_t journal_len,
                                         const uint8_t *path, size_t path_len);

/*
 * Attributes
 *   A file may have attributes beside its bytes: 1 to 8 whole blocks of 512
 *   bytes, of any content.  They are no part of the file: its bytes, size and
 *   times stay whatever is done with them.  Fill up with zeros, or store a
 *   length in front.
 */

/*
 * Sets a file's attributes to data, data_len / 512 blocks.  Old ones are freed
 * first, and their blocks count as free; blocks that are not taken again become
 * 0 as by bulgefs_delete.
 * Refusals: 1 to 7, BULGEFS_BAD_JOURNAL, BULGEFS_BAD_ARGUMENT (also for
 * data_len 0, or not a multiple of 512), BULGEFS_TOO_MANY_BLOCKS (data_len
 * above 4,096), BULGEFS_TOO_DEEP, BULGEFS_NOT_FOUND, BULGEFS_VOLUME_FULL,
 * BULGEFS_JOURNAL_FULL.
 */
BULGEFS_CHECKED
bulgefs_changed bulgefs_set_attributes(uint8_t *image, size_t image_len,
                                       uint8_t *journal, size_t journal_len,
                                       const uint8_t *path, size_t path_len,
                                       const uint8_t *data, size_t data_len);

/*
 * Copies a file's attributes into the buffer: as many whole blocks as there are
 * and fit, and answers the count of their bytes.  The rest of the buffer stays
 * as it is.  A file without attributes, or a buffer below 512 bytes, gives 0.
 * Refusals: 1 to 7, BULGEFS_BAD_ARGUMENT, BULGEFS_TOO_DEEP, BULGEFS_NOT_FOUND.
 */
BULGEFS_CHECKED
bulgefs_filled bulgefs_read_attributes(const uint8_t *image, size_t image_len,
                                       const uint8_t *path, size_t path_len,
                                       uint8_t *buffer, size_t buffer_len);

/*
 * Takes a file's attributes away and frees their blocks, which become 0 as by
 * bulgefs_delete.  With none it is accepted too, and adds a record.
 * Refusals: 1 to 7, BULGEFS_BAD_JOURNAL, BULGEFS_BAD_ARGUMENT,
 * BULGEFS_TOO_DEEP, BULGEFS_NOT_FOUND, BULGEFS_JOURNAL_FULL.
 */
BULGEFS_CHECKED
bulgefs_changed bulgefs_clear_attributes(uint8_t *image, size_t image_len,
                                         uint8_t *journal, size_t journal_len,
                                         const uint8_t *path, size_t path_len);

/*
 * Sets a file's system flags to 0.  An older installer wrote the number of a
 * USB port there: such a file is sound, and keeps the number until this call.
 * No time changes, nor any other byte of the image.  With flags 0 already it is
 * accepted too, and adds a record.
 * Refusals: 1 to 7, BULGEFS_BAD_JOURNAL, BULGEFS_BAD_ARGUMENT,
 * BULGEFS_TOO_DEEP, BULGEFS_NOT_FOUND, BULGEFS_JOURNAL_FULL.
 */
BULGEFS_CHECKED
bulgefs_changed bulgefs_clear_flags(uint8_t *image, size_t image_len,
                                    uint8_t *journal, size_t journal_len,
                                    const uint8_t *path, size_t path_len);

/*
 * Moves a file: the file of path is then the file of to, with all its bytes,
 * times, attributes and other fields, and nothing is at path.  Its entry, with
 * the last part of to for its name, goes to the lowest slot of to's directory
 * that is free or is the file's own; slot is that slot.  No time and no block
 * of the file changes.  Folders are not moved.  A record has 520 bytes where
 * both slots are in one directory block, else 1,036.
 * Refusals: 1 to 7, BULGEFS_BAD_JOURNAL, BULGEFS_BAD_ARGUMENT (either path),
 * BULGEFS_TOO_DEEP (either path), BULGEFS_NOT_FOUND (no file is at path, or to
 * leads through a file or a missing part), BULGEFS_NAME_TAKEN (something is at
 * to, also if to is path), BULGEFS_DIRECTORY_FULL (never within one folder),
 * BULGEFS_JOURNAL_FULL.
 */
BULGEFS_CHECKED
bulgefs_created bulgefs_move(uint8_t *image, size_t image_len,
                             uint8_t *journal, size_t journal_len,
                             const uint8_t *path, size_t path_len,
                             const uint8_t *to, size_t to_len);

/*
 * Settings with a past
 *   Beside named files there may be settings by serial number, 1 to 16 ASCII
 *   letters and digits, handed over without a terminating zero.  The settings of
 *   a box are 0 to 200 bytes.  Each put makes a new revision of them: the first
 *   has number 1, each next one more than the latest.  The last 16 revisions
 *   stand and can be had by their numbers.
 *
 *   They are kept in the file of that name, in the root or in another directory,
 *   which the first put makes; docs/FORMAT.md has its form.  bulgefs_delete takes
 *   all revisions away, and the next put begins with 1.  What other calls write
 *   into the file is not hindered; a file that is not of the form is refused with
 *   BULGEFS_NOT_SETTINGS, an empty one too.
 *
 *   How many boxes fit: the root of d blocks has room for 4 * d - 2 names, at most
 *   254, and no directory grows.  A first put into a full root is refused with
 *   BULGEFS_DIRECTORY_FULL however many blocks are free.  For more boxes, make
 *   directories (bulgefs_create_directory) and use the calls that end in _in.
 *   Sizes for 900 boxes in nine directories of 26 blocks, with 16 revisions of up
 *   to 200 bytes each:
 *
 *     image    BULGEFS_IMAGE_SIZE(BULGEFS_IMAGE_BLOCKS(900u * 7u + 9u * 26u + 3u))
 *     journal  BULGEFS_MIN_JOURNAL + 900u * BULGEFS_PUTS_SIZE(16u, 200u), to take back
 *              every put; BULGEFS_JOURNAL_SIZE(1u, BULGEFS_PUT_BLOCKS(7u)), the last
 */

/*
 * Puts new settings: adds a revision, which drops the oldest where 16 stand, and
 * answers its number.  It is one change with one record, and bulgefs_undo takes
 * it back.  The first put creates the file of type 0x60 with both times time and
 * user, group, permissions and flags 0; a later one sets the modified time.  The
 * file is rewritten as a whole, keeps its size where the revisions get shorter
 * (zeros after them), and all its blocks are saved.
 * Refusals: 1 to 7, BULGEFS_BAD_JOURNAL, BULGEFS_BAD_SETTINGS (no serial number,
 * or data_len above 200), BULGEFS_NAME_TAKEN (the root holds a directory of that
 * name), BULGEFS_NOT_SETTINGS, BULGEFS_REVISIONS_USED (the latest revision is
 * 4,294,967,295), BULGEFS_DIRECTORY_FULL (a first put, and the root has no free
 * slot), BULGEFS_VOLUME_FULL, BULGEFS_JOURNAL_FULL.
 */
BULGEFS_CHECKED
bulgefs_put bulgefs_put_settings(uint8_t *image, size_t image_len,
                                 uint8_t *journal, size_t journal_len,
                                 const uint8_t *serial, size_t serial_len,
                                 const uint8_t *data, size_t data_len,
                                 uint64_t time);

/*
 * Copies the settings of a revision, or of the latest one, to the front of the
 * buffer, and answers its number and the length of its data.  The rest of the
 * buffer stays as it is.  The buffer has 200 bytes or more, however few the
 * settings are.
 * Refusals: 1 to 7, BULGEFS_BAD_SETTINGS (no serial number, or buffer_len below
 * 200), BULGEFS_NOT_FOUND (the root holds no file of that name),
 * BULGEFS_NOT_SETTINGS; bulgefs_get_settings also BULGEFS_NO_REVISION (the
 * revision is 0, or does not stand any more, or not yet).
 */
BULGEFS_CHECKED
bulgefs_got bulgefs_get_settings(const uint8_t *image, size_t image_len,
                                 const uint8_t *serial, size_t serial_len,
                                 uint32_t revision, uint8_t *buffer, size_t buffer_len);

BULGEFS_CHECKED
bulgefs_got bulgefs_get_latest_settings(const uint8_t *image, size_t image_len,
                                        const uint8_t *serial, size_t serial_len,
                                        uint8_t *buffer, size_t buffer_len);

/*
 * The same three in a directory: "/" for the root, or the path of a directory as
 * "/a/b", handed over without a terminating zero.  The file is the one of the
 * serial number in that directory.  With "/" they are the calls above, to the byte.
 * Two directories may hold the same serial number; each has its own revisions.
 * A put does not make the directory: bulgefs_create_directory does.
 * Refusals: those of the calls above, of that directory in the place of the root.
 * BULGEFS_BAD_SETTINGS also for a directory that is neither "/" nor of the form
 * of a path; after it BULGEFS_TOO_DEEP (more than 8 directories in it), then
 * BULGEFS_NOT_FOUND where no such directory is there, of a put too.
 */
BULGEFS_CHECKED
bulgefs_put bulgefs_put_settings_in(uint8_t *image, size_t image_len,
                                    uint8_t *journal, size_t journal_len,
                                    const uint8_t *directory, size_t directory_len,
                                    const uint8_t *serial, size_t serial_len,
                                    const uint8_t *data, size_t data_len,
                                    uint64_t time);

BULGEFS_CHECKED
bulgefs_got bulgefs_get_settings_in(const uint8_t *image, size_t image_len,
                                    const uint8_t *directory, size_t directory_len,
                                    const uint8_t *serial, size_t serial_len,
                                    uint32_t revision, uint8_t *buffer, size_t buffer_len);

BULGEFS_CHECKED
bulgefs_got bulgefs_get_latest_settings_in(const uint8_t *image, size_t image_len,
                                           const uint8_t *directory, size_t directory_len,
                                           const uint8_t *serial, size_t serial_len,
                                           uint8_t *buffer, size_t buffer_len);

/*
 * Takes the last change back: puts the blocks of the journal's last record
 * into the image and removes the record.  Image and journal are then, byte
 * for byte, what they were before that change; if the journal had bytes other
 * than zero past its used part, those that the record covered are zero.
 * The journal must be the image's own.  With a well-formed journal of another
 * image the call still puts the recorded blocks back, and the image need not
 * be sound afterwards.
 * Refusals: 1 to 7, BULGEFS_BAD_JOURNAL, BULGEFS_NOTHING_TO_UNDO.
 */
BULGEFS_CHECKED
bulgefs_changed bulgefs_undo(uint8_t *image, size_t image_len,
                             uint8_t *journal, size_t journal_len);

/* The mark of a journal just started: undo to it takes every change back. */
#define BULGEFS_FIRST_MARK 5u

/*
 * What stands in a journal.  used is a mark: note it, and bulgefs_undo_to takes
 * back what was changed since.
 * Refusals: 1 to 7, BULGEFS_BAD_JOURNAL.
 */
BULGEFS_CHECKED
bulgefs_journal bulgefs_journal_info(const uint8_t *image, size_t image_len,
                                     const uint8_t *journal, size_t journal_len);

/*
 * Takes the last change back again and again until the journal's used length is
 * mark, with one check of the image for all of them, and answers how many were
 * taken back.  A mark is a used length that the journal had after none or more
 * of the records that stand in it: BULGEFS_FIRST_MARK, or what
 * bulgefs_journal_info answered.  If the changes that stood then still stand,
 * image and journal are then, byte for byte, what they were at that moment; if
 * some were undone meanwhile, the mark may be gone (BULGEFS_NO_MARK), or another
 * change may end there.
 * The journal must be the image's own, as for bulgefs_undo.
 * Refusals: 1 to 7, BULGEFS_BAD_JOURNAL, BULGEFS_NO_MARK.
 */
BULGEFS_CHECKED
bulgefs_listed bulgefs_undo_to(uint8_t *image, size_t image_len,
                               uint8_t *journal, size_t journal_len, uint32_t mark);

/*
 * The chain table as numbers: entry b stands at entries[b], one for each of
 * the image's n blocks (BULGEFS_BLOCK_SIZE bytes each).  A free block has 0,
 * the last block of a chain 1, any other the number of the next block.
 *
 * Load gives every entry.  Store writes every entry back, takes any numbers
 * and changes nothing else: not the counts in the header, and no data.  So
 * load then store changes no byte, and a store of other numbers may leave an
 * image that is not sound, and a journal that is not its own any more.
 * Refusals: 1 to 7, BULGEFS_BAD_TABLE_SIZE (entry_count other than n).
 */
BULGEFS_CHECKED
uint32_t bulgefs_load_table(const uint8_t *image, size_t image_len,
                            uint32_t *entries, size_t entry_count);

BULGEFS_CHECKED
uint32_t bulgefs_store_table(uint8_t *image, size_t image_len,
                             const uint32_t *entries, size_t entry_count);

/*
 * Makes a broken volume sound again, in place, and keeps the files of the root
 * that are whole.  Header and root directory must be in order, and the root
 * must hold no directory.  If the image was sound, it does not change.
 *
 * The slots of the root are taken in ascending order, and each file that is
 * kept claims its blocks.  report[k] gets the code of slot k, for all 4 * d
 * slots of a root of d blocks; 256 bytes are enough for any, and the rest of
 * the report stays as it is.
 *
 *   BULGEFS_KEPT             the slot is as it was, and so are all bytes of
 *                            its file; free slots, and slot 0, have it too
 *   BULGEFS_ENTRY_LOST       the entry is none of a file (type, name, sizes,
 *                            first block, attribute fields), or a file that
 *                            was kept before has its name; all its bytes are 0
 *   BULGEFS_FILE_LOST        the file's chain leads outside the volume or back
 *                            into itself, or meets a block of the root or of a
 *                            file that was kept before; all bytes of the entry
 *                            are 0
 *   BULGEFS_END_MENDED       the chain of the file, or of its attributes, did
 *                            not end with its last block and does now; in the
 *                            last slot the end type was put back
 *   BULGEFS_ATTRIBUTES_LOST  the chain of the attributes is bad, and the file
 *                            was kept without them; its own chain may have got
 *                            its end as well
 *
 * Then the rest of the table and the counts are put right.  Blocks that no
 * file has are free; all bytes of those that were not become 0, as by
 * bulgefs_delete, and blocks that were free before keep theirs.
 *
 * It takes no journal, and there is no undo: keep a copy of the image.  The
 * journal of before is not the image's own any more, and nothing refuses it:
 * call bulgefs_journal_start after a salvage.
 * Refusals: 1 to 4 (of directories, the root alone), BULGEFS_BAD_SLOT (the root
 * holds an entry of a directory's type), BULGEFS_BAD_ARGUMENT (report_len below
 * 4 * d).
 */
BULGEFS_CHECKED
uint32_t bulgefs_salvage(uint8_t *image, size_t image_len,
                         uint8_t *report, size_t report_len);

/*
 * Makes a sound volume of any image of a right length, in place, directories
 * included, and keeps what is whole.  Header, root, directories, table and
 * entries may all be damaged.  If the image was sound, it does not change.
 * docs/FORMAT.md, section 18, has the rules, and a table of how many files
 * survive which damage.
 *
 * The report needs 4 bytes for each block of the image, BULGEFS_TREE_REPORT_SIZE(n);
 * the rest of it stays as it is.  Byte 4 * b + i is the code of slot i of block b
 * if b is a block of a directory afterwards.  All these bytes are 0 exactly if
 * the image did not change.
 *
 *   BULGEFS_KEPT             the slot is as it was, and so are all bytes of its
 *                            file
 *   BULGEFS_ENTRY_LOST       the entry's form was bad, or an entry before it in
 *                            the directory has its name; all its bytes are 0
 *   BULGEFS_FILE_LOST        the file's chain was bad, or no directory is where
 *                            the entry says; all bytes of the entry are 0
 *   BULGEFS_END_MENDED       of a file: its chain, or that of its attributes, was
 *                            ended.  Of a directory's entry: its size in blocks
 *                            was put right.  Of a directory's first slot: its self
 *                            entry or its chain was; of its last: the end type.
 *                            Of byte 0: the header, or table entries that belong
 *                            to no chain
 *   BULGEFS_ATTRIBUTES_LOST  the file was kept without its attributes, whose chain
 *                            was bad
 *   BULGEFS_BLOCK_FREED      byte 4 * b of a block b that was in use and is free
 *                            now; all bytes of the block are 0
 *   BULGEFS_DIRECTORY_FOUND  a directory of the root that had lost its entry has
 *                            this slot of the root now, with all that is whole in
 *                            it
 *
 * dropped counts the entries that were cleared, freed the blocks that were freed.
 *
 * There is no undo: work on a copy of the image.  The journal of before is not
 * the image's own any more: call bulgefs_journal_start afterwards.
 * Refusals: BULGEFS_BAD_LENGTH; BULGEFS_BAD_GEOMETRY (the header is whole, of a
 * volume of another length: the file was cut or has grown; pad it with zeros to
 * 512 bytes for each of the blocks that its header says, or cut it, and call
 * again); BULGEFS_BAD_ARGUMENT (report_len below 4 * n).
 */
BULGEFS_CHECKED
bulgefs_salvaged bulgefs_salvage_tree(uint8_t *image, size_t image_len,
                                      uint8_t *report, size_t report_len);

/*
 * The volume file: image, journal and some sectors of the program's own in one
 * file or partition, saved whole or not at all.  docs/VOLUME-FILE.md has the
 * layout and what is proved: whenever power fails, and whatever the sectors then
 * hold that were being written, recovery gives what was saved before or what was
 * being saved, whole.
 *
 * The calls work on memory: the bytes of the whole file, which the program reads
 * at the start and keeps.  Each call says which of them the program has to write
 * out, so that no program need know the layout.  Sizes are in sectors of 512
 * bytes: n for the image, m for the journal (so its length is 512 * m bytes) and
 * x, which may be 0, for whatever the program wants to save with them.
 *
 * To make a file: lend bulgefs_file_size(n, m, x) bytes that hold image, journal
 * and the program's bytes from byte BULGEFS_FILE_HOME on to bulgefs_file_begin;
 * write all of them, and flush.
 *
 * To open one: read it all and call bulgefs_file_recover.  If waited is 1, do
 * steps 3 and 4 below.  Then bulgefs_file_parts says where the parts stand.
 * Copy image and journal out, and work on the copies.
 *
 * To save, do these steps in this order.  After each the program waits until the
 * bytes written have reached the disk (fdatasync, FlushFileBuffers).
 *
 *   1. bulgefs_file_prepare.  If sectors is 0, the file on the disk holds these
 *      parts already: nothing has to be written, and the save is done.  Else
 *      write the numbers_length bytes at numbers_start and the sectors_length
 *      bytes at sectors_start.  Flush.
 *   2. bulgefs_file_commit.  Write the BULGEFS_FILE_COMMIT_LENGTH bytes at
 *      BULGEFS_FILE_COMMIT.  Flush.  From here on the new state is saved.
 *   3. bulgefs_file_recover.  For every index below its sectors write the bytes
 *      that bulgefs_file_home says.  Flush.
 *   4. Write the BULGEFS_FILE_COMMIT_LENGTH bytes at BULGEFS_FILE_COMMIT.  Flush.
 *
 * If a write or a flush fails, memory and file differ: close the file, open it
 * again, and go on with what it holds.  At most one program may have it open.
 *
 * The refusals of these calls are numbers of their own, in this order; no byte
 * changes then, and all other fields of the answer are 0.
 */
enum bulgefs_file_number {
    BULGEFS_FILE_OK             = 0,
    BULGEFS_FILE_TOO_SHORT      = 1, /* shorter than header and commit sector            */
    BULGEFS_FILE_BAD_HEADER     = 2, /* no header of this version; begin: n, m or x      */
    BULGEFS_FILE_BAD_LENGTH     = 3, /* length is not the one of n, m and x              */
    BULGEFS_FILE_BAD_COUNT      = 4, /* the log counts more sectors than n + m + x       */
    BULGEFS_FILE_BAD_ADDRESS    = 5, /* an address in the log is wrong                   */
    BULGEFS_FILE_WAITS          = 6, /* prepare, commit: the log waits; recover first    */
    BULGEFS_FILE_IMAGE_LENGTH   = 7, /* prepare: image_len is not 512 * n                */
    BULGEFS_FILE_JOURNAL_LENGTH = 8, /* prepare: journal_len is not 512 * m              */
    BULGEFS_FILE_OWN_LENGTH     = 9  /* prepare: own_len is not 512 * x                  */
};

/* Words for such a number. */
BULGEFS_INLINE const char *bulgefs_file_text(uint32_t number)
{
    switch (number) {
    case BULGEFS_FILE_OK:             return "accepted";
    case BULGEFS_FILE_TOO_SHORT:      return "volume file is too short";
    case BULGEFS_FILE_BAD_HEADER:     return "volume file has no header, or bad sizes";
    case BULGEFS_FILE_BAD_LENGTH:     return "volume file has a bad length";
    case BULGEFS_FILE_BAD_COUNT:      return "log of the volume file has a bad count";
    case BULGEFS_FILE_BAD_ADDRESS:    return "log of the volume file has a bad address";
    case BULGEFS_FILE_WAITS:          return "volume file must be recovered first";
    case BULGEFS_FILE_IMAGE_LENGTH:   return "image does not fit the volume file";
    case BULGEFS_FILE_JOURNAL_LENGTH: return "journal does not fit the volume file";
    case BULGEFS_FILE_OWN_LENGTH:     return "own bytes do not fit the volume file";
    default:                          return "no number of a volume file";
    }
}

#define BULGEFS_FILE_MAX_JOURNAL   131072u   /* sectors of the longest journal         */
#define BULGEFS_FILE_MAX_OWN       128u      /* sectors of the program's own, at most  */
#define BULGEFS_FILE_COMMIT        512u      /* where the commit sector begins         */
#define BULGEFS_FILE_COMMIT_LENGTH 512u      /* and its bytes                          */
#define BULGEFS_FILE_HOME          1024u     /* where the image begins                 */

/* What bulgefs_file_size answers for sizes in their ranges, as a constant. */
#define BULGEFS_FILE_LENGTH(n, m, x) \
    (512u * (2u + 2u * ((n) + (m) + (x)) + ((n) + (m) + (x) + 128u) / 128u))

/* Where the parts of a file stand, and whether its log waits (1) or not (0). */
typedef struct {
    uint32_t number, waits;
    uint32_t image_start, image_length, journal_start, journal_length, own_start, own_length;
} bulgefs_file_places;

/* How many sectors are in the log, and the two places that step 1 writes. */
typedef struct {
    uint32_t number, sectors;
    uint32_t numbers_start, numbers_length, sectors_start, sectors_length;
} bulgefs_file_prepared;

/* Whether the log waited (1) or not (0), and how many of its sectors step 3 writes. */
typedef struct { uint32_t number, waited, sectors; } bulgefs_file_recovered;

/*
 * The bytes of a file for n sectors of an image (3 to 65,536), m of a journal (1
 * to 131,072) and x of the program's own (0 to 128); 0 if one of them is out of
 * its range.
 */
BULGEFS_CHECKED
uint64_t bulgefs_file_size(uint32_t image_sectors, uint32_t journal_sectors,
                           uint32_t own_sectors);

/*
 * Makes the bytes a volume file: writes its first two sectors, and nothing else.
 * Image, journal and the program's bytes are those that stand from byte
 * BULGEFS_FILE_HOME on, one after the other.
 * Refusals: BULGEFS_FILE_BAD_HEADER, BULGEFS_FILE_BAD_LENGTH.
 */
BULGEFS_CHECKED
uint32_t bulgefs_file_begin(uint8_t *file, size_t file_len, uint32_t image_sectors,
                            uint32_t journal_sectors, uint32_t own_sectors);

/*
 * Whether the bytes are a volume file.  Image and journal are not looked into.
 * Refusals: 1 to 5.
 */
BULGEFS_CHECKED
uint32_t bulgefs_file_check(const uint8_t *file, size_t file_len);

/*
 * Where image, journal and the program's bytes stand in the file.  If waits is 1
 * they are not whole: recover first.
 * Refusals: 1 to 5.
 */
BULGEFS_CHECKED
bulgefs_file_places bulgefs_file_parts(const uint8_t *file, size_t file_len);

/*
 * Step 1 of a save: compares the parts with what stands in the file, and writes
 * the sectors that differ into the log.
 * Refusals: 1 to 9.
 */
BULGEFS_CHECKED
bulgefs_file_prepared bulgefs_file_prepare(uint8_t *file, size_t file_len,
                                           const uint8_t *image, size_t image_len,
                                           const uint8_t *journal, size_t journal_len,
                                           const uint8_t *own, size_t own_len);

/*
 * Step 2: sets the byte that says that the log waits.  Only call it after step 1
 * and its flush: an old log is taken for a new one.
 * Refusals: 1 to 6.
 */
BULGEFS_CHECKED
uint32_t bulgefs_file_commit(uint8_t *file, size_t file_len);

/*
 * Steps 3 and 4, and recovery: if the log waits, copies its sectors home and
 * clears the byte that says so; else changes nothing.  In memory both happen at
 * once; write them out as two steps.
 * Refusals: 1 to 5.
 */
BULGEFS_CHECKED
bulgefs_file_recovered bulgefs_file_recover(uint8_t *file, size_t file_len);

/*
 * Where the sector of the log with this index, from 0 on, has its home: what step
 * 3 writes.  The indexes of one log give rising places, so a program may join
 * those that touch into one write.  Of length 0 if there is no such sector, or
 * the file is refused.
 */
BULGEFS_CHECKED
bulgefs_part bulgefs_file_home(const uint8_t *file, size_t file_len, uint32_t index);

#ifdef __cplusplus
}
#endif

#endif
