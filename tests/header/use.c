/*
 * Uses everything that the header has beside the calls, in the language that
 * C89, C11 and C++17 have in common.
 */
#include "bulgefs.h"

#include <stdio.h>
#include <string.h>

/* A header may be met twice. */
#include "bulgefs.h"

static int failed;

static void expect(int right, const char *what)
{
    if (!right) {
        printf("header: %s\n", what);
        failed = 1;
    }
}

/* Whether n blocks hold so many blocks of directories and files. */
static int has_room(uint32_t n, uint32_t content)
{
    return n >= 1u + BULGEFS_TABLE_BLOCKS(n) + content;
}

static void sizes(void)
{
    uint32_t content;
    for (content = 1; content <= 65023u; content++) {
        uint32_t n = BULGEFS_IMAGE_BLOCKS(content);
        if (!has_room(n, content) || has_room(n - 1u, content))
            expect(0, "BULGEFS_IMAGE_BLOCKS is not the least number of blocks");
    }
    expect(BULGEFS_IMAGE_BLOCKS(65023u) == BULGEFS_MAX_BLOCKS, "the largest image");
    expect(BULGEFS_IMAGE_BLOCKS(1u) == BULGEFS_MIN_BLOCKS, "the smallest image");
    expect(BULGEFS_IMAGE_SIZE(3u) == 1536u, "BULGEFS_IMAGE_SIZE");
    expect(BULGEFS_FILE_BLOCKS(0u) == 0 && BULGEFS_FILE_BLOCKS(513u) == 2u, "BULGEFS_FILE_BLOCKS");
    expect(BULGEFS_FILE_BLOCKS(4294967295u) == 8388608u, "BULGEFS_FILE_BLOCKS of the longest size");
    expect(BULGEFS_MAX_FILES(1u) == 2u && BULGEFS_MAX_FILES(64u) == 254u, "BULGEFS_MAX_FILES");
    expect(BULGEFS_MAX_PATH == 729u, "BULGEFS_MAX_PATH");
    expect(BULGEFS_LIST_HEAD + BULGEFS_ITEM_SIZE(2u, 513u) == 538u, "BULGEFS_ITEM_SIZE");
    expect(BULGEFS_FILE_LENGTH(3u, 1u, 1u) == 6656u, "BULGEFS_FILE_LENGTH");
    expect(BULGEFS_FILE_LENGTH(BULGEFS_MAX_BLOCKS, BULGEFS_FILE_MAX_JOURNAL, BULGEFS_FILE_MAX_OWN) == 202246144u,
           "the largest volume file");
    expect(BULGEFS_FILE_COMMIT + BULGEFS_FILE_COMMIT_LENGTH == BULGEFS_FILE_HOME, "the sectors of a volume file");
    expect(512u * BULGEFS_FILE_MAX_JOURNAL == BULGEFS_MAX_JOURNAL, "the longest journal of a volume file");
}

static void journals(void)
{
    expect(BULGEFS_RECORD_SIZE(1u) == 520u, "a create's record");
    expect(BULGEFS_WRITE_BLOCKS(4096u) == 20u && BULGEFS_WRITE_BLOCKS(1u) == 5u,
           "BULGEFS_WRITE_BLOCKS");
    /* A file of one block, and the largest file: table blocks 5 to 512 have its entries. */
    expect(BULGEFS_DELETE_BLOCKS(1u, 16u) == 4u, "BULGEFS_DELETE_BLOCKS");
    expect(BULGEFS_DELETE_BLOCKS(65022u, 65536u) >= 65022u + 508u + 2u, "the largest delete");
    expect(BULGEFS_JOURNAL_SIZE(1u, 65536u) < BULGEFS_MAX_JOURNAL, "a journal for any change");
    expect(BULGEFS_NEW_DIRECTORY_BLOCKS(64u) == 130u, "BULGEFS_NEW_DIRECTORY_BLOCKS");
    expect(BULGEFS_ATTRIBUTES_BLOCKS(BULGEFS_MAX_ATTRIBUTE_BLOCKS, 8u) == 34u
               && BULGEFS_ATTRIBUTES_BLOCKS(0u, 1u) == 4u,
           "BULGEFS_ATTRIBUTES_BLOCKS");
    expect(BULGEFS_SETTINGS_SIZE(BULGEFS_MAX_REVISIONS, BULGEFS_MAX_SETTINGS) == 3285u,
           "BULGEFS_SETTINGS_SIZE");
    expect(BULGEFS_PUT_BLOCKS(BULGEFS_FILE_BLOCKS(3285u)) == 11u, "BULGEFS_PUT_BLOCKS");
    /* 16 puts of 200 bytes: 64 blocks of files and 16 of directories are saved, and 3 more at most at each of the 7 that the file grows by. */
    expect(BULGEFS_PUTS_SIZE(16u, 200u) >= 4u * 16u + 516u * (64u + 16u + 21u)
               && BULGEFS_PUTS_SIZE(1u, 0u) >= BULGEFS_RECORD_SIZE(4u)
               && 900u * BULGEFS_PUTS_SIZE(16u, 200u) < BULGEFS_MAX_JOURNAL,
           "BULGEFS_PUTS_SIZE");
    expect(BULGEFS_MAX_SERIAL == 16u, "BULGEFS_MAX_SERIAL");
    expect(BULGEFS_JOURNAL_SIZE(2u, 1u) == 1045u, "BULGEFS_JOURNAL_SIZE");
}

static void texts(void)
{
    uint32_t number;
    for (number = 0; number <= 30u; number++) {
        int named = number <= 27u;
        int known = strcmp(bulgefs_text(number), bulgefs_text(4294967295u)) != 0;
        expect(named == known, "bulgefs_text does not know just the numbers that are given");
    }
    for (number = 0; number < 40u; number++) {
        int known = strcmp(bulgefs_file_text(number), bulgefs_file_text(4294967295u)) != 0;
        expect((number <= BULGEFS_FILE_OWN_LENGTH) == known, "bulgefs_file_text does not know just the numbers that are given");
    }
    expect(strcmp(bulgefs_text(BULGEFS_OK), "accepted") == 0, "bulgefs_text");
}

static void answers(void)
{
    expect(sizeof(bulgefs_uuid) == 16 && sizeof(bulgefs_found) == 16, "uuid, found");
    expect(sizeof(bulgefs_filled) == 8 && sizeof(bulgefs_part) == 8, "filled, part");
    expect(sizeof(bulgefs_created) == 12 && sizeof(bulgefs_changed) == 8, "created, changed");
    expect(sizeof(bulgefs_listed) == 8, "listed");
    expect(sizeof(bulgefs_put) == 12 && sizeof(bulgefs_got) == 12, "put, got");
    expect(sizeof(bulgefs_volume) == 20 && sizeof(bulgefs_slot) == 56, "volume, slot");
    expect(BULGEFS_LABELS_SIZE == sizeof(bulgefs_uuid) + BULGEFS_VOLUME_NAME_SIZE,
           "BULGEFS_LABELS_SIZE");
    expect(BULGEFS_VERSION >= 1300u && strlen(BULGEFS_VERSION_TEXT) >= 5, "version");
    expect(BULGEFS_MAX_REPORT == BULGEFS_SLOTS_PER_BLOCK * BULGEFS_MAX_DIRECTORY_BLOCKS,
           "BULGEFS_MAX_REPORT");
    expect(BULGEFS_KEPT == 0 && BULGEFS_ENTRY_LOST == 1 && BULGEFS_FILE_LOST == 2
               && BULGEFS_END_MENDED == 3 && BULGEFS_ATTRIBUTES_LOST == 4
               && BULGEFS_BLOCK_FREED == 5 && BULGEFS_DIRECTORY_FOUND == 6,
           "codes");
    expect(BULGEFS_TREE_REPORT_SIZE(3u) == 12u && sizeof(bulgefs_salvaged) == 12, "salvaged");
    expect(BULGEFS_PLAIN_FILE >= BULGEFS_MIN_FILE_TYPE
               && BULGEFS_PLAIN_DIRECTORY >= BULGEFS_MIN_DIRECTORY_TYPE,
           "plain types");
}

int main(void)
{
    sizes();
    journals();
    texts();
    answers();
    return failed;
}
