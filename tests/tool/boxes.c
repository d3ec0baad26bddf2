/* boxes VOLUME: nine venues of 100 boxes each, made by the library itself, in the files VOLUME and VOLUME.journal. */
#include "bulgefs.h"

#include <stdio.h>
#include <string.h>

enum { BLOCKS = 1400, VENUES = 9, BOXES = 100 };
static uint8_t image[BULGEFS_IMAGE_SIZE(BLOCKS)], journal[1 << 22], name[BULGEFS_VOLUME_NAME_SIZE] = "nine venues";
#define BOTH image, sizeof image, journal, sizeof journal

static uint32_t box(int venue, int number)
{
    char path[64], words[64];
    size_t length = (size_t)snprintf(path, sizeof path, "/venue%d/SN%04d", venue, 100 * venue + number);
    size_t size = (size_t)snprintf(words, sizeof words, "port=%d\nbaud=9600\n", number);
    uint32_t made = bulgefs_create(BOTH, (const uint8_t *)path, length, BULGEFS_PLAIN_FILE, 0, 0, 0, 0, 1700000000000u).number;
    if (made)
        return made;
    return bulgefs_write(BOTH, (const uint8_t *)path, length, 0, (const uint8_t *)words, size, 1700000000000u).number;
}

static uint32_t venue(int number)
{
    char path[64];
    size_t length = (size_t)snprintf(path, sizeof path, "/venue%d", number);
    uint32_t made = bulgefs_create_directory(BOTH, (const uint8_t *)path, length, BULGEFS_PLAIN_DIRECTORY, 0, 0, 0, 0, 26, 1700000000000u).number;
    for (int i = 0; i < BOXES && !made; i++)
        made = box(number, i);
    return made;
}

static int save(const char *path, const char *end, const uint8_t *from, size_t length)
{
    char whole[256];
    snprintf(whole, sizeof whole, "%s%s", path, end);
    FILE *file = fopen(whole, "wb");
    return !file || fwrite(from, 1, length, file) != length || fclose(file) != 0;
}

int main(int argc, char **argv)
{
    bulgefs_uuid uuid = { { 0 } };
    uint32_t made = bulgefs_format(image, sizeof image, 3, 1700000000000u, uuid, name, sizeof name);
    if (!made)
        made = bulgefs_journal_start(journal, sizeof journal);
    for (int i = 1; i <= VENUES && !made; i++)
        made = venue(i);
    if (made)
        fprintf(stderr, "boxes: %s\n", bulgefs_text(made));
    return argc != 2 || made || save(argv[1], "", image, sizeof image) || save(argv[1], ".journal", journal, sizeof journal);
}
