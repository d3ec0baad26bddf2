/* use.c - what a program does that was built with an installed library: prints both versions, a file's bytes, and whether undo brought the image back. */
#include <bulgefs.h>

#include <stdio.h>
#include <string.h>

#define BOX  (const uint8_t *)"/SN4471", 7
#define BOTH image, sizeof image, journal, sizeof journal
static uint8_t image[BULGEFS_IMAGE_SIZE(64)], journal[65536], before[sizeof image];

int main(void)
{
    static const uint8_t label[BULGEFS_VOLUME_NAME_SIZE] = "van 3";
    uint8_t buffer[16] = {0};
    bulgefs_uuid uuid = {{0}};
    if (bulgefs_format(image, sizeof image, 2, 0, uuid, label, sizeof label)) return 1;
    if (bulgefs_journal_start(journal, sizeof journal)) return 1;
    memcpy(before, image, sizeof image);
    if (bulgefs_create(BOTH, BOX, BULGEFS_PLAIN_FILE, 0, 0, 0, 0, 1).number) return 1;
    if (bulgefs_write(BOTH, BOX, 0, (const uint8_t *)"baud=9600", 9, 2).number) return 1;
    if (bulgefs_read(image, sizeof image, BOX, 0, buffer, sizeof buffer).count != 9) return 1;
    if (bulgefs_undo_to(BOTH, BULGEFS_FIRST_MARK).done != 2) return 1;
    printf("%u %u %s %d\n", (unsigned)BULGEFS_VERSION, (unsigned)bulgefs_version(), (const char *)buffer, memcmp(image, before, sizeof image));
    return 0;
}
