/*
 * What a boot loader asks: is the image sound, where does a file lie, and what
 * are its next bytes?  It never changes one.
 */
#include "bulgefs.h"

static uint8_t image[BULGEFS_IMAGE_SIZE(BULGEFS_MIN_BLOCKS)];

int main(void)
{
    static const uint8_t path[] = "/kernel";
    static uint8_t buffer[64];
    uint64_t position = 0;
    bulgefs_filled next;
    bulgefs_part part;
    if (bulgefs_check(image, sizeof image) != BULGEFS_OK)
        return (int)bulgefs_lookup(image, sizeof image, path, sizeof path - 1).number;
    part = bulgefs_look_in_place(image, sizeof image, path, sizeof path - 1, 0);
    next = bulgefs_read_next(image, sizeof image, path, sizeof path - 1, &position, buffer,
                             sizeof buffer);
    return (int)(part.length + next.count);
}
