/* Does not use an answer: the compiler must say so. */
#include "bulgefs.h"

void take_back(uint8_t *image, size_t image_len, uint8_t *journal, size_t journal_len);

void take_back(uint8_t *image, size_t image_len, uint8_t *journal, size_t journal_len)
{
    bulgefs_undo(image, image_len, journal, journal_len);
}
