/* The pairs of pair.h. */
#include "pair.h"

#include <stdarg.h>
#include <stdio.h>
#include <stdlib.h>
#include <string.h>

static unsigned passed, failures;

void judge(int good, const char *format, ...)
{
    va_list arguments;
    if (good) {
        passed++;
        return;
    }
    if (failures++ < 20) {
        va_start(arguments, format);
        vprintf(format, arguments);
        va_end(arguments);
        printf(": failed\n");
    }
#if defined(STOP_AT_FAILURE)
    exit(finish_tests());
#endif
}

int finish_tests(void)
{
    printf("%u passed, %u failed\n", passed, failures);
    return failures > 0 || passed == 0;
}

void pair_start(pair *p)
{
    static const uint8_t name[BULGEFS_VOLUME_NAME_SIZE] = "boxes";
    bulgefs_uuid uuid = { { 1, 2, 3 } };
    memset(p, 0, sizeof *p);
    p->journal_len = JOURNAL_LEN;
    if (bulgefs_format(p->image, IMAGE_LEN, 2, 1700000000000u, uuid, name, sizeof name) != 0
        || bulgefs_journal_start(p->journal, JOURNAL_LEN) != 0)
        abort();
}

void pair_change(uint8_t *image, uint8_t *journal, size_t journal_len, uint8_t *own, uint32_t (*next)(uint32_t))
{
    char path[8] = "/B0";
    uint8_t data[900];
    uint32_t length = next(next(4) ? 60 : sizeof data);
    uint64_t time = 1700000000000u + next(1000);
    path[2] = (char)('0' + next(6));
    for (uint32_t i = 0; i < length; i++)
        data[i] = (uint8_t)next(256);
    switch (next(8)) {
    case 0: case 1: case 2:
        (void)!bulgefs_put_settings(image, IMAGE_LEN, journal, journal_len, (const uint8_t *)path + 1, 2, data,
                                    length < 200 ? length : 200, time).number;
        break;
    case 3:
        (void)!bulgefs_create(image, IMAGE_LEN, journal, journal_len, (const uint8_t *)path, 3, 0x60, 1, 2, 3, 0,
                              time).number;
        break;
    case 4:
        (void)!bulgefs_write(image, IMAGE_LEN, journal, journal_len, (const uint8_t *)path, 3, 0, data, length,
                             time).number;
        break;
    case 5:
        (void)!bulgefs_delete(image, IMAGE_LEN, journal, journal_len, (const uint8_t *)path, 3).number;
        break;
    case 6:
        (void)!bulgefs_undo(image, IMAGE_LEN, journal, journal_len).number;
        break;
    default:
        if (own)
            own[next(OWN_LEN)] = (uint8_t)next(256);
    }
}

void pair_take(pair *p, const bulgefs_volume_file *v)
{
    memset(p, 0, sizeof *p);
    if (v->image_len != IMAGE_LEN || v->own_len != OWN_LEN || v->journal_len > LONG_JOURNAL)
        return;
    p->journal_len = v->journal_len;
    memcpy(p->image, v->image, IMAGE_LEN);
    memcpy(p->journal, v->journal, v->journal_len);
    memcpy(p->own, v->own, OWN_LEN);
}

int pair_same(const pair *a, const pair *b)
{
    return a->journal_len && b->journal_len && memcmp(a->image, b->image, IMAGE_LEN) == 0
        && memcmp(a->journal, b->journal, LONG_JOURNAL) == 0 && memcmp(a->own, b->own, OWN_LEN) == 0;
}

int pair_goes_back(const pair *p)
{
    pair start, back = *p;
    pair_start(&start);
    if (bulgefs_undo_to(back.image, IMAGE_LEN, back.journal, back.journal_len, BULGEFS_FIRST_MARK).number != 0)
        return 0;
    memcpy(start.own, back.own, OWN_LEN);
    return pair_same(&start, &back);
}
