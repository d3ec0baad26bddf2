/* journal.c - begins a volume's journal anew, and makes it longer. */
#include <string.h>

#include "look.h"

static int start(store *s)
{
    uint32_t number = bulgefs_check(s->image.bytes, s->image.length);
    if (!number) number = bulgefs_journal_start(s->journal.bytes, s->journal.length);
    if (number) return refuse(number, s->path);
    s->was = bulgefs_journal_info(s->image.bytes, s->image.length, s->journal.bytes, s->journal.length);
    return DONE;
}

int command_start(int argc, char **argv, const options *o)
{
    store s;
    int status;
    if (!good_arguments(&argc, argv, 1, 1)) return usage("start VOLUME");
    status = store_open(&s, argv[1], CHANGE, o);
    return status ? status : store_finish(&s, start(&s));
}

/* The file layer opens and locks the volume itself. */
static bulgefs_volume_result grow(const char *path, uint64_t length)
{
    return bulgefs_volume_grow(path, (size_t)(length + 511) / 512 * 512, NULL);
}

int command_grow(int argc, char **argv, const options *o)
{
    bulgefs_volume_result r;
    uint64_t length;
    unsigned tries = 0;
    if (!good_arguments(&argc, argv, 2, 2)) return usage("grow VOLUME BYTES");
    if (read_number(argv[2], "BYTES", BULGEFS_MIN_JOURNAL, BULGEFS_MAX_JOURNAL, &length)) return FAILED;
    do r = grow(argv[1], length);
    while (store_again(r, o, &tries));
    if (r.error != BULGEFS_VOLUME_BAD_SIZE) return store_status(r, argv[1]);
    say("%s: the journal has %s bytes or more already; nothing was changed", argv[1], argv[2]);
    return REFUSED;
}
