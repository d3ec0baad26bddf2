/* exchange.c - a volume from an image and its journal, and these from a volume. */
#include <stdlib.h>
#include <string.h>
#include <sys/stat.h>

#include "look.h"

/* A change that an earlier version of this tool wrote down beside the image, and did not finish. */
static int is_unfinished(const char *image)
{
    char *redo = joined(image, ".redo");
    struct stat about;
    int found = !lstat(redo, &about);
    if (found) say("%s holds a change that was not finished; let the version of this tool that wrote it finish it", redo);
    free(redo);
    return found;
}

/* Image and journal must be those of a volume; a journal is lengthened to whole sectors by zeros. */
static int import_pair(const char *image_path, const bytes *image, const char *journal_path, bytes *journal, const char *volume, const options *o)
{
    size_t length = (journal->length + 511) / 512 * 512;
    uint32_t number = bulgefs_journal_info(image->bytes, image->length, journal->bytes, journal->length).number;
    if (number) return refuse(number, number < BULGEFS_BAD_JOURNAL ? image_path : journal_path);
    journal->bytes = take_more(journal->bytes, length);
    memset(journal->bytes + journal->length, 0, length - journal->length);
    journal->length = length;
    return store_new(volume, image, journal, o);
}

static int import_image(const char *path, const bytes *image, const char *volume, const options *o)
{
    uint32_t number = bulgefs_check(image->bytes, image->length);
    return number ? refuse(number, path) : store_start(volume, image, usual_journal(image->length), o);
}

int command_import(int argc, char **argv, const options *o)
{
    bytes image = { NULL, 0 }, journal = { NULL, 0 };
    int status;
    if (!good_arguments(&argc, argv, 2, 3)) return usage("import IMAGE [JOURNAL] VOLUME");
    if (is_unfinished(argv[1])) return REFUSED;
    status = read_file(argv[1], (size_t)BULGEFS_BLOCK_SIZE * BULGEFS_MAX_BLOCKS, &image);
    if (!status && argc == 3) status = import_image(argv[1], &image, argv[2], o);
    else if (!status) status = read_file(argv[2], BULGEFS_MAX_JOURNAL, &journal);
    if (!status && argc == 4) status = import_pair(argv[1], &image, argv[2], &journal, argv[3], o);
    free(image.bytes);
    free(journal.bytes);
    return status;
}

/* The file layer writes both files or neither. */
static int export_pair(char **argv, const options *o)
{
    bulgefs_volume_result r;
    unsigned tries = 0;
    do r = bulgefs_volume_export(argv[1], argv[2], argv[3], NULL);
    while (store_again(r, o, &tries));
    if (r.error != BULGEFS_VOLUME_EXISTS) return store_status(r, argv[1]);
    say("%s or %s is there already; nothing was changed", argv[2], argv[3]);
    return REFUSED;
}

int command_export(int argc, char **argv, const options *o)
{
    store s;
    int status;
    if (!good_arguments(&argc, argv, 2, 3)) return usage("export VOLUME IMAGE [JOURNAL]");
    if (argc == 4) return export_pair(argv, o);
    status = store_open(&s, argv[1], LOOK, o);
    if (status) return status;
    status = write_output(argv[2], s.image.bytes, s.image.length);
    store_close(&s);
    return status;
}
