/*
 * volume.c - volume files by the C layer, for the tests:
 *   volume import FILE IMAGE JOURNAL OWN_SECTORS    makes a volume file of a pair
 *   volume texts                                    prints the header's words for every number
 */
#include "bulgefs_file.h"

#include <stdio.h>
#include <stdlib.h>
#include <string.h>

static int done(bulgefs_volume_result r)
{
    if (r.error)
        fprintf(stderr, "volume: %s, %u, %u\n", bulgefs_volume_text(r.error), (unsigned)r.refusal, (unsigned)r.system);
    return r.error ? EXIT_FAILURE : EXIT_SUCCESS;
}

int main(int argc, char **argv)
{
    if (argc == 6 && strcmp(argv[1], "import") == 0)
        return done(bulgefs_volume_import(argv[2], argv[3], argv[4], 512 * (size_t)atoi(argv[5]), NULL));
    if (argc != 2 || strcmp(argv[1], "texts") != 0)
        return EXIT_FAILURE;
    for (unsigned n = 0; n < 40; n++)
        printf("text\t%u\t%s\nfileText\t%u\t%s\n", n, bulgefs_text(n), n, bulgefs_file_text(n));
    return EXIT_SUCCESS;
}
