/* flip FILE OFFSET VALUE...: puts bytes, given as numbers, into a file at an offset. */
#include <stdio.h>
#include <stdlib.h>

int main(int argc, char **argv)
{
    FILE *file = argc < 4 ? NULL : fopen(argv[1], "r+b");
    if (!file || fseek(file, strtol(argv[2], NULL, 0), SEEK_SET) != 0)
        return 2;
    for (int i = 3; i < argc; i++)
        fputc((int)strtol(argv[i], NULL, 0), file);
    return fclose(file) == 0 ? 0 : 2;
}
