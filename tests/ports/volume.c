/*
 * volume.c - volume BLOCKS: writes to standard output an image of so many blocks
 * that holds /boot/config of 700 bytes, and a file in each of eight directories
 * within one another, so that the check goes as deep as it can.
 */
#include "bulgefs.h"

#include <stdio.h>
#include <stdlib.h>
#include <string.h>

#define PATH (const uint8_t *)path, strlen(path)
#define BOTH image, image_len, journal, sizeof journal
static uint8_t journal[1 << 17];

static void accepted(uint32_t number, const char *what)
{
    if (number == BULGEFS_OK) return;
    fprintf(stderr, "volume: %s: %s\n", what, bulgefs_text(number));
    exit(1);
}

static void directory(uint8_t *image, size_t image_len, const char *path)
{
    accepted(bulgefs_create_directory(BOTH, PATH, BULGEFS_PLAIN_DIRECTORY, 0, 0, 0, 0, 1, 1).number, path);
}

static void file(uint8_t *image, size_t image_len, const char *path, const uint8_t *data, size_t data_len)
{
    accepted(bulgefs_create(BOTH, PATH, BULGEFS_PLAIN_FILE, 0, 0, 0, 0, 1).number, path);
    accepted(bulgefs_write(BOTH, PATH, 0, data, data_len, 2).number, path);
}

int main(int argc, char **argv)
{
    size_t image_len = 512 * (size_t)(argc > 1 ? strtoul(argv[1], 0, 10) : 64);
    uint8_t *image = malloc(image_len), config[700], label[128] = "boot";
    char path[100] = "";
    bulgefs_uuid uuid = {{0}};
    if (!image) return 2;
    for (size_t i = 0; i < sizeof config; i++) config[i] = "menu=3 timeout=5\n"[i % 17];
    accepted(bulgefs_format(image, image_len, 2, 1, uuid, label, sizeof label), "format");
    accepted(bulgefs_journal_start(journal, sizeof journal), "journal start");
    directory(image, image_len, "/boot");
    file(image, image_len, "/boot/config", config, sizeof config);
    for (int level = 1; level <= 8; level++) {
        strcat(path, "/d");
        directory(image, image_len, path);
    }
    strcat(path, "/f");
    file(image, image_len, path, config, 1);
    return fwrite(image, 1, image_len, stdout) == image_len ? 0 : 1;
}
