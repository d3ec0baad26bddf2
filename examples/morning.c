/*
 * morning.c - notes this morning in a volume file, so that the return counter can say
 * later whether the boxes are as they were: morning FILE [MILLISECONDS]
 *
 * The note is one of the program's own sectors (docs/COUNTER.md, 3): the journal's used
 * length, which is the mark to go back to, how many changes stand, the time, and SHA-256
 * of the image.  It is saved with image and journal, whole or not at all.  The time is
 * that of the clock if it is not given.
 */
#include "bulgefs_file.h"

#include <stdio.h>
#include <stdlib.h>
#include <string.h>
#include <time.h>

enum { SECTOR = 512 };
static const uint8_t signature[12] = { 'B', 'u', 'l', 'g', 'e', 'D', 'a', 'y', 0, 1, 0, 0 };

static void put_number(uint8_t *to, uint64_t value, int bytes)
{
    for (int i = bytes - 1; i >= 0; i--, value >>= 8)
        to[i] = (uint8_t)value;
}

/* ---- SHA-256 ---- */

static const uint32_t rounds[64] = {
    0x428A2F98, 0x71374491, 0xB5C0FBCF, 0xE9B5DBA5, 0x3956C25B, 0x59F111F1, 0x923F82A4, 0xAB1C5ED5,
    0xD807AA98, 0x12835B01, 0x243185BE, 0x550C7DC3, 0x72BE5D74, 0x80DEB1FE, 0x9BDC06A7, 0xC19BF174,
    0xE49B69C1, 0xEFBE4786, 0x0FC19DC6, 0x240CA1CC, 0x2DE92C6F, 0x4A7484AA, 0x5CB0A9DC, 0x76F988DA,
    0x983E5152, 0xA831C66D, 0xB00327C8, 0xBF597FC7, 0xC6E00BF3, 0xD5A79147, 0x06CA6351, 0x14292967,
    0x27B70A85, 0x2E1B2138, 0x4D2C6DFC, 0x53380D13, 0x650A7354, 0x766A0ABB, 0x81C2C92E, 0x92722C85,
    0xA2BFE8A1, 0xA81A664B, 0xC24B8B70, 0xC76C51A3, 0xD192E819, 0xD6990624, 0xF40E3585, 0x106AA070,
    0x19A4C116, 0x1E376C08, 0x2748774C, 0x34B0BCB5, 0x391C0CB3, 0x4ED8AA4A, 0x5B9CCA4F, 0x682E6FF3,
    0x748F82EE, 0x78A5636F, 0x84C87814, 0x8CC70208, 0x90BEFFFA, 0xA4506CEB, 0xBEF9A3F7, 0xC67178F2
};

static uint32_t turned(uint32_t v, int bits)
{
    return v >> bits | v << (32 - bits);
}

/* Takes 64 bytes into the state. */
static void take_piece(uint32_t state[8], const uint8_t *piece)
{
    uint32_t w[64], s[8];
    for (int i = 0; i < 16; i++)
        w[i] = (uint32_t)piece[4 * i] << 24 | (uint32_t)piece[4 * i + 1] << 16
             | (uint32_t)piece[4 * i + 2] << 8 | piece[4 * i + 3];
    for (int i = 16; i < 64; i++)
        w[i] = w[i - 16] + (turned(w[i - 15], 7) ^ turned(w[i - 15], 18) ^ w[i - 15] >> 3)
             + w[i - 7] + (turned(w[i - 2], 17) ^ turned(w[i - 2], 19) ^ w[i - 2] >> 10);
    memcpy(s, state, sizeof s);
    for (int i = 0; i < 64; i++) {
        uint32_t one = s[7] + (turned(s[4], 6) ^ turned(s[4], 11) ^ turned(s[4], 25))
                     + ((s[4] & s[5]) ^ (~s[4] & s[6])) + rounds[i] + w[i];
        uint32_t two = (turned(s[0], 2) ^ turned(s[0], 13) ^ turned(s[0], 22))
                     + ((s[0] & s[1]) ^ (s[0] & s[2]) ^ (s[1] & s[2]));
        memmove(s + 1, s, 7 * sizeof *s);
        s[4] += one;
        s[0] = one + two;
    }
    for (int i = 0; i < 8; i++)
        state[i] += s[i];
}

/* The hash of bytes whose length is a multiple of 512, as an image's is. */
static void sha256(const uint8_t *bytes, size_t length, uint8_t hash[32])
{
    uint32_t state[8] = { 0x6A09E667, 0xBB67AE85, 0x3C6EF372, 0xA54FF53A,
                          0x510E527F, 0x9B05688C, 0x1F83D9AB, 0x5BE0CD19 };
    uint8_t last[64] = { 0x80 };
    for (size_t at = 0; at < length; at += sizeof last)
        take_piece(state, bytes + at);
    put_number(last + 56, 8 * (uint64_t)length, 8);
    take_piece(state, last);
    for (int i = 0; i < 8; i++)
        put_number(hash + 4 * i, state[i], 4);
}

/* ---- the note ---- */

/* The sector for the note: the one that has an older note, else the last of zeros; or NULL. */
static uint8_t *sector_for_note(uint8_t *own, size_t own_len)
{
    static const uint8_t zeros[SECTOR];
    for (size_t at = 0; at < own_len; at += SECTOR)
        if (memcmp(own + at, signature, sizeof signature) == 0)
            return own + at;
    for (size_t at = own_len; at >= SECTOR; at -= SECTOR)
        if (memcmp(own + at - SECTOR, zeros, SECTOR) == 0)
            return own + at - SECTOR;
    return NULL;
}

/* Writes the note of an image and its journal; gives 0, or the refusal of either. */
static uint32_t write_note(uint8_t *sector, const bulgefs_volume_file *v, uint64_t now)
{
    bulgefs_journal j = bulgefs_journal_info(v->image, v->image_len, v->journal, v->journal_len);
    if (j.number != BULGEFS_OK)
        return j.number;
    memset(sector, 0, SECTOR);
    memcpy(sector, signature, sizeof signature);
    put_number(sector + 12, j.used, 4);
    put_number(sector + 16, j.records, 4);
    put_number(sector + 24, now, 8);
    sha256(v->image, v->image_len, sector + 32);
    return BULGEFS_OK;
}

static int complain(const char *path, const char *words)
{
    fprintf(stderr, "morning: %s: %s\n", path, words);
    return EXIT_FAILURE;
}

static int note(const char *path, uint64_t now)
{
    bulgefs_volume_file v;
    bulgefs_volume_result r = bulgefs_volume_open(&v, path, BULGEFS_VOLUME_CHANGE, NULL);
    uint8_t *sector;
    uint32_t number;
    if (r.error)
        return complain(path, bulgefs_volume_text(r.error));
    sector = sector_for_note(v.own, v.own_len);
    number = sector ? write_note(sector, &v, now) : BULGEFS_OK;
    if (sector && number == BULGEFS_OK)
        r = bulgefs_volume_save(&v);
    bulgefs_volume_close(&v);
    if (!sector)
        return complain(path, "the program has no free sector of its own in it");
    if (number != BULGEFS_OK)
        return complain(path, bulgefs_text(number));
    if (r.error)
        return complain(path, bulgefs_volume_text(r.error));
    return EXIT_SUCCESS;
}

int main(int argc, char **argv)
{
    if (argc < 2 || argc > 3) {
        fprintf(stderr, "usage: morning FILE [MILLISECONDS]\n");
        return EXIT_FAILURE;
    }
    return note(argv[1], argc > 2 ? strtoull(argv[2], NULL, 10) : (uint64_t)time(NULL) * 1000);
}
