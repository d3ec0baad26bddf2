/*
 * Times the check of an empty volume as the number of blocks grows, beside
 * reading the table's bytes once in plain C, and format and journal start
 * beside memset.  Prints Markdown tables and writes the curve as an SVG.
 *
 * Usage: curve FILE.svg
 */
#define _POSIX_C_SOURCE 199309L

#include "bulgefs.h"

#include <math.h>
#include <stdio.h>
#include <stdlib.h>
#include <string.h>
#include <time.h>

enum { SIZES = 13, FIRST = 16, SAMPLES = 15, SAMPLE_NS = 3000000 };

static uint8_t *image, *journal;
static size_t image_len, journal_len;
static volatile uint32_t kept;

/* Kept apart so that the compiler reads every byte. */
static uint32_t __attribute__((noinline)) read_table(const uint8_t *s, size_t n)
{
    uint32_t used = 0;
    for (size_t b = 0; b < n; b++) {
        const uint8_t *e = s + 512 + 4 * b;
        uint32_t v = (uint32_t)e[0] << 24 | (uint32_t)e[1] << 16 | (uint32_t)e[2] << 8 | e[3];
        used += v != 0;
    }
    return used;
}

static void __attribute__((noinline)) clear(uint8_t *s, size_t len)
{
    memset(s, 0, len);
    kept += s[len / 2];
}

static void check(void) { kept += bulgefs_check(image, image_len); }
static void table(void) { kept += read_table(image, image_len / 512); }
static void start(void) { kept += bulgefs_journal_start(journal, journal_len); }
static void zero_journal(void) { clear(journal, journal_len); }
static void zero_image(void) { clear(image, image_len); }

static void format(void)
{
    static const uint8_t volume_name[128] = "curve";
    bulgefs_uuid uuid = {{0}};
    kept += bulgefs_format(image, image_len, image_len < 16384 ? 1 : 4, 1, uuid, volume_name, 128);
}

static double now(void)
{
    struct timespec t;
    clock_gettime(CLOCK_MONOTONIC, &t);
    return (double)t.tv_sec * 1e9 + (double)t.tv_nsec;
}

/* Microseconds of one call, the least of some samples. */
static double timed(void (*call)(void))
{
    double least = INFINITY;
    call();
    for (int i = 0; i < SAMPLES; i++) {
        double begin = now(), end;
        long count = 0;
        do {
            call();
            count++;
            end = now();
        } while (end - begin < SAMPLE_NS);
        least = fmin(least, (end - begin) / (double)count / 1e3);
    }
    return least;
}

/* Places in the picture: both axes are logarithmic. */
static double across(double n) { return 60 + 400 * log2(n / FIRST) / (SIZES - 1); }
static double up(double us) { return 300 - 55 * log10(us / 0.01); }

static void line(FILE *f, const size_t *n, const double *us, const char *colour, const char *what)
{
    fprintf(f, "<polyline fill=\"none\" stroke=\"%s\" stroke-width=\"2\" points=\"", colour);
    for (int i = 0; i < SIZES; i++)
        fprintf(f, "%.1f,%.1f ", across((double)n[i]), up(us[i]));
    fprintf(f, "\"/>\n<text x=\"470\" y=\"%.1f\" fill=\"%s\">%s</text>\n", up(us[SIZES - 1]) + 4,
            colour, what);
}

static void draw(const char *path, const size_t *n, const double *ours, const double *plain)
{
    FILE *f = fopen(path, "w");
    if (f == NULL) {
        perror(path);
        exit(EXIT_FAILURE);
    }
    fprintf(f, "<svg xmlns=\"http://www.w3.org/2000/svg\" width=\"620\" height=\"340\" "
               "font-family=\"sans-serif\" font-size=\"12\">\n"
               "<rect width=\"620\" height=\"340\" fill=\"white\"/>\n");
    for (int e = 0; e <= 4; e++) {
        double us = 0.01 * pow(10, e);
        fprintf(f, "<line x1=\"60\" x2=\"460\" y1=\"%.1f\" y2=\"%.1f\" stroke=\"#ddd\"/>"
                   "<text x=\"52\" y=\"%.1f\" text-anchor=\"end\">%g</text>\n",
                up(us), up(us), up(us) + 4, us);
    }
    for (int i = 0; i < SIZES; i += 2)
        fprintf(f, "<text x=\"%.1f\" y=\"318\" text-anchor=\"middle\">%zu</text>\n",
                across((double)n[i]), n[i]);
    fprintf(f, "<text x=\"260\" y=\"334\" text-anchor=\"middle\">blocks</text>\n"
               "<text x=\"60\" y=\"16\">microseconds, an empty volume</text>\n");
    line(f, n, ours, "#b03030", "check");
    line(f, n, plain, "#3050b0", "the table read once");
    fprintf(f, "</svg>\n");
    fclose(f);
}

int main(int argc, char **argv)
{
    if (argc != 2) {
        fprintf(stderr, "usage: curve FILE.svg\n");
        return 2;
    }
    image = calloc(BULGEFS_MAX_BLOCKS, 512);
    journal = calloc(BULGEFS_MAX_JOURNAL, 1);
    if (image == NULL || journal == NULL)
        return 2;
    size_t n[SIZES];
    double ours[SIZES], plain[SIZES];
    printf("| n | check | table read once | ratio |\n|--:|--:|--:|--:|\n");
    for (int i = 0; i < SIZES; i++) {
        n[i] = (size_t)FIRST << i;
        image_len = n[i] * 512;
        format();
        ours[i] = timed(check);
        plain[i] = timed(table);
        printf("| %zu | %.2f us | %.2f | %.2f |\n", n[i], ours[i], plain[i], ours[i] / plain[i]);
    }
    draw(argv[1], n, ours, plain);
    printf("\n| bytes | call | ours | memset | ratio |\n|--:|---|--:|--:|--:|\n");
    for (size_t k = 4096; k <= BULGEFS_MAX_BLOCKS; k *= 16) {
        image_len = k * 512;
        journal_len = image_len;
        double f = timed(format), z = timed(zero_image);
        printf("| %zu | format | %.0f us | %.0f | %.2f |\n", image_len, f, z, f / z);
        f = timed(start);
        z = timed(zero_journal);
        printf("| %zu | journal_start | %.0f us | %.0f | %.2f |\n", journal_len, f, z, f / z);
    }
    return kept == 1 ? 1 : 0;
}
