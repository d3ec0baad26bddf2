/*
 * Times the library beside the plain C baseline, in one run, and prints a table
 * that is Markdown too: microseconds per call, their ratio, and how much longer
 * a call takes when the number of blocks doubles.  Beside them stand the limit,
 * the time to read once the bytes that the check must read, and the same work
 * in SQLite.  900 files lie in 9 folders.  Before it times a volume it makes
 * the calls on both sides, which must agree in every byte.
 *
 * Usage: bench [--quick] [FIGURES]
 * --quick takes fewer and shorter samples.  The figures go to the file FIGURES
 * too, a line each, for picture.py.
 *
 * The baseline is baseline.c compiled with -DBULGEFS_PREFIX=baseline_.
 */
#define _POSIX_C_SOURCE 199309L

#include "bench.h"
#include "bulgefs.h"
#include "read_once.h"

#include <math.h>
#include <stdio.h>
#include <stdlib.h>
#include <string.h>
#include <time.h>

uint32_t baseline_check(const uint8_t *, size_t);
bulgefs_found baseline_lookup(const uint8_t *, size_t, const uint8_t *, size_t);
bulgefs_filled baseline_read(const uint8_t *, size_t, const uint8_t *, size_t, uint64_t,
                             uint8_t *, size_t);
bulgefs_changed baseline_write(uint8_t *, size_t, uint8_t *, size_t, const uint8_t *, size_t,
                               uint64_t, const uint8_t *, size_t, uint64_t);
bulgefs_changed baseline_delete(uint8_t *, size_t, uint8_t *, size_t, const uint8_t *, size_t);
bulgefs_created baseline_create_directory(uint8_t *, size_t, uint8_t *, size_t, const uint8_t *,
                                          size_t, uint8_t, uint8_t, uint8_t, uint8_t, uint32_t,
                                          uint32_t, uint64_t);
bulgefs_changed baseline_delete_directory(uint8_t *, size_t, uint8_t *, size_t, const uint8_t *,
                                          size_t);
bulgefs_changed baseline_set_attributes(uint8_t *, size_t, uint8_t *, size_t, const uint8_t *,
                                        size_t, const uint8_t *, size_t);
bulgefs_filled baseline_read_attributes(const uint8_t *, size_t, const uint8_t *, size_t,
                                        uint8_t *, size_t);
bulgefs_changed baseline_clear_attributes(uint8_t *, size_t, uint8_t *, size_t, const uint8_t *,
                                          size_t);
bulgefs_changed baseline_clear_flags(uint8_t *, size_t, uint8_t *, size_t, const uint8_t *,
                                     size_t);
bulgefs_changed baseline_undo(uint8_t *, size_t, uint8_t *, size_t);
uint32_t baseline_salvage(uint8_t *, size_t, uint8_t *, size_t);

/* The calls of one side. */
typedef struct {
    uint32_t (*check)(const uint8_t *, size_t);
    bulgefs_found (*lookup)(const uint8_t *, size_t, const uint8_t *, size_t);
    bulgefs_filled (*read)(const uint8_t *, size_t, const uint8_t *, size_t, uint64_t,
                           uint8_t *, size_t);
    bulgefs_changed (*write)(uint8_t *, size_t, uint8_t *, size_t, const uint8_t *, size_t,
                             uint64_t, const uint8_t *, size_t, uint64_t);
    bulgefs_changed (*delete)(uint8_t *, size_t, uint8_t *, size_t, const uint8_t *, size_t);
    bulgefs_created (*create_directory)(uint8_t *, size_t, uint8_t *, size_t, const uint8_t *,
                                        size_t, uint8_t, uint8_t, uint8_t, uint8_t, uint32_t,
                                        uint32_t, uint64_t);
    bulgefs_changed (*delete_directory)(uint8_t *, size_t, uint8_t *, size_t, const uint8_t *,
                                        size_t);
    bulgefs_changed (*set_attributes)(uint8_t *, size_t, uint8_t *, size_t, const uint8_t *,
                                      size_t, const uint8_t *, size_t);
    bulgefs_filled (*read_attributes)(const uint8_t *, size_t, const uint8_t *, size_t,
                                      uint8_t *, size_t);
    bulgefs_changed (*clear_attributes)(uint8_t *, size_t, uint8_t *, size_t, const uint8_t *,
                                        size_t);
    bulgefs_changed (*clear_flags)(uint8_t *, size_t, uint8_t *, size_t, const uint8_t *, size_t);
    bulgefs_changed (*undo)(uint8_t *, size_t, uint8_t *, size_t);
    uint32_t (*salvage)(uint8_t *, size_t, uint8_t *, size_t);
} side;

/* The columns of figures; the first two are sides that are called alike. */
enum { OURS, BASELINE, SIDES, LIMIT = SIDES, SQLITE, COLUMNS };

static const side sides[SIDES] = {
    {bulgefs_check, bulgefs_lookup, bulgefs_read, bulgefs_write, bulgefs_delete,
     bulgefs_create_directory, bulgefs_delete_directory, bulgefs_set_attributes,
     bulgefs_read_attributes, bulgefs_clear_attributes, bulgefs_clear_flags, bulgefs_undo,
     bulgefs_salvage},
    {baseline_check, baseline_lookup, baseline_read, baseline_write, baseline_delete,
     baseline_create_directory, baseline_delete_directory, baseline_set_attributes,
     baseline_read_attributes, baseline_clear_attributes, baseline_clear_flags,
     baseline_undo, baseline_salvage},
};

static const char *const call_names[CALLS] = {"check", "lookup", "read", "write", "delete",
                                              "delete 64 blocks", "create directory",
                                              "delete directory", "set attributes",
                                              "read attributes", "clear attributes", "clear flags",
                                              "undo", "salvage"};

static const uint32_t block_counts[] = {16, 64, 256, 1024, 4096, 16384, 65536};
/* The last lie in folders, a hundred in each; all others in the root. */
static const uint32_t file_counts[] = {10, 100, 250, 900};
enum { IN_FOLDER = 100, FOLDER_BLOCKS = 26 };
enum { NS = 7, FILES = 4, MAX_SAMPLES = 9, JOURNAL = 65536, DATA = 1000 };
/* The last file, of which the calls are made, has three blocks; a write makes it longer. */
enum { LAST_SIZE = DATA + 500, LAST_WRITTEN = 2 * DATA };
/* A file of many blocks, whose delete saves and zeroes them all; only where there is room. */
enum { LARGE_BLOCKS = 64 };
/* Attributes of two blocks are set, over none. */
enum { ATTRIBUTES = 1024 };

static int samples = MAX_SAMPLES;
static double sample_seconds = 3e-3;

static uint8_t image[BULGEFS_IMAGE_SIZE(65536)], journal[JOURNAL], data[LAST_WRITTEN];
static uint8_t buffer[4096];
static size_t image_len;

/* Bytes of header, table and directories: the first of the image, as no directory came later. */
static size_t check_len;

/* Whether the volume has the file of many blocks, and whether its root holds no folder. */
static int has_large, is_flat;

/* Seconds per call; 0 where the files do not fit, or there is no such call. */
static double measured[CALLS][FILES][NS][COLUMNS];

double now(void)
{
    struct timespec t;
    clock_gettime(CLOCK_MONOTONIC, &t);
    return (double)t.tv_sec + (double)t.tv_nsec * 1e-9;
}

void require(uint32_t number, const char *what)
{
    if (number != BULGEFS_OK) {
        fprintf(stderr, "bench: %s was refused with %u\n", what, (unsigned)number);
        exit(EXIT_FAILURE);
    }
}

/* How many folders hold so many files: none if the root does. */
static uint32_t folder_count(uint32_t files)
{
    return files > 250 ? files / IN_FOLDER : 0;
}

static size_t folder_path(uint32_t i, uint8_t *path)
{
    return (size_t)snprintf((char *)path, PATH_SIZE, "/venue number %06u", (unsigned)i);
}

/* The path of file i of so many. */
static size_t file_path(uint32_t i, uint32_t files, uint8_t *path)
{
    size_t len = folder_count(files) > 0 ? folder_path(i / IN_FOLDER, path) : 0;
    return len + (size_t)snprintf((char *)path + len, 80, "/settings of serial number %06u",
                                  (unsigned)i);
}

static void make_folders(uint32_t count)
{
    for (uint32_t i = 0; i < count; i++) {
        uint8_t path[PATH_SIZE];
        size_t len = folder_path(i, path);
        require(bulgefs_journal_start(journal, JOURNAL), "start");
        require(bulgefs_create_directory(image, image_len, journal, JOURNAL, path, len, 0x20, 0,
                                         0, 0, 0, FOLDER_BLOCKS, 1).number,
                "create directory");
    }
}

static const uint8_t large[] = "/a large file";
enum { LARGE = sizeof large - 1 };

/* The file of many blocks, written piece by piece. */
static void make_large(void)
{
    require(bulgefs_journal_start(journal, JOURNAL), "start");
    require(bulgefs_create(image, image_len, journal, JOURNAL, large, LARGE, 0x60, 0, 0, 0, 0,
                           1).number,
            "create");
    for (uint32_t at = 0; at < LARGE_BLOCKS * 512; at += sizeof buffer) {
        require(bulgefs_journal_start(journal, JOURNAL), "start");
        require(bulgefs_write(image, image_len, journal, JOURNAL, large, LARGE, at, buffer,
                              sizeof buffer, 2).number,
                "write");
    }
}

/*
 * A volume of n blocks and so many files.  Every second file has a block, as
 * long as some stay free; the last file has a few.  One slot of the root stays
 * free, and another is for the file of many blocks.  Gives 0 if they do not fit.
 */
static int make_volume(uint32_t n, uint32_t files)
{
    static const uint8_t volume_name[128] = "bench";
    bulgefs_uuid uuid = {{0}};
    uint32_t folders = folder_count(files);
    uint32_t root = ((folders > 0 ? folders : files) + 2 + 2 + 3) / 4;
    uint32_t used = (n + 127) / 128 + 1 + root + folders * FOLDER_BLOCKS;
    if (used + 8 > n)
        return 0;
    uint32_t spare = n - used - 8;
    has_large = spare >= LARGE_BLOCKS + files;
    is_flat = folders == 0;
    spare -= has_large ? LARGE_BLOCKS : 0;
    image_len = (size_t)n * 512;
    check_len = (size_t)used * 512;
    require(bulgefs_format(image, image_len, root, 1, uuid, volume_name, 128), "format");
    make_folders(folders);
    sqlite_start();
    for (uint32_t i = 0; i < files; i++) {
        uint8_t path[PATH_SIZE];
        size_t len = file_path(i, files, path);
        size_t size = i + 1 == files ? LAST_SIZE : i % 2 == 0 && spare > 0 ? 100 : 0;
        spare -= size == 100;
        require(bulgefs_journal_start(journal, JOURNAL), "start");
        require(bulgefs_create(image, image_len, journal, JOURNAL, path, len, 0x60, 0, 0, 0, 0,
                               1).number,
                "create");
        require(bulgefs_write(image, image_len, journal, JOURNAL, path, len, 0, buffer, size,
                              2).number,
                "write");
        sqlite_add(path, len, buffer, size);
    }
    if (has_large)
        make_large();
    require(bulgefs_journal_start(journal, JOURNAL), "start");
    return 1;
}

static const uint8_t new_folder[] = "/one more venue";
enum { NEW_FOLDER = sizeof new_folder - 1, NEW_BLOCKS = 2 };

/* Deletes the file of many blocks and takes it back. */
static void delete_large(const side *s, double *sum)
{
    double begin = now();
    uint32_t number = s->delete(image, image_len, journal, JOURNAL, large, LARGE).number;
    sum[DELETE_LARGE] += now() - begin;
    require(number | s->undo(image, image_len, journal, JOURNAL).number, "a timed call");
}

/* Sets, reads and clears attributes, and takes that back. */
static void attribute_calls(const side *s, const uint8_t *path, size_t len, double *sum)
{
    double t[4];
    t[0] = now();
    uint32_t number = s->set_attributes(image, image_len, journal, JOURNAL, path, len, data,
                                        ATTRIBUTES).number;
    t[1] = now();
    number |= s->read_attributes(image, image_len, path, len, buffer, sizeof buffer).number;
    t[2] = now();
    number |= s->clear_attributes(image, image_len, journal, JOURNAL, path, len).number;
    t[3] = now();
    number |= s->undo(image, image_len, journal, JOURNAL).number;
    number |= s->undo(image, image_len, journal, JOURNAL).number;
    require(number, "a timed call");
    sum[SET_ATTRIBUTES] += t[1] - t[0];
    sum[READ_ATTRIBUTES] += t[2] - t[1];
    sum[CLEAR_ATTRIBUTES] += t[3] - t[2];
}

/* Clears a file's flags, and takes that back. */
static void clear_flags(const side *s, const uint8_t *path, size_t len, double *sum)
{
    double begin = now();
    uint32_t number = s->clear_flags(image, image_len, journal, JOURNAL, path, len).number;
    sum[CLEAR_FLAGS] += now() - begin;
    require(number | s->undo(image, image_len, journal, JOURNAL).number, "a timed call");
}

/* Salvages a volume that is sound, and so stays as it is. */
static void salvage(const side *s, double *sum)
{
    double begin = now();
    uint32_t number = s->salvage(image, image_len, buffer, sizeof buffer);
    sum[SALVAGE] += now() - begin;
    require(number, "a timed call");
}

/* Makes every call once and adds the time of each. */
static void make_calls(const side *s, const uint8_t *path, size_t len, double *sum)
{
    double t[10];
    t[0] = now();
    uint32_t number = s->check(image, image_len);
    t[1] = now();
    number |= s->lookup(image, image_len, path, len).number;
    t[2] = now();
    number |= s->read(image, image_len, path, len, 0, buffer, sizeof buffer).number;
    t[3] = now();
    number |= s->write(image, image_len, journal, JOURNAL, path, len, 1000, data, DATA, 3).number;
    t[4] = now();
    number |= s->undo(image, image_len, journal, JOURNAL).number;
    t[5] = now();
    number |= s->delete(image, image_len, journal, JOURNAL, path, len).number;
    t[6] = now();
    number |= s->undo(image, image_len, journal, JOURNAL).number;
    t[7] = now();
    number |= s->create_directory(image, image_len, journal, JOURNAL, new_folder, NEW_FOLDER,
                                  0x20, 0, 0, 0, 0, NEW_BLOCKS, 4).number;
    t[8] = now();
    number |= s->delete_directory(image, image_len, journal, JOURNAL, new_folder,
                                  NEW_FOLDER).number;
    t[9] = now();
    number |= s->undo(image, image_len, journal, JOURNAL).number;
    number |= s->undo(image, image_len, journal, JOURNAL).number;
    require(number, "a timed call");
    sum[CHECK] += t[1] - t[0];
    sum[LOOKUP] += t[2] - t[1];
    sum[READ] += t[3] - t[2];
    sum[WRITE] += t[4] - t[3];
    sum[UNDO] += t[5] - t[4];
    sum[DELETE] += t[6] - t[5];
    sum[CREATE_DIRECTORY] += t[8] - t[7];
    sum[DELETE_DIRECTORY] += t[9] - t[8];
    attribute_calls(s, path, len, sum);
    clear_flags(s, path, len, sum);
    if (has_large)
        delete_large(s, sum);
    if (is_flat)
        salvage(s, sum);
}

/* Breaks the table: every third entry behind the directories. */
static void spoil(uint8_t *s)
{
    for (size_t b = check_len / 512; b < image_len / 512; b += 3)
        s[512 + 4 * b + 3] ^= 1;
}

/* Ends the program if the two sides differ in an answer, the image or the journal. */
static void compare_sides(const uint8_t *path, size_t len)
{
    static uint8_t images[SIDES][sizeof image], journals[SIDES][JOURNAL], buffers[SIDES][8192 + 256];
    bulgefs_found found[SIDES];
    bulgefs_created created[SIDES];
    bulgefs_changed changed[SIDES][10];
    uint32_t salvaged[SIDES];
    for (int s = 0; s < SIDES; s++) {
        uint8_t *i = images[s], *j = journals[s];
        bulgefs_changed *c = changed[s];
        memcpy(i, image, image_len);
        memcpy(j, journal, JOURNAL);
        require(sides[s].check(i, image_len), "check");
        found[s] = sides[s].lookup(i, image_len, path, len);
        sides[s].read(i, image_len, path, len, 0, buffers[s], 4096);
        *c++ = sides[s].write(i, image_len, j, JOURNAL, path, len, 1000, data, DATA, 3);
        *c++ = sides[s].write(i, image_len, j, JOURNAL, path, len, 2000, data, 1, 4);
        *c++ = sides[s].undo(i, image_len, j, JOURNAL);
        *c++ = sides[s].set_attributes(i, image_len, j, JOURNAL, path, len, data, 512);
        *c++ = sides[s].clear_attributes(i, image_len, j, JOURNAL, path, len);
        *c++ = sides[s].set_attributes(i, image_len, j, JOURNAL, path, len, data, ATTRIBUTES);
        sides[s].read_attributes(i, image_len, path, len, buffers[s] + 4096, 4096);
        *c++ = sides[s].clear_flags(i, image_len, j, JOURNAL, path, len);
        *c++ = sides[s].delete(i, image_len, j, JOURNAL, path, len);
        created[s] = sides[s].create_directory(i, image_len, j, JOURNAL, new_folder, NEW_FOLDER,
                                               0x20, 1, 2, 3, 0, NEW_BLOCKS, 5);
        *c++ = sides[s].delete_directory(i, image_len, j, JOURNAL, new_folder, NEW_FOLDER);
        *c++ = sides[s].delete(i, image_len, j, JOURNAL, large, LARGE);
        spoil(i);
        salvaged[s] = sides[s].salvage(i, image_len, buffers[s] + 8192, 256);
    }
    if (memcmp(&found[OURS], &found[BASELINE], sizeof found[OURS]) != 0
        || memcmp(&created[OURS], &created[BASELINE], sizeof created[OURS]) != 0
        || memcmp(changed[OURS], changed[BASELINE], sizeof changed[OURS]) != 0
        || salvaged[OURS] != salvaged[BASELINE]
        || memcmp(buffers[OURS], buffers[BASELINE], sizeof buffers[OURS]) != 0
        || memcmp(images[OURS], images[BASELINE], image_len) != 0
        || memcmp(journals[OURS], journals[BASELINE], JOURNAL) != 0) {
        fprintf(stderr, "bench: the two sides do not do the same work\n");
        exit(EXIT_FAILURE);
    }
}

static int ascending(const void *a, const void *b)
{
    double x = *(const double *)a, y = *(const double *)b;
    return (x > y) - (x < y);
}

/* Makes the calls of one column once and adds the time of each. */
static void make_column(int column, const uint8_t *path, size_t len, double *sum)
{
    static volatile uint64_t sink;
    if (column == SQLITE) {
        sqlite_calls(path, len, data, LAST_WRITTEN, sum);
    } else if (column == LIMIT) {
        double begin = now();
        sink = read_once(image, check_len);
        double took = now() - begin;
        for (int c = 0; c < CALLS; c++)
            sum[c] += took;
    } else {
        make_calls(&sides[column], path, len, sum);
    }
    (void)sink;
}

/* Takes samples of all columns in turn and keeps the median of each call. */
static void measure(uint32_t n_index, uint32_t file_index)
{
    double taken[COLUMNS][CALLS][MAX_SAMPLES];
    uint32_t files = file_counts[file_index];
    uint8_t path[PATH_SIZE];
    if (!make_volume(block_counts[n_index], files))
        return;
    size_t len = file_path(files - 1, files, path);
    compare_sides(path, len);
    for (int i = 0; i < samples; i++) {
        for (int s = 0; s < COLUMNS; s++) {
            double sum[CALLS] = {0};
            double begin = now();
            int calls = 0;
            for (; calls < 3 || now() - begin < sample_seconds; calls++)
                make_column(s, path, len, sum);
            for (int c = 0; c < CALLS; c++)
                taken[s][c][i] = sum[c] / calls;
        }
    }
    for (int c = 0; c < CALLS; c++) {
        for (int s = 0; s < COLUMNS; s++) {
            qsort(taken[s][c], (size_t)samples, sizeof(double), ascending);
            measured[c][file_index][n_index][s] = taken[s][c][samples / 2];
        }
    }
}

/* The factor of one doubling of n, from the number of blocks before. */
static void print_growth(const double (*row)[COLUMNS], int n_index, int s)
{
    if (n_index == 0 || row[n_index - 1][s] == 0) {
        printf(" %7s |", "-");
        return;
    }
    double doublings = log2((double)block_counts[n_index] / block_counts[n_index - 1]);
    printf(" %7.2f |", pow(row[n_index][s] / row[n_index - 1][s], 1 / doublings));
}

static void print_time(double seconds)
{
    if (seconds > 0)
        printf(" %9.2f |", seconds * 1e6);
    else
        printf(" %9s |", "-");
}

static void print_table(void)
{
    printf("| %-16s | %5s | %6s | %9s | %9s | %5s | %9s | %9s | %7s | %7s |\n", "call", "files",
           "blocks", "ours", "C", "ratio", "limit", "SQLite", "ours 2n", "C 2n");
    printf("|:-----------------|------:|-------:|----------:|----------:|------:|----------:"
           "|----------:|--------:|--------:|\n");
    for (int c = 0; c < CALLS; c++)
        for (int f = 0; f < FILES; f++)
            for (int n = 0; n < NS; n++) {
                const double (*row)[COLUMNS] = (const double (*)[COLUMNS])measured[c][f];
                if (row[n][OURS] == 0)
                    continue;
                printf("| %-16s | %5u | %6u |", call_names[c], (unsigned)file_counts[f],
                       (unsigned)block_counts[n]);
                print_time(row[n][OURS]);
                print_time(row[n][BASELINE]);
                printf(" %5.2f |", row[n][OURS] / row[n][BASELINE]);
                print_time(row[n][LIMIT]);
                print_time(row[n][SQLITE]);
                print_growth(row, n, OURS);
                print_growth(row, n, BASELINE);
                printf("\n");
            }
}

/* The geometric mean of the ratios of each call. */
static void print_means(void)
{
    printf("\n| %-16s | %10s |\n|:-----------------|-----------:|\n", "call", "mean ratio");
    for (int c = 0; c < CALLS; c++) {
        double sum = 0;
        int count = 0;
        for (int f = 0; f < FILES; f++)
            for (int n = 0; n < NS; n++)
                if (measured[c][f][n][OURS] > 0) {
                    sum += log(measured[c][f][n][OURS] / measured[c][f][n][BASELINE]);
                    count++;
                }
        printf("| %-16s | %10.2f |\n", call_names[c], exp(sum / count));
    }
}

static void write_figures(const char *path)
{
    FILE *f = fopen(path, "w");
    if (f == NULL) {
        fprintf(stderr, "bench: cannot write %s\n", path);
        exit(EXIT_FAILURE);
    }
    fprintf(f, "call\tfiles\tblocks\tours\tC\tlimit\tSQLite\n");
    for (int c = 0; c < CALLS; c++)
        for (int i = 0; i < FILES; i++)
            for (int n = 0; n < NS; n++) {
                const double *m = measured[c][i][n];
                if (m[OURS] > 0)
                    fprintf(f, "%s\t%u\t%u\t%.3f\t%.3f\t%.3f\t%.3f\n", call_names[c],
                            (unsigned)file_counts[i], (unsigned)block_counts[n], m[OURS] * 1e6,
                            m[BASELINE] * 1e6, m[LIMIT] * 1e6, m[SQLITE] * 1e6);
            }
    fclose(f);
}

int main(int argc, char **argv)
{
    const char *figures = NULL;
    for (int i = 1; i < argc; i++) {
        if (strcmp(argv[i], "--quick") == 0) {
            samples = 3;
            sample_seconds = 3e-4;
        } else {
            figures = argv[i];
        }
    }
    if (sqlite_version() != NULL)
        printf("SQLite    %s, in memory, prepared statements, write and delete in a savepoint\n",
               sqlite_version());
    else
        printf("SQLite    its development package is not installed: the column is empty\n");
    printf("times     microseconds per call, median of %d samples; limit: reading header, table\n"
           "          and directories once; 2n: factor as the blocks double; 900 files lie in 9"
           " folders\n\n",
           samples);
    for (uint32_t n = 0; n < NS; n++)
        for (uint32_t f = 0; f < FILES; f++)
            measure(n, f);
    print_table();
    print_means();
    bench_lists(samples);
    bench_settings(samples < MAX_SAMPLES);
    bench_fleet(samples < MAX_SAMPLES);
    if (figures != NULL)
        write_figures(figures);
    return 0;
}
