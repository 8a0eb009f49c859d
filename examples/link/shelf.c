/* shelf FOLDER: keeps the recipes of three buoys on a shelf, and the shelf in the file FOLDER/shelf.
 *
 * The program begins with a new shelf, puts recipes on it, reads, replaces one and takes one out, and prints the answers. It stores the shelf, loads it
 * from the file as a program would that was started later, and goes on from there.
 * From the top of the repository: cc -Wall -Wextra -Iinclude examples/link/shelf.c crates/exports/out/libexports.a -o shelf */
#define _POSIX_C_SOURCE 200809L /* for fsync and what it takes */
#include <fcntl.h>
#include <stdio.h>
#include <stdlib.h>
#include <string.h>
#include <unistd.h>
#include "onestep.h"

enum { RECORD = 4, RECIPE = 96 * RECORD, PATH = 4096 };

/* Both tables, one behind the other: the file has these bytes and no others. */
struct shelf {
    uint8_t directory[ONESTEP_DIRECTORY], table[ONESTEP_TABLE];
};

/* Recipes, 4 bytes a record, with the names of examples/constants.txt; `swell` is 65,547. */
static const uint8_t mean[] = {0, 0, 0, 0, 3, 0, 0, 4, 3, 0, 0, 11};                              /* @ average heights */
static const uint8_t band_mean[] = {0, 0, 0, 0, 3, 0, 0, 4, 0, 0, 0, 0, 3, 0, 0, 9, 3, 0, 0, 11}; /* @ average @ bandpass heights */
static const uint8_t swell_mean[] = {0, 0, 0, 0, 3, 0, 0, 4, 3, 1, 0, 11};                        /* @ average swell */

static void stop(const char *cause) {
    perror(cause);
    exit(2);
}

/* Writes a new file, flushes it and renames it, so that a power cut leaves the whole old shelf or the whole new one. Once its folder is flushed too, it
 * leaves the new one. */
static void store(const struct shelf *shelf, const char *folder, const char *path) {
    char new_path[PATH + 4];
    snprintf(new_path, sizeof new_path, "%s.new", path);
    FILE *file = fopen(new_path, "wb");
    if (file == NULL) stop(new_path);
    if (fwrite(shelf, sizeof *shelf, 1, file) != 1 || fflush(file) != 0 || fsync(fileno(file)) != 0) stop(new_path);
    if (fclose(file) != 0) stop(new_path);
    if (rename(new_path, path) != 0) stop(path);
    int at = open(folder, O_RDONLY);
    if (at < 0 || fsync(at) != 0 || close(at) != 0) stop(folder);
}

/* A file of another length is no shelf. */
static void load(struct shelf *shelf, const char *path) {
    FILE *file = fopen(path, "rb");
    if (file == NULL) stop(path);
    if (fread(shelf, sizeof *shelf, 1, file) != 1 || fgetc(file) != EOF) {
        fprintf(stderr, "%s: not as long as a shelf\n", path);
        exit(2);
    }
    fclose(file);
}

/* Put and take-out have nothing to count, and answer 1 for yes. */
static void print_answer(const char *operation, size_t buoy, int64_t answer) {
    printf("%s %zu: ", operation, buoy);
    if (answer < 0) printf("refused %lld\n", (long long)-answer);
    else printf("yes\n");
}

static void put(struct shelf *shelf, size_t buoy, const uint8_t *recipe, size_t length) {
    int64_t answer = onestep_shelf_put(buoy, recipe, length, shelf->directory, sizeof shelf->directory, shelf->table, sizeof shelf->table);
    print_answer("put", buoy, answer);
}

static void take_out(struct shelf *shelf, size_t buoy) {
    int64_t answer = onestep_shelf_take_out(buoy, shelf->directory, sizeof shelf->directory, shelf->table, sizeof shelf->table);
    print_answer("take out", buoy, answer);
}

/* Prints the records of the buoy's recipe, as the program onestep does. No recipe is longer than the output table here. */
static void read_out(const struct shelf *shelf, size_t buoy) {
    uint8_t output[RECIPE];
    int64_t records = onestep_shelf_read(buoy, shelf->directory, sizeof shelf->directory, shelf->table, sizeof shelf->table, output,
                                         sizeof output);
    if (records < 0) {
        print_answer("read", buoy, records);
        return;
    }
    printf("read %zu: %lld records:", buoy, (long long)records);
    for (const uint8_t *r = output; r < output + RECORD * records; r += RECORD) printf(" %02x%02x%02x%02x", r[0], r[1], r[2], r[3]);
    printf("\n");
}

static void print_count(const struct shelf *shelf) {
    int64_t changes = onestep_shelf_count(shelf->directory, sizeof shelf->directory);
    printf(changes < 0 ? "count: refused %lld\n" : "count: %lld\n", (long long)(changes < 0 ? -changes : changes));
}

int main(int count, char **words) {
    static struct shelf shelf; /* zero bytes: a new, empty shelf */
    char path[PATH];
    if (count != 2 || snprintf(path, sizeof path, "%s/shelf", words[1]) >= (int)sizeof path) {
        fprintf(stderr, "usage: shelf FOLDER (in which the file `shelf` is written)\n");
        return 2;
    }
    put(&shelf, 0, mean, sizeof mean);
    put(&shelf, 42, mean, sizeof mean);
    put(&shelf, 199, band_mean, sizeof band_mean);
    read_out(&shelf, 199);
    put(&shelf, 0, swell_mean, sizeof swell_mean);
    take_out(&shelf, 42);
    read_out(&shelf, 42);
    print_count(&shelf);
    store(&shelf, words[1], path);

    memset(&shelf, 255, sizeof shelf);
    load(&shelf, path);
    printf("stored, and loaded again\n");
    print_count(&shelf);
    read_out(&shelf, 0);
    put(&shelf, 42, band_mean, sizeof band_mean);
    put(&shelf, 200, band_mean, sizeof band_mean);
    print_count(&shelf);
    store(&shelf, words[1], path);
    return 0;
}
