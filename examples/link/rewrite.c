/* rewrite FOLDER: applies a rule to a recipe by the first match.
 *
 * FOLDER has the rule's left and right side, pattern.rec and right.rec, and recipe.rec. The program lists the matches of the left side, rewrites the
 * recipe with line 0 of the listing, and prints the lines and the new recipe in document 01's notation.
 * From the top of the repository: cc -Wall -Wextra -Iinclude examples/link/rewrite.c crates/exports/out/libexports.a -o rewrite */
#include <stdio.h>
#include "onestep.h"

enum { RECORD = 4, ENTRY = 4, VARIABLES = ONESTEP_LINE / ENTRY };

/* A file is read up to this many bytes. That is more than any term may have, so a file that is too long is refused and not cut off. */
enum { READ = 512 };

struct term {
    uint8_t bytes[READ];
    size_t length;
};

/* Full tables, so that neither 9 nor 10 comes for want of room that could have been lent. */
static uint8_t lines[ONESTEP_TABLE], values[ONESTEP_TABLE], output[ONESTEP_TABLE], work[ONESTEP_TABLE];

static const char *const causes[] = {
    "",
    "the pattern or right side has no record, more than 32, or a record cut short",
    "a record of the pattern or right side is bad",
    "the pattern or right side is not one term, or a local has no binder",
    "the recipe has no record, more than 96, or a record cut short",
    "a record of the recipe is bad, or a variable",
    "the recipe is not one term, or a local has no binder",
    "the recipe is not normal",
    "a lent table has a wrong length",
    "there are more matches than the line table has room for",
    "the values of the matches need more room than the value table has",
    "a variable has no usable value",
    "a swept form is above 256 records",
    "the output table is too short",
    "the line is not a match of the left side",
    "64 sweeps reach no normal form",
    "the book has no place, or more than 64",
    "the new recipe is above 96 records",
    "the shelf has no such buoy, or no recipe of it",
    "the shelf has no room for the recipe",
};

static int read_term(struct term *term, const char *folder, const char *name) {
    char path[4096];
    if (snprintf(path, sizeof path, "%s/%s", folder, name) >= (int)sizeof path) return 0;
    FILE *file = fopen(path, "rb");
    if (file == NULL) return 0;
    term->length = fread(term->bytes, 1, READ, file);
    int good = !ferror(file);
    fclose(file);
    return good;
}

/* A 16-bit number, high byte first. */
static size_t number(const uint8_t *at) { return (size_t)at[0] * 256 + at[1]; }

/* The number of a record, three bytes behind the kind. The first of them is the top byte of a constant, and 0 in every other kind. */
static size_t record_number(const uint8_t *record) { return (size_t)record[1] * 65536 + number(record + 2); }

static void print_term(const uint8_t *records, size_t count) {
    static const char *const kinds[] = {"@", "\\", "#", "k", "p"};
    for (size_t i = 0; i < count; i++) {
        const uint8_t *record = records + RECORD * i;
        printf(" %s", kinds[record[0]]);
        if (record[0] >= 2) printf("%zu", record_number(record));
    }
    printf("\n");
}

static void print_line(int64_t i) {
    int assigned = 0;
    for (int variable = 0; variable < VARIABLES; variable++) {
        const uint8_t *entry = lines + ONESTEP_LINE * i + ENTRY * variable;
        size_t first = number(entry), count = number(entry + 2);
        if (count == 0) continue; /* open: any value will do */
        printf("line %lld: p%d =", (long long)i, variable);
        print_term(values + RECORD * first, count);
        assigned++;
    }
    if (assigned == 0) printf("line %lld: assigns nothing\n", (long long)i);
}

static int refused(const char *operation, int64_t answer) {
    printf("%s refused %lld: %s\n", operation, (long long)-answer, causes[-answer]);
    return 1;
}

int main(int count, char **words) {
    struct term left, right, recipe;
    if (count != 2 || !read_term(&left, words[1], "pattern.rec") || !read_term(&right, words[1], "right.rec") || !read_term(&recipe, words[1], "recipe.rec")) {
        fprintf(stderr, "usage: rewrite FOLDER (with pattern.rec, right.rec and recipe.rec in it)\n");
        return 2;
    }
    int64_t matches = onestep_list(left.bytes, left.length, recipe.bytes, recipe.length, lines, sizeof lines, values, sizeof values, work, sizeof work);
    if (matches < 0) return refused("list", matches);
    printf("matches %lld\n", (long long)matches);
    for (int64_t i = 0; i < matches; i++) print_line(i);
    if (matches == 0) return 0; /* the rule doesn't apply, and the recipe stays */
    int64_t records = onestep_rewrite(left.bytes, left.length, right.bytes, right.length, recipe.bytes, recipe.length, lines, ONESTEP_LINE,
                                      values, sizeof values, output, sizeof output, work, sizeof work);
    if (records < 0) return refused("rewrite", records);
    printf("rewritten:");
    print_term(output, (size_t)records);
    return 0;
}
