/* book: rewrites a recipe by a book of two rules, until nothing applies.
 *
 * The rules and the recipe are those of docs/PLANNERS.md, "A book of rules". The program puts them into tables, lends each call the recipe that the call
 * before it wrote, and prints what each call gives. It ends when a call gives back the recipe that it was lent, or after 64 calls.
 * From the top of the repository: cc -Wall -Wextra -Iinclude examples/link/book.c crates/exports/out/libexports.a -o book */
#include <stdio.h>
#include <stdlib.h>
#include <string.h>
#include "onestep.h"

enum { RECORD = 4, CONSTANT = 3, SIDE = 32 * RECORD, RECIPE = 96 * RECORD, CALLS = 64 };

struct rule {
    const char *left, *right;
};

static const struct rule rules[] = {
    {"@ @ map p0 @ @ map p1 p2", "@ @ map \\ @ p0 @ p1 #0 p2"}, /* two maps, one behind the other, are one map */
    {"@ @ compose p0 p1", "\\ @ p0 @ p1 #0"},                   /* p0 composed with p1: do p1, then p0 */
};

static const char first_recipe[] = "@ average @ @ @ compose @ map \\ @ @ times #0 #0 @ map @ times gravity heights";

/* The constants from 0 to 12; those from 1 on are named as in examples/constants.txt. */
static const char *const names[] = {"k0",     "compose", "map",      "sum",     "average", "plus",   "times",
                                    "square", "root",    "bandpass", "detrend", "heights", "gravity"};

enum { RULES = sizeof rules / sizeof rules[0], NAMES = sizeof names / sizeof names[0] };

/* No new recipe is longer than the output table here. */
static uint8_t book[RULES * ONESTEP_PLACE], recipe[RECIPE], output[RECIPE], work[ONESTEP_TABLE];

/* A 16-bit number, high byte first. */
static size_t number(const uint8_t *at) { return (size_t)at[0] * 256 + at[1]; }

static void put_number(uint8_t *at, size_t n) {
    at[0] = (uint8_t)(n / 256);
    at[1] = (uint8_t)(n % 256);
}

/* The number of a record, three bytes behind the kind. The first of them is the top byte of a constant, and 0 in every other kind. */
static size_t record_number(const uint8_t *record) { return (size_t)record[1] * 65536 + number(record + 2); }

static void put_record(uint8_t *record, size_t kind, size_t n) {
    record[0] = (uint8_t)kind;
    record[1] = (uint8_t)(n / 65536);
    put_number(record + 2, n % 65536);
}

static void stop_at(const char *word, size_t length) {
    fprintf(stderr, "not a word of a term: %.*s\n", (int)length, word);
    exit(2);
}

/* Writes the record of a word: `@`, `\`, `#N`, `kN`, `pN` or the name of a constant. */
static void put_word(uint8_t *record, const char *word, size_t length) {
    static const char kinds[] = "@\\#kp";
    const char *kind = strchr(kinds, word[0]);
    size_t constant = 0;
    if (kind != NULL && (length == 1 || (word[1] >= '0' && word[1] <= '9'))) {
        size_t n = length == 1 ? 0 : strtoul(word + 1, NULL, 10), most = *kind == 'k' ? 16777215 : 65535;
        if (n > most) stop_at(word, length);
        put_record(record, (size_t)(kind - kinds), n);
        return;
    }
    while (constant < NAMES && (strlen(names[constant]) != length || memcmp(names[constant], word, length) != 0)) constant++;
    if (constant == NAMES) stop_at(word, length);
    put_record(record, CONSTANT, constant);
}

/* Writes the term of a text, whose words have one blank between, into a table of `room` bytes, and gives its number of records. */
static size_t put_term(uint8_t *table, size_t room, const char *text) {
    size_t count = 0;
    for (const char *word = text; *word != '\0'; count++) {
        size_t length = strcspn(word, " ");
        if (RECORD * count == room) {
            fprintf(stderr, "too many records: %s\n", text);
            exit(2);
        }
        put_word(table + RECORD * count, word, length);
        word += length + (word[length] == ' ');
    }
    return count;
}

/* A place has the two counts, room for the left side and room for the right side. What stands behind a side's records is not read. */
static void put_rule(uint8_t *place, const struct rule *rule) {
    put_number(place, put_term(place + RECORD, SIDE, rule->left));
    put_number(place + 2, put_term(place + RECORD + SIDE, SIDE, rule->right));
}

static void print_term(const uint8_t *records, size_t count) {
    static const char *const kinds[] = {"@", "\\", "#", "k", "p"};
    for (size_t i = 0; i < count; i++) {
        const uint8_t *record = records + RECORD * i;
        size_t n = record_number(record);
        if (record[0] == CONSTANT && n < NAMES) printf(" %s", names[n]);
        else if (record[0] < 2) printf(" %s", kinds[record[0]]);
        else printf(" %s%zu", kinds[record[0]], n);
    }
    printf("\n");
}

int main(void) {
    for (size_t i = 0; i < RULES; i++) put_rule(book + ONESTEP_PLACE * i, &rules[i]);
    size_t count = put_term(recipe, sizeof recipe, first_recipe);
    printf("recipe:");
    print_term(recipe, count);
    for (int call = 1; call <= CALLS; call++) {
        uint64_t pairs;
        int64_t records = onestep_book(book, sizeof book, recipe, RECORD * count, output, sizeof output, work, sizeof work, &pairs);
        if (records < 0) {
            printf("call %d refused %lld\n", call, (long long)-records);
            return 1;
        }
        printf("call %d: pairs %llu, records %lld:", call, (unsigned long long)pairs, (long long)records);
        print_term(output, (size_t)records);
        if ((size_t)records == count && memcmp(output, recipe, RECORD * count) == 0) {
            printf("the recipe came back: a further call gives the same\n");
            return 0;
        }
        count = (size_t)records;
        memcpy(recipe, output, RECORD * count);
    }
    printf("stopped after %d calls\n", CALLS);
    return 1;
}
