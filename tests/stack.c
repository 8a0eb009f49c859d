/* How much stack the library takes: one call in a thread whose stack was filled with a mark, and then looked through for the first byte that changed.
 *
 *   stack list PATTERN RECIPE     lists with full tables
 *   stack sweep N                 sweeps N nested abstractions
 *   stack rewrite RIGHT VALUE..   rewrites a recipe that is a constant; the values are those of the first variables
 *   stack book LEFT RIGHT RECIPE  rewrites the recipe by a book of one rule
 *
 * Prints the bytes of stack used, the thread's own start included, and the answer: `matches`, `records` or `refused`, and its number. A call that takes over
 * two seconds is ended with status 3; status 2 says that nothing was called. */
#define _GNU_SOURCE
#include <pthread.h>
#include <signal.h>
#include <stdio.h>
#include <stdlib.h>
#include <string.h>
#include <sys/mman.h>
#include <unistd.h>
#include "../include/onestep.h"

enum { STACK = 4 << 20, MARK = 0xA5, NOT_CALLED = 2, NO_ANSWER = 3, PLACE = 260, SIDE = 128 };

static const uint8_t constant[4] = {3, 0, 0, 1};
static uint8_t first[1024], second[1024], lines[ONESTEP_TABLE], values[ONESTEP_TABLE], output[1024], work[ONESTEP_TABLE], place[PLACE];
static size_t first_length, second_length, values_length;
static int64_t answer;

static size_t read_table(const char *path, uint8_t *table) {
    FILE *file = fopen(path, "rb");
    if (!file) {
        perror(path);
        exit(NOT_CALLED);
    }
    size_t length = fread(table, 1, 1024, file);
    fclose(file);
    return length;
}

/* Puts a side into the place, and its count. */
static void add_side(const char *path, size_t side) {
    size_t length = read_table(path, first);
    if (length > SIDE) exit(NOT_CALLED);
    memcpy(place + 4 + side * SIDE, first, length);
    place[2 * side + 1] = length / 4;
}

/* Puts a value behind the others, and its first record and count into the line. */
static void add_value(const char *path, size_t variable) {
    size_t length = read_table(path, values + values_length), record = values_length / 4, count = length / 4;
    const uint8_t entry[4] = {record >> 8, record, count >> 8, count};
    memcpy(lines + 4 * variable, entry, sizeof entry);
    values_length += length;
}

static void *list(void *unused) {
    (void)unused;
    answer = onestep_list(first, first_length, second, second_length, lines, ONESTEP_TABLE, values, ONESTEP_TABLE, work, ONESTEP_TABLE);
    return NULL;
}

static void *sweep(void *unused) {
    (void)unused;
    answer = onestep_sweep(first, first_length, lines, ONESTEP_LINE, values, 0, output, sizeof output, work, ONESTEP_TABLE);
    return NULL;
}

static void *rewrite(void *unused) {
    (void)unused;
    answer = onestep_rewrite(constant, sizeof constant, first, first_length, constant, sizeof constant, lines, ONESTEP_LINE, values, values_length, output,
                             sizeof output, work, ONESTEP_TABLE);
    return NULL;
}

static void *book(void *unused) {
    (void)unused;
    uint64_t pairs;
    answer = onestep_book(place, sizeof place, second, second_length, output, sizeof output, work, ONESTEP_TABLE, &pairs);
    return NULL;
}

static void give_up(int unused) {
    (void)unused;
    _exit(NO_ANSWER);
}

int main(int count, char **words) {
    if (count < 3) return NOT_CALLED;
    void *(*call)(void *);
    if (strcmp(words[1], "list") == 0) {
        if (count < 4) return NOT_CALLED;
        call = list;
        first_length = read_table(words[2], first);
        second_length = read_table(words[3], second);
    } else if (strcmp(words[1], "rewrite") == 0) {
        if (count > 3 + ONESTEP_LINE / 4) return NOT_CALLED;
        call = rewrite;
        first_length = read_table(words[2], first);
        for (int i = 3; i < count; i++) add_value(words[i], i - 3);
    } else if (strcmp(words[1], "book") == 0) {
        if (count < 5) return NOT_CALLED;
        call = book;
        add_side(words[2], 0);
        add_side(words[3], 1);
        second_length = read_table(words[4], second);
    } else {
        call = sweep;
        size_t depth = strtoul(words[2], NULL, 10);
        for (size_t i = 0; i < depth; i++) first[4 * i] = 1;
        first[4 * depth] = 2;
        first_length = 4 * (depth + 1);
    }
    uint8_t *stack = mmap(NULL, STACK, PROT_READ | PROT_WRITE, MAP_PRIVATE | MAP_ANONYMOUS, -1, 0);
    if (stack == MAP_FAILED) return NOT_CALLED;
    memset(stack, MARK, STACK);
    pthread_attr_t attributes;
    pthread_t thread;
    pthread_attr_init(&attributes);
    pthread_attr_setstack(&attributes, stack, STACK);
    signal(SIGALRM, give_up);
    alarm(2);
    if (pthread_create(&thread, &attributes, call, NULL) != 0) return NOT_CALLED;
    pthread_join(thread, NULL);
    size_t at = 0;
    while (at < STACK && stack[at] == MARK) at++;
    printf("%zu %s %lld\n", STACK - at, answer < 0 ? "refused" : call == list ? "matches" : "records", (long long)(answer < 0 ? -answer : answer));
    return 0;
}
