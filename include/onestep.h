/* onestep: a proved one-step matcher for buoy recipes.
 *
 * Each table is lent as a pointer and a length in bytes. A length of 0 may come with any pointer that is not NULL. The tables that are written (the
 * output table, list's line and value tables, the work area, in a put or a take-out the shelf's two tables) must not overlap any other table, and
 * nobody else may write to a lent table during a call. The book's number of pairs counts as a table that is written, and its pointer must not be NULL.
 * Every call but the shelf's takes a work area of ONESTEP_TABLE bytes; it is all zero on return, unless its own length was wrong. On a refusal every
 * other table, the number of pairs too, is as it was.
 *
 * A table holds records of 4 bytes: kind, and a number in three bytes, high byte first. The first of the three, the record's second byte, is the top
 * byte of a constant's number, and 0 in all other kinds. Kinds: 0 application, followed by its head and its argument; 1 abstraction, followed by its
 * body; 2 local, 0 the innermost; 3 constant, 0 to 16,777,215; 4 variable, 0 to 7. A record is bad if its kind is above 4, its second byte isn't 0 in
 * another kind than 3, its number isn't 0 in kind 0 or 1, or it is a variable above 7.
 * An assignment is one line of ONESTEP_LINE bytes (first record and count of records for each variable, 16 bits each, high byte first; a count of 0
 * is open) and a value table that the line points into.
 * A book is 1 to ONESTEP_PLACES places of ONESTEP_PLACE bytes, each with a rule: the record counts of its left and its right side, 16 bits each, high
 * byte first, then room for 32 records of the left side and for 32 of the right side. Records behind a count are not read.
 * A shelf keeps recipes by buoy, 0 to 199, in two tables: a directory of ONESTEP_DIRECTORY bytes and a record table of ONESTEP_TABLE bytes. A new, empty
 * shelf is a directory of zero bytes and a record table of any bytes. Lend each call both tables as the call before it left them. There is no other
 * state, so that a program can keep a shelf in a file. What a shelf with other bytes answers is left free; no call goes beyond the tables it is lent.
 *
 * A negative result is minus a refusal number. The one given is the first whose cause holds, in this order: 8; pattern or left side 1, 2, 3; recipe 4
 * to 7; right side 1, 2, 3; then 9, 10 (list), or 11; 12 on the left side; 14; 12 on the right side; 15; 13. Of the book: 8; 16; of each rule in book
 * order left side 1, 2, 3, right side 1, 2, 3; recipe 4 to 7; then pair by pair 9, 10, and of the pair used 12 on the left side, 12 and 15 on the
 * right side, 12 and 15 on the whole; 17; 13. Of a shelf's put: 18; 8; recipe 4 to 7; 19. Of take-out and read: 18 for a number above 199; 8 of the
 * directory; 18 for a buoy without a recipe; 8 of the record table; of read then 8 of the output table; 13. Of count: 8.
 *    1 pattern, left or right side: length 0, above 128 bytes, or no multiple of 4; in a book, a count of 0 or above 32
 *    2 one of its records is bad          3 it isn't one tree, or a local lacks a binder
 *    4 recipe: length 0, above 384 bytes, or no multiple of 4
 *    5 one of its records is bad or a variable   6 it isn't one tree, or a local lacks a binder   7 it isn't normal
 *    8 the line isn't 32 bytes, list's line table is no multiple of 32 or above 65,536 bytes, the value or output table is no multiple of 4 or above
 *      65,536 bytes, the book is no multiple of 260 bytes, the work area or the shelf's record table isn't 65,536 bytes, or the directory isn't
 *      24,576 bytes or is one whose recipes have more records together than the record table
 *    9 list: the full listing has more lines than the line table has room for; book: a listing has more than 2,048 lines
 *   10 list: the lines have room, but their values have more records than the value table; book: than 16,384
 *   11 check, sweep, rewrite: a variable that occurs has no usable value
 *   12 some part's swept form is above 256 records; of a right side, and of the book's whole, in any sweep that is made
 *   13 the output table is shorter than what is to be written
 *   14 rewrite: the assignment isn't a match of the left side
 *   15 rewrite, book: 64 sweeps of the filled right side, or of the book's whole, reach no normal form
 *   16 book: it has no place, or more than 64
 *   17 book: the new recipe is above 96 records
 *   18 shelf: the buoy is above 199; take-out, read: or has no recipe
 *   19 put: the kept recipes of the other buoys and the new one have more than 16,384 records together
 */
#ifndef ONESTEP_H
#define ONESTEP_H

#include <stddef.h>
#include <stdint.h>

#ifdef __cplusplus
extern "C" {
#endif

enum { ONESTEP_LINE = 32, ONESTEP_TABLE = 65536, ONESTEP_PLACE = 260, ONESTEP_PLACES = 64, ONESTEP_BUOYS = 200, ONESTEP_DIRECTORY = 24576 };

/* Writes the full listing of the pattern and the recipe, and gives its number of lines: every match agrees with exactly one line in each entry that the
 * line assigns, and whatever values a line's open variables get, the filled pattern sweeps to the recipe. The lines go up by variable 0, then 1, to 7;
 * open comes before assigned, and two values compare by bytes. Their values stand in the value table in line order, then variable order, from record 0;
 * bytes behind the last line and the last value stay. */
int64_t onestep_list(const uint8_t *pattern, size_t pattern_length, const uint8_t *recipe, size_t recipe_length, uint8_t *lines, size_t lines_length,
                     uint8_t *values, size_t values_length, uint8_t *work, size_t work_length);

/* 1 if the filled pattern sweeps to the recipe, 0 if it doesn't. */
int64_t onestep_check(const uint8_t *pattern, size_t pattern_length, const uint8_t *recipe, size_t recipe_length, const uint8_t *line,
                      size_t line_length, const uint8_t *values, size_t values_length, uint8_t *work, size_t work_length);

/* Writes the swept form of the filled pattern to output, and gives its number of records; bytes behind it stay. */
int64_t onestep_sweep(const uint8_t *pattern, size_t pattern_length, const uint8_t *line, size_t line_length, const uint8_t *values,
                      size_t values_length, uint8_t *output, size_t output_length, uint8_t *work, size_t work_length);

/* If the assignment is a match of left and the recipe, sweeps the filled right side again and again, at least once, writes the first form that is
 * normal, and gives its number of records; bytes behind it stay. With at most 96 records it is a recipe: it can be lent to onestep_list. */
int64_t onestep_rewrite(const uint8_t *left, size_t left_length, const uint8_t *right, size_t right_length, const uint8_t *recipe,
                        size_t recipe_length, const uint8_t *line, size_t line_length, const uint8_t *values, size_t values_length,
                        uint8_t *output, size_t output_length, uint8_t *work, size_t work_length);

/* Tries the pairs of a closed part of the recipe and a rule, the parts in record order, the whole recipe first, and with each the rules in book order.
 * A part is closed if each of its locals has its binder within it. A pair is used if the listing of its left side and its part, with full tables, isn't
 * empty and line 0 leaves no variable of the right side open. With the first such pair the part is rewritten by line 0, as onestep_rewrite does, its
 * open variables filled with constant 0; what that gives is put in the part's place, and the whole is swept until it is normal, not at all if it is
 * normal already. Writes the new recipe, gives its number of records, and sets *pairs to the number of pairs up to and with the one used; bytes behind
 * the recipe stay. If no pair is used, writes the recipe as it is, and sets *pairs to the number of all pairs. A pair whose listing gets 9 or 10 ends
 * the search with that number, even if its rule could not be used. An output table of 384 bytes is long enough. What is written is a recipe again: each
 * function that takes a recipe takes it. */
int64_t onestep_book(const uint8_t *book, size_t book_length, const uint8_t *recipe, size_t recipe_length, uint8_t *output, size_t output_length,
                     uint8_t *work, size_t work_length, uint64_t *pairs);

/* Puts the recipe on the shelf, in the place of the one that the buoy had, and gives 1. */
int64_t onestep_shelf_put(size_t buoy, const uint8_t *recipe, size_t recipe_length, uint8_t *directory, size_t directory_length, uint8_t *table,
                          size_t table_length);

/* Takes the buoy's recipe out, and gives 1. */
int64_t onestep_shelf_take_out(size_t buoy, uint8_t *directory, size_t directory_length, uint8_t *table, size_t table_length);

/* Writes the buoy's recipe, the last one that was put and not taken out, and gives its number of records; bytes behind it stay. An output table of 384
 * bytes is long enough. */
int64_t onestep_shelf_read(size_t buoy, const uint8_t *directory, size_t directory_length, const uint8_t *table, size_t table_length,
                           uint8_t *output, size_t output_length);

/* The number of puts and take-outs that were done since the shelf was new; it stays at 4,294,967,295 once there. */
int64_t onestep_shelf_count(const uint8_t *directory, size_t directory_length);

#ifdef __cplusplus
}
#endif

#endif
