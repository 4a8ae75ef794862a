/* What vcube.h says of its structs and macros, of NULL with length 0, of overlap, of numbers of any width, and of its version. What the calls do,
 * with buffers that begin anywhere, is compared elsewhere, by tests/replay. This file is C and C++. */

#include "vcube.h"

#include <stdio.h>
#include <string.h>

#define N 4
#define TABLE VCUBE_TABLE_LENGTH(N)
#define ANY 77 /* what a number holds before a call */
#define CUBE VCUBE_WIRING_CUBE
#define RING VCUBE_WIRING_RING

static int failures;

static void expect(int holds, const char *what)
{
    if (!holds) {
        printf("not so: %s\n", what);
        failures++;
    }
}

/* Numbers whose low bytes are those of a wiring, a station and a level. */
static const size_t wide[] = {256 + 1, 65536 + 1, SIZE_MAX - 254, SIZE_MAX / 2 + 2};

/* The header's structs, as the library has them. */

static void layout(void)
{
    const struct vcube_figures figures = {0, 0, 0, {0, 1}, {0, 1}};
    const struct vcube_totals totals = {0, 0, 0, 0, 0};

    expect(sizeof(struct vcube_fraction) == 16 && offsetof(struct vcube_fraction, lower) == 8, "layout: a fraction");
    expect(sizeof(struct vcube_figures) == 56, "layout: the size of figures");
    expect(offsetof(struct vcube_figures, least) == 8 && offsetof(struct vcube_figures, greatest) == 16 &&
               offsetof(struct vcube_figures, mean) == 24 && offsetof(struct vcube_figures, variance) == 40,
           "layout: the members of figures");
    expect(sizeof(struct vcube_totals) == 40, "layout: the size of totals");
    expect(offsetof(struct vcube_totals, sum) == 8 && offsetof(struct vcube_totals, squares) == 16 &&
               offsetof(struct vcube_totals, least) == 24 && offsetof(struct vcube_totals, greatest) == 32,
           "layout: the members of totals");
    expect(sizeof figures.mean.upper == 8 && sizeof figures.mean.lower == 8, "layout: the numbers of a fraction");
    expect(sizeof figures.count == 8 && sizeof figures.least == 8 && sizeof figures.greatest == 8, "layout: the numbers of figures");
    expect(sizeof totals.count == 8 && sizeof totals.sum == 8 && sizeof totals.squares == 8 && sizeof totals.least == 8 &&
               sizeof totals.greatest == 8,
           "layout: the numbers of totals");
}

static void version(void)
{
    char text[40];

    snprintf(text, sizeof text, "%d.%d.%d", VCUBE_VERSION_MAJOR, VCUBE_VERSION_MINOR, VCUBE_VERSION_PATCH);
    expect(strcmp(text, VCUBE_VERSION) == 0, "version: its numbers are those of its text");
    expect(VCUBE_VERSION_NUMBER == 10000 * VCUBE_VERSION_MAJOR + 100 * VCUBE_VERSION_MINOR + VCUBE_VERSION_PATCH, "version: as one number");
    expect(vcube_version() == VCUBE_VERSION_NUMBER, "version: the library's is the header's");
}

/* NULL with length 0 gives what any other buffer of length 0 gives: here the number that the header says. */

/* The calls that a plant's table is lent to, with none. */
static void null_tables(void)
{
    uint8_t list[VCUBE_ASSIGNMENT_LENGTH(N)], sheet[4], report[VCUBE_REPORT_LENGTH(N)], saved[VCUBE_SAVED_LENGTH(N)];
    const uint8_t entry[] = {VCUBE_KIND_TURN, 0};
    size_t a, b, c, d, last = 0;
    uint32_t rounds = 0, tests = 0;

    expect(vcube_fresh_table(CUBE, N, NULL, 0) == VCUBE_REFUSED_TABLE_LENGTH, "NULL: fresh table");
    expect(vcube_assignment(N, NULL, 0, 0, list, sizeof list, &a) == VCUBE_REFUSED_TABLE_LENGTH, "NULL: assignment");
    expect(vcube_slot(N, NULL, 0, 0, &a, &b) == VCUBE_REFUSED_TABLE_LENGTH, "NULL: slot");
    expect(vcube_row(RING, N, NULL, 0, 0, &a, &b) == VCUBE_REFUSED_TABLE_LENGTH, "NULL: row");
    expect(vcube_run(RING, N, NULL, 0, &rounds, &tests, entry, 2, sheet, 4, &a) == VCUBE_REFUSED_TABLE_LENGTH, "NULL: run");
    expect(vcube_grant(RING, N, NULL, 0, last, &a) == VCUBE_REFUSED_TABLE_LENGTH, "NULL: grant");
    expect(vcube_drive(RING, N, NULL, 0, &rounds, &tests, &last, &a) == VCUBE_REFUSED_TABLE_LENGTH, "NULL: drive");
    expect(vcube_doubt_lamp(RING, N, NULL, 0, &a, &b) == VCUBE_REFUSED_TABLE_LENGTH, "NULL: doubt lamp");
    expect(vcube_wait(RING, N, NULL, 0, &a, &b, &c, &d) == VCUBE_REFUSED_TABLE_LENGTH, "NULL: wait");
    expect(vcube_mend(RING, N, NULL, 0, report, sizeof report, &a) == VCUBE_REFUSED_TABLE_LENGTH, "NULL: mend");
    expect(vcube_save(N, NULL, 0, 0, 0, saved, sizeof saved) == VCUBE_REFUSED_TABLE_LENGTH, "NULL: save");
}

/* The other buffers of these calls, with a fresh table. */
static void null_beside_tables(uint8_t *table)
{
    uint8_t sheet[4];
    const uint8_t entry[] = {VCUBE_KIND_TURN, 0};
    uint32_t rounds = ANY, tests = ANY;
    size_t given = ANY;

    expect(vcube_group_list(N, 0, 1, NULL, 0) == VCUBE_REFUSED_LIST_LENGTH, "NULL: group list");
    expect(vcube_group_list(3, 2, 1, NULL, 0) == VCUBE_ACCEPTED, "NULL: the list of an empty group");
    expect(vcube_assignment(N, table, TABLE, 0, NULL, 0, &given) == VCUBE_REFUSED_LIST_LENGTH && given == 0, "NULL: assignment's list");
    expect(vcube_run(CUBE, N, table, TABLE, &rounds, &tests, NULL, 0, sheet, 4, &given) == VCUBE_REFUSED_SHEET_LENGTH, "NULL: schedule");
    expect(vcube_run(CUBE, N, table, TABLE, &rounds, &tests, entry, 2, NULL, 0, &given) == VCUBE_REFUSED_SHEET_LENGTH, "NULL: run sheet");
    given = ANY;
    expect(vcube_run(CUBE, N, table, TABLE, &rounds, &tests, NULL, 0, NULL, 0, &given) == VCUBE_ACCEPTED, "NULL: schedule and run sheet");
    expect(rounds == ANY && tests == ANY && given == 0, "NULL: a run of no entry");
    expect(vcube_mend(CUBE, N, table, TABLE, NULL, 0, &given) == VCUBE_REFUSED_REPORT_TOO_SHORT, "NULL: report");
    expect(vcube_save(N, table, TABLE, 0, 0, NULL, 0) == VCUBE_REFUSED_LIST_LENGTH, "NULL: the buffer of a save");
}

static void null_files(const uint8_t *saved)
{
    const uint8_t old[] = {1, 0, 1, 2, 2, 0, 8, 0, 0, 0, 0, 0, 0, 0, 0, 3, 0, 7, 0, 0, 1, 0, 0, 0, 0, 3, 0, 7, 1, 0, 1, 0, 0, 0, 0};
    uint8_t table[TABLE], made[VCUBE_SAVED_LENGTH(N)];
    size_t n;
    uint32_t rounds, tests;

    expect(vcube_load(NULL, 0, table, TABLE, &n, &rounds, &tests) == VCUBE_REFUSED_NO_OPENING, "NULL: load");
    expect(vcube_load(saved, sizeof made, NULL, 0, &n, &rounds, &tests) == VCUBE_REFUSED_TABLE_LENGTH, "NULL: the table of a load");
    expect(vcube_saved_size(NULL, 0, &n) == VCUBE_REFUSED_NO_OPENING, "NULL: saved size");
    expect(vcube_convert(NULL, 0, made, sizeof made) == VCUBE_REFUSED_SIZE_OR_TALLY_FIELD, "NULL: conversion");
    expect(vcube_convert(old, sizeof old, NULL, 0) == VCUBE_REFUSED_LIST_LENGTH, "NULL: the buffer of a conversion");
    expect(vcube_converted_length(NULL, 0, &n) == VCUBE_REFUSED_SIZE_OR_TALLY_FIELD, "NULL: converted length");
}

static void null_lists(void)
{
    const uint16_t results[] = {1, 2};
    struct vcube_figures figures;
    struct vcube_totals totals;

    expect(vcube_figures_of_list(NULL, 0, &figures) == VCUBE_REFUSED_NO_RESULT, "NULL: figures");
    expect(vcube_figures_of_two_lists(NULL, 0, NULL, 0, &figures) == VCUBE_REFUSED_NO_RESULT, "NULL: both lists");
    expect(vcube_figures_of_two_lists(NULL, 0, results, 2, &figures) == VCUBE_ACCEPTED && figures.count == 2, "NULL: the first list");
    expect(vcube_figures_of_two_lists(results, 2, NULL, 0, &figures) == VCUBE_ACCEPTED && figures.count == 2, "NULL: the second list");
    memset(&totals, ANY, sizeof totals);
    expect(vcube_totals_of_list(NULL, 0, &totals) == VCUBE_ACCEPTED && totals.count == 0 && totals.squares == 0, "NULL: totals");
}

static void null_words(void)
{
    static uint8_t schedule[VCUBE_SCHEDULE_LENGTH];
    const uint8_t input[] = {'8'};
    uint8_t words[VCUBE_WORDS_LENGTH];
    size_t n, entries, line;

    expect(vcube_refusal_words(1, NULL, 0) == VCUBE_REFUSED_LIST_LENGTH, "NULL: words of a refusal");
    expect(vcube_status_words(1, NULL, 0) == VCUBE_REFUSED_LIST_LENGTH, "NULL: words of a status");
    expect(vcube_outcome_words(1, NULL, 0) == VCUBE_REFUSED_LIST_LENGTH, "NULL: words of an outcome");
    expect(vcube_read_input(NULL, 0, schedule, sizeof schedule, words, sizeof words, &n, &entries, &line) == VCUBE_ACCEPTED && line == 1,
           "NULL: an empty input");
    expect(vcube_read_input(input, 1, NULL, 0, words, sizeof words, &n, &entries, &line) == VCUBE_REFUSED_LIST_LENGTH,
           "NULL: the schedule of an input");
    expect(vcube_read_input(input, 1, schedule, sizeof schedule, NULL, 0, &n, &entries, &line) == VCUBE_REFUSED_LIST_LENGTH,
           "NULL: the words of an input");
}

/* The calls of a board on its own line. */
static void null_lines(void)
{
    uint8_t line[VCUBE_LINE_LENGTH(N)], packed[VCUBE_PACKED_LENGTH(N)] = {0};
    size_t given = ANY;

    expect(vcube_board_fresh(RING, N, 1, NULL, 0) == VCUBE_REFUSED_LINE_LENGTH, "NULL: board fresh");
    expect(vcube_board_next(RING, N, 1, NULL, 0, &given) == VCUBE_REFUSED_LINE_LENGTH && given == 0, "NULL: board next");
    expect(vcube_board_row(RING, N, 1, NULL, 0, packed, sizeof packed) == VCUBE_REFUSED_LINE_LENGTH, "NULL: board row");
    expect(vcube_board_replied(RING, N, 1, NULL, 0, packed, sizeof packed, &given) == VCUBE_REFUSED_LINE_LENGTH, "NULL: board replied");
    expect(vcube_board_not_replied(RING, N, 1, NULL, 0, &given) == VCUBE_REFUSED_LINE_LENGTH, "NULL: board not replied");
    expect(vcube_board_told(RING, N, 1, NULL, 0, 2) == VCUBE_REFUSED_LINE_LENGTH, "NULL: board told");
    expect(vcube_board_exchanged(RING, N, 1, NULL, 0, 2, packed, sizeof packed) == VCUBE_REFUSED_LINE_LENGTH, "NULL: board exchanged");
    expect(vcube_board_round_closed(RING, N, 1, NULL, 0) == VCUBE_REFUSED_LINE_LENGTH, "NULL: board round closed");
    expect(vcube_board_fresh(RING, N, 1, line, sizeof line) == VCUBE_ACCEPTED, "a fresh line");
    expect(vcube_board_row(RING, N, 1, line, sizeof line, NULL, 0) == VCUBE_REFUSED_LIST_LENGTH, "NULL: the row of a board");
    expect(vcube_board_replied(RING, N, 1, line, sizeof line, NULL, 0, &given) == VCUBE_REFUSED_LIST_LENGTH, "NULL: a reply");
    expect(vcube_board_exchanged(RING, N, 1, line, sizeof line, 2, NULL, 0) == VCUBE_REFUSED_LIST_LENGTH, "NULL: an exchange");
}

static void null_buffers(void)
{
    uint8_t table[TABLE], saved[VCUBE_SAVED_LENGTH(N)];

    expect(vcube_fresh_table(CUBE, N, table, TABLE) == VCUBE_ACCEPTED, "a fresh table");
    expect(vcube_save(N, table, TABLE, 0, 0, saved, sizeof saved) == VCUBE_ACCEPTED, "a saved plant");
    null_tables();
    null_beside_tables(table);
    null_files(saved);
    null_lists();
    null_words();
    null_lines();
}

/* What is only read may overlap: the two lists of figures, and the two totals of a join. */
static void overlap(void)
{
    const uint16_t results[] = {2, 4, 4, 4, 5, 5, 7, 9}, apart[] = {2, 4, 4, 4, 5, 5, 4, 4, 5, 5, 7, 9};
    struct vcube_figures figures, expected;
    struct vcube_totals totals, joined;

    memset(&figures, ANY, sizeof figures);
    expect(vcube_figures_of_list(apart, 12, &expected) == VCUBE_ACCEPTED, "figures of a list");
    expect(vcube_figures_of_two_lists(results, 6, results + 2, 6, &figures) == VCUBE_ACCEPTED, "overlap: two lists");
    expect(memcmp(&figures, &expected, sizeof figures) == 0, "overlap: figures of two lists");
    expect(vcube_figures_of_two_lists(results, 8, results, 8, &figures) == VCUBE_ACCEPTED && figures.count == 16 && figures.mean.upper == 5,
           "overlap: one list as both");
    expect(vcube_totals_of_list(results, 8, &totals) == VCUBE_ACCEPTED, "totals of a list");
    expect(vcube_join_totals(&totals, &totals, &joined) == VCUBE_ACCEPTED, "overlap: totals joined with themselves");
    expect(joined.count == 16 && joined.sum == 80 && joined.squares == 464 && joined.least == 2 && joined.greatest == 9,
           "overlap: the joined totals");
}

/* The lengths that the macros give are those that the library takes, at every size. */

/* Whether a call accepts just the right length. */
static int is_right(uint8_t number, size_t length, size_t right, uint8_t refusal)
{
    return number == (length == right ? (uint8_t)VCUBE_ACCEPTED : refusal);
}

static void group_lengths(size_t n)
{
    uint8_t list[VCUBE_LONGEST_GROUP + 1];
    int right = 1;

    for (size_t station = 0; station < n; station++)
        for (size_t level = 1; (size_t)1 << (level - 1) < n; level++) {
            const size_t members = vcube_group_length(n, station, level);
            right &= members <= VCUBE_LONGEST_GROUP;
            for (size_t length = members > 0 ? members - 1 : 0; length <= members + 1; length++)
                right &= is_right(vcube_group_list(n, station, level, list, length), length, members, VCUBE_REFUSED_LIST_LENGTH);
        }
    expect(right, "macros: vcube_group_length");
}

static void lengths_of_board(size_t n)
{
    static uint8_t line[VCUBE_LINE_LENGTH(64) + 1], packed[VCUBE_PACKED_LENGTH(64) + 1];
    const size_t right = VCUBE_LINE_LENGTH(n), row = VCUBE_PACKED_LENGTH(n);

    for (size_t length = right - 1; length <= right + 1; length++)
        expect(is_right(vcube_board_fresh(RING, n, n - 1, line, length), length, right, VCUBE_REFUSED_LINE_LENGTH), "macros: VCUBE_LINE_LENGTH");
    for (size_t length = row - 1; length <= row + 1; length++)
        expect(is_right(vcube_board_row(RING, n, n - 1, line, right, packed, length), length, row, VCUBE_REFUSED_LIST_LENGTH),
               "macros: VCUBE_PACKED_LENGTH");
}

static void lengths(size_t n)
{
    static uint8_t table[VCUBE_TABLE_LENGTH(64) + 1], list[VCUBE_ASSIGNMENT_LENGTH(64) + 1], saved[VCUBE_SAVED_LENGTH(64) + 1];
    static uint8_t report[VCUBE_REPORT_LENGTH(64)];
    const size_t right = VCUBE_TABLE_LENGTH(n), assignment = VCUBE_ASSIGNMENT_LENGTH(n), plant = VCUBE_SAVED_LENGTH(n);
    size_t start, given;

    for (size_t length = right - 1; length <= right + 1; length++)
        expect(is_right(vcube_fresh_table(RING, n, table, length), length, right, VCUBE_REFUSED_TABLE_LENGTH), "macros: VCUBE_TABLE_LENGTH");
    for (size_t length = assignment - 1; length <= assignment + 1; length++)
        expect(is_right(vcube_assignment(n, table, right, n - 1, list, length, &given), length, assignment, VCUBE_REFUSED_LIST_LENGTH),
               "macros: VCUBE_ASSIGNMENT_LENGTH");
    for (size_t length = plant - 1; length <= plant + 1; length++)
        expect(is_right(vcube_save(n, table, right, 0, 0, saved, length), length, plant, VCUBE_REFUSED_LIST_LENGTH),
               "macros: VCUBE_SAVED_LENGTH");
    expect(vcube_mend(CUBE, n, table, right, report, VCUBE_REPORT_LENGTH(n) - 1, &given) == VCUBE_REFUSED_REPORT_TOO_SHORT &&
               vcube_mend(CUBE, n, table, right, report, VCUBE_REPORT_LENGTH(n), &given) == VCUBE_ACCEPTED,
           "macros: VCUBE_REPORT_LENGTH");
    expect(vcube_row(CUBE, n, table, right, n - 1, &start, &given) == VCUBE_ACCEPTED && start == right - n &&
               start == (n - 1) * (n + VCUBE_HEAD) + VCUBE_HEAD && given == n,
           "macros: VCUBE_HEAD");
    group_lengths(n);
    lengths_of_board(n);
}

static void macros(void)
{
    static uint16_t results[VCUBE_MOST_RESULTS + 1];
    const uint8_t damaged[] = {7, 1, 0, 0, VCUBE_TOLD_BY_NONE, 0, 0, 0, VCUBE_STATUS_TOLD, 1, 0, 0, VCUBE_TOLD_NOT_RECORDED, 0, 0, 0};
    uint8_t table[sizeof damaged], report[VCUBE_REPORT_LENGTH(2)], list[VCUBE_ASSIGNMENT_LENGTH(2)], saved[VCUBE_SAVED_LENGTH(2)];
    struct vcube_totals totals;
    size_t by, of, changes, count;

    for (size_t n = 2; n <= 64; n++)
        lengths(n);
    expect(vcube_group_length(64, 0, 0) == 0 && vcube_group_length(64, 0, SIZE_MAX) == 0, "macros: vcube_group_length takes any level");
    expect(VCUBE_TABLE_LENGTH(1 + 1) == 16 && VCUBE_SAVED_LENGTH(1 + 1) == 43 && VCUBE_ASSIGNMENT_LENGTH(1 + 1) == 2 &&
               VCUBE_LINE_LENGTH(1 + 1) == 8 && VCUBE_PACKED_LENGTH(1 + 1) == 1,
           "macros: of a sum");
    expect(vcube_totals_of_list(results, VCUBE_MOST_RESULTS, &totals) == VCUBE_ACCEPTED &&
               vcube_totals_of_list(results, VCUBE_MOST_RESULTS + 1, &totals) == VCUBE_REFUSED_TOO_MANY_RESULTS,
           "macros: VCUBE_MOST_RESULTS");
    memcpy(table, damaged, sizeof table);
    expect(vcube_mend(CUBE, 2, table, sizeof table, report, sizeof report, &changes) == VCUBE_ACCEPTED && changes == 1 &&
               report[VCUBE_CHANGE_LENGTH - 1] == VCUBE_STATUS_CRASHED && report[VCUBE_CHANGE_LENGTH] == 0,
           "macros: VCUBE_CHANGE_LENGTH, and what byte 4 may be");
    expect(vcube_fresh_table(CUBE, 2, table, sizeof table) == VCUBE_ACCEPTED, "a fresh table");
    expect(vcube_assignment(2, table, sizeof table, 0, list, sizeof list, &count) == VCUBE_ACCEPTED && list[1] == VCUBE_DUE, "macros: VCUBE_DUE");
    expect(vcube_save(2, table, sizeof table, 0, 0, saved, sizeof saved) == VCUBE_ACCEPTED && saved[0] == VCUBE_TAG_OPENING &&
               saved[3] == VCUBE_EDITION,
           "macros: VCUBE_EDITION");
    expect(vcube_doubt_lamp(CUBE, 2, table, sizeof table, &by, &of) == VCUBE_ACCEPTED && by == VCUBE_NO_STATION && of == VCUBE_NO_STATION,
           "macros: VCUBE_NO_STATION");
}

/* Numbers are judged in their whole width, of however many bytes a size_t is. */
static void wide_numbers(void)
{
    uint8_t table[TABLE], list[VCUBE_ASSIGNMENT_LENGTH(N)], line[VCUBE_LINE_LENGTH(N)];
    size_t a, b;

    expect(vcube_fresh_table(CUBE, N, table, TABLE) == VCUBE_ACCEPTED, "a fresh table");
    expect(vcube_board_fresh(CUBE, N, 0, line, sizeof line) == VCUBE_ACCEPTED, "a fresh line");
    for (size_t k = 0; k < sizeof wide / sizeof wide[0]; k++) {
        expect(vcube_fresh_table(wide[k], N, table, TABLE) == VCUBE_REFUSED_NO_SUCH_WIRING, "wide: a wiring");
        expect(vcube_fresh_table(CUBE, wide[k] + 3, table, TABLE) == VCUBE_REFUSED_SIZE_OUT_OF_RANGE, "wide: a size");
        expect(vcube_one_dead(wide[k], N, &a, &b) == VCUBE_REFUSED_NO_SUCH_WIRING && a == 0 && b == 0, "wide: the wiring of one dead");
        expect(vcube_one_dead(CUBE, wide[k] + 3, &a, &b) == VCUBE_REFUSED_SIZE_OUT_OF_RANGE && a == 0 && b == 0, "wide: the size of one dead");
        expect(vcube_row(CUBE, N, table, TABLE, wide[k], &a, &b) == VCUBE_REFUSED_NO_SUCH_STATION && a == 0 && b == 0, "wide: a station");
        expect(vcube_group_list(N, 1, wide[k], list, 1) == VCUBE_REFUSED_NO_SUCH_LEVEL, "wide: a level");
        expect(vcube_grant(CUBE, N, table, TABLE, wide[k], &a) == VCUBE_REFUSED_LAST_GRANTED && a == 0, "wide: a last granted number");
        expect(vcube_board_next(CUBE, N, wide[k], line, sizeof line, &a) == VCUBE_REFUSED_NO_SUCH_STATION && a == 0, "wide: a board");
        expect(vcube_board_told(CUBE, N, 0, line, sizeof line, wide[k]) == VCUBE_REFUSED_NO_SUCH_STATION, "wide: the board that tells");
    }
}

int main(void)
{
    layout();
    version();
    null_buffers();
    overlap();
    macros();
    wide_numbers();
    return failures != 0;
}
