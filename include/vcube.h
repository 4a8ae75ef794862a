/* The vCube watch for C and C++: which stations of a plant of 2 to 64 are live, and who suspects whom. Station 5 of eight crashes, and the others
 * find out:
 *
 *     uint8_t table[VCUBE_TABLE_LENGTH(8)], crash[] = {VCUBE_KIND_CRASH, 5}, sheet[2 * sizeof crash];
 *     uint32_t rounds = 0, tests = 0;
 *     size_t last = VCUBE_NO_STATION, taken, grants;
 *     uint8_t error = vcube_fresh_table(VCUBE_WIRING_CUBE, 8, table, sizeof table);
 *     if (!error)
 *         error = vcube_run(VCUBE_WIRING_CUBE, 8, table, sizeof table, &rounds, &tests, crash, sizeof crash, sheet, sizeof sheet, &taken);
 *     if (!error)
 *         error = vcube_drive(VCUBE_WIRING_CUBE, 8, table, sizeof table, &rounds, &tests, &last, &grants);
 *     if (!error && table[0 * VCUBE_LINE_LENGTH(8) + VCUBE_HEAD + 5] == 1)
 *         printf("after %u tests station 0 suspects station 5\n", (unsigned)tests);
 *
 * In vcube_plant.h table, tally and last granted number are one struct, and the same calls take it in place of up to seven arguments.
 *
 * The manual pages say what each call does and which errors it returns: vcube(3) first, then one page for each group of calls below, and each call
 * is the name of its page too. The rules, by name, are in RULES.md: docs/ of the source, or share/doc/vcube where it is installed.
 *
 * State: the caller keeps table, tally (closed rounds, and tests) and last granted number; the library keeps nothing, not even a pointer. Calls are
 * thread-safe, unless two share memory and one of them writes it. (The portable C takes one call at a time.)
 *
 * Arguments may have any value; nothing need be checked before a call. A pointer must be valid for the length given behind it; where that is 0 it
 * may be NULL. One without a length points to one number or struct. What a call writes must not overlap with anything else of that call.
 *
 * Errors: each call but vcube_version returns 0 or a number of enum vcube_refusal. With an error it changes no byte of a buffer, and the numbers
 * that it gives are 0. But run and drive leave tally and last granted number as they are; and a run that stops at an entry (7 to 11), or a drive
 * that stops before a grant (7), keeps the work done before.
 *
 * Wiring: a plant is wired as the cube or as the ring. Give the same in all calls of a plant: neither library nor table keeps it. Group list,
 * assignment, slot and saved plants are for the cube.
 *
 * The table has n lines of n + 6 bytes, in station order. Stations have the numbers 0 to n - 1; d is the least number with n <= 2^d.
 *
 *   byte 0      status (enum vcube_status)
 *   byte 1      next distance: 1 to 2^d on the cube, 1 to n on the ring
 *   byte 2      1 if the station has finished its pass in this round, else 0
 *   byte 3      tests made in this round
 *   byte 4      the station that told it to leave; VCUBE_TOLD_BY_NONE, or VCUBE_TOLD_NOT_RECORDED
 *   byte 5      rounds closed since it stopped being live, the one closed by that very entry included; 255 means 255 or more
 *   byte 6 + k  its row: 1 if it suspects station k, else 0
 */
#ifndef VCUBE_H
#define VCUBE_H

#include <stddef.h>
#include <stdint.h>

#define VCUBE_VERSION_MAJOR 1
#define VCUBE_VERSION_MINOR 4
#define VCUBE_VERSION_PATCH 0
#define VCUBE_VERSION "1.4.0"
/* The version as one number: 10400 is 1.4.0. */
#define VCUBE_VERSION_NUMBER (10000 * VCUBE_VERSION_MAJOR + 100 * VCUBE_VERSION_MINOR + VCUBE_VERSION_PATCH)

#ifdef __cplusplus
extern "C" {
#endif

/* The wiring of a plant. */
#define VCUBE_WIRING_CUBE 1
#define VCUBE_WIRING_RING 2

/* Lengths in bytes, for n from 2 to 64. */
#define VCUBE_HEAD 6                                                          /* a line before its row */
#define VCUBE_LINE_LENGTH(n) ((size_t)(n) + VCUBE_HEAD)                       /* a line of the table, which is also what a board keeps */
#define VCUBE_TABLE_LENGTH(n) ((size_t)(n) * ((size_t)(n) + VCUBE_HEAD))      /* the table */
#define VCUBE_PACKED_LENGTH(n) (((size_t)(n) + 7) / 8)                        /* a row on the cable */
#define VCUBE_SAVED_LENGTH(n) (19 + (size_t)(n) * ((size_t)(n) + 10))         /* a saved plant */
#define VCUBE_ASSIGNMENT_LENGTH(n) (2 * ((size_t)(n) - 1))                    /* an assignment */
#define VCUBE_LONGEST_GROUP 32                                                /* the longest group list */
#define VCUBE_CHANGE_LENGTH 4                                                 /* a change in the report of a mending */
#define VCUBE_REPORT_LENGTH(n) (VCUBE_CHANGE_LENGTH * VCUBE_TABLE_LENGTH(n))  /* a report with room for a change of every byte */
#define VCUBE_WORDS_LENGTH 128                                                /* a buffer for words */
#define VCUBE_SCHEDULE_LENGTH 8192                                            /* a schedule into which an input is read: 4096 entries */

/* Numbers that stand for something else, or are a limit. */
#define VCUBE_NO_STATION 255            /* no station is tested, or is next; none was granted yet; the doubt lamp has no pair */
#define VCUBE_TOLD_BY_NONE 255          /* byte 4: no station told it to leave, as it is live, crashed, or left because alone */
#define VCUBE_TOLD_NOT_RECORDED 254     /* byte 4: who told it to leave was not recorded; runs and drives never write this */
#define VCUBE_DUE 255                   /* in an assignment: this distance is due */
#define VCUBE_EDITION 2                 /* what the opening of a saved plant holds */
#define VCUBE_MOST_RESULTS 4096         /* the most results that figures are taken of */

/* What a call returns. Here and in the three enums below the comments are the library's own words, in which a station is a board. */
enum vcube_refusal {
    VCUBE_ACCEPTED = 0,
    VCUBE_REFUSED_SIZE_OUT_OF_RANGE = 1,    /* a plant has 2 to 64 boards */
    VCUBE_REFUSED_TABLE_LENGTH = 2,         /* the table's length is not n(n + 6) */
    VCUBE_REFUSED_LINE_RULE = 3,            /* a line breaks a line rule */
    VCUBE_REFUSED_ROUND_NOT_CLOSED = 4,     /* every live board has finished its pass, but the round is not closed */
    VCUBE_REFUSED_SCHEDULE_LENGTH = 5,      /* the schedule has an odd number of bytes */
    VCUBE_REFUSED_SHEET_LENGTH = 6,         /* the run sheet is not twice as long as the schedule */
    VCUBE_REFUSED_TALLY_FULL = 7,           /* the count of rounds or of tests is at its limit, 4,294,967,295 */
    VCUBE_REFUSED_UNKNOWN_KIND = 8,         /* the kind of the entry is not 1, 2 or 3 */
    VCUBE_REFUSED_NO_SUCH_STATION = 9,      /* no board has this number: boards are numbered from 0 to n - 1 */
    VCUBE_REFUSED_NOT_LIVE = 10,            /* this board is not live */
    VCUBE_REFUSED_PASS_FINISHED = 11,       /* this board has already finished its pass in this round */
    VCUBE_REFUSED_NO_SUCH_LEVEL = 12,       /* there is no such level: levels go from 1 to d */
    VCUBE_REFUSED_LIST_LENGTH = 13,         /* the list or buffer for the answer has the wrong length */
    VCUBE_REFUSED_NO_RESULT = 14,           /* there are no results to compute figures from */
    VCUBE_REFUSED_TOO_MANY_RESULTS = 15,    /* there are more than 4,096 results, or the totals are higher than 4,096 results can give */
    VCUBE_REFUSED_LAST_GRANTED = 16,        /* the last granted number is neither a board's number nor 255 */
    VCUBE_REFUSED_NONE_LIVE = 17,           /* no board is live */
    VCUBE_REFUSED_FIELD_PAST_END = 18,      /* the file is cut off: a field or its head goes past the end */
    VCUBE_REFUSED_SIZE_OR_TALLY_FIELD = 19, /* the field with the size or the tally is missing, appears twice or has the wrong length */
    VCUBE_REFUSED_LINE_FIELD = 20,          /* a board's line in the file is missing, appears twice, has the wrong length or names no board */
    VCUBE_REFUSED_NO_OPENING = 21,          /* the file does not begin as edition 2 does; if it is of edition 1, convert it first */
    VCUBE_REFUSED_FIELD_ORDER = 22,         /* a field is out of order or has an unknown tag */
    VCUBE_REFUSED_REPORT_TOO_SHORT = 23,    /* the buffer for the report has fewer than 4n(n + 6) bytes */
    VCUBE_REFUSED_NO_SUCH_WIRING = 24,      /* the wiring is neither 1, the cube, nor 2, the ring */
    VCUBE_REFUSED_LINE_LENGTH = 25          /* the length of the board's line is not n + 6 */
};

/* Byte 0 of an entry of a schedule. */
enum vcube_kind {
    VCUBE_KIND_TURN = 1,                /* turn */
    VCUBE_KIND_LATE_TURN = 2,           /* turn whose reply comes late */
    VCUBE_KIND_CRASH = 3                /* crash */
};

/* Byte 0 of a line of the table; byte 3 of a line of the run sheet, where it is that of the station in byte 0 and never of the tested one. */
enum vcube_status {
    VCUBE_STATUS_LIVE = 0,              /* live */
    VCUBE_STATUS_CRASHED = 1,           /* crashed */
    VCUBE_STATUS_TOLD = 2,              /* left because told */
    VCUBE_STATUS_ALONE = 3              /* left because alone */
};

/* Byte 2 of a line of the run sheet. The tester is the station in byte 0, the tested station that in byte 1. */
enum vcube_outcome {
    VCUBE_OUTCOME_PASS_FINISHED = 0,    /* pass finished */
    VCUBE_OUTCOME_EXCHANGED = 1,        /* exchanged */
    VCUBE_OUTCOME_TOLD = 2,             /* told, and left */
    VCUBE_OUTCOME_NO_REPLY = 3,         /* no reply */
    VCUBE_OUTCOME_CRASH = 4,            /* crash */
    VCUBE_OUTCOME_TESTED_TOLD = 5       /* the tested board was told, and left */
};

/* The tag of a field of a saved plant. */
enum vcube_tag {
    VCUBE_TAG_SIZE = 1,
    VCUBE_TAG_TALLY = 2,
    VCUBE_TAG_LINE = 3,
    VCUBE_TAG_OPENING = 4
};

/* Version of the library that is linked. Compare it with VCUBE_VERSION_NUMBER when the program starts. */
uint32_t vcube_version(void);

/* ---- Table: vcube_table(3) ---- */
/* Fresh table: every station live, nobody suspected, the start of a round. */
uint8_t vcube_fresh_table(size_t wiring, size_t n, uint8_t *table, size_t table_length);

/* Row: the station's row begins at byte *start of the table and has *length bytes (n). */
uint8_t vcube_row(size_t wiring, size_t n, const uint8_t *table, size_t table_length, size_t station, size_t *start, size_t *length);

/* Mend: makes a table that a brownout damaged valid, and lists each byte that it changed: *changes times VCUBE_CHANGE_LENGTH bytes, which are the
 * offset in the table (two bytes, high byte first), the old byte and the new one. */
uint8_t vcube_mend(size_t wiring, size_t n, uint8_t *table, size_t table_length, uint8_t *report, size_t report_length, size_t *changes);

/* ---- Run, grant and drive: vcube_run(3) ---- */
/* Run: takes the entries of a schedule in order. An entry is two bytes, kind (enum vcube_kind) and station. Each entry taken writes four bytes of
 * the run sheet: the station; the station it tested, or VCUBE_NO_STATION; the outcome (enum vcube_outcome); and the status of the first one after
 * the entry. *rounds and *tests are the tally, handed in and given back; *taken is how many entries were taken. */
uint8_t vcube_run(size_t wiring, size_t n, uint8_t *table, size_t table_length, uint32_t *rounds, uint32_t *tests, const uint8_t *schedule,
                  size_t schedule_length, uint8_t *sheet, size_t sheet_length, size_t *taken);

/* Grant: the station that is to have the next turn, into *station. last is the station granted before, or VCUBE_NO_STATION. Keep the granted number
 * as last only once the turn, an entry of a run, was taken. */
uint8_t vcube_grant(size_t wiring, size_t n, const uint8_t *table, size_t table_length, size_t last, size_t *station);

/* Drive: grants turns and takes them, until the round closes or no station is live. *rounds and *tests are the tally, *last is the last granted
 * number, all handed in and given back; *grants is how many grants were made. */
uint8_t vcube_drive(size_t wiring, size_t n, uint8_t *table, size_t table_length, uint32_t *rounds, uint32_t *tests, size_t *last, size_t *grants);

/* ---- Doubt lamp, wait and one dead: vcube_wait(3) ---- */
/* Doubt lamp: the first live station, by number, that suspects a live one, into *by, and the first that it suspects into *of; both are
 * VCUBE_NO_STATION where there is none. */
uint8_t vcube_doubt_lamp(size_t wiring, size_t n, const uint8_t *table, size_t table_length, size_t *by, size_t *of);

/* Wait: after how many rounds and turns at most all live stations know all dead ones. When these hold is in vcube_wait(3). */
uint8_t vcube_wait(size_t wiring, size_t n, const uint8_t *table, size_t table_length, size_t *rounds, size_t *turns_per_round,
                   size_t *turns_until_known, size_t *turns_from_crash);

/* One dead: a bus master grants turns, nobody is dead or suspected, and one station dies. Every live station then suspects it and nobody else, at
 * the latest after *rounds closed rounds, that of the crash among them, and at the latest after *grants grants behind the crash. Both are 0 where
 * nothing is proved: for 2 or 3 stations, and on the cube if n is not a power of two. When these hold is in vcube_wait(3). */
uint8_t vcube_one_dead(size_t wiring, size_t n, size_t *rounds, size_t *grants);

/* ---- Who tests whom, on the cube: vcube_assignment(3) ---- */
/* Group list: the station's group at that level, into a list of vcube_group_length bytes. */
uint8_t vcube_group_list(size_t n, size_t station, size_t level, uint8_t *list, size_t list_length);

/* The length of a group list, which may be 0. It is computed here, not by the library, and means nothing for a size, station or level that the
 * library refuses. */
static inline size_t vcube_group_length(size_t n, size_t station, size_t level)
{
    /* The members are those of the numbers from first to first + half - 1 that are below n. */
    const size_t half = level < 1 || level > 6 ? 0 : (size_t)1 << (level - 1);
    const size_t first = (station ^ half) & ~(half - 1);

    return n <= first ? 0 : n - first < half ? n - first : half;
}

/* Assignment: two bytes for each other station, by ascending distance: the distance; and VCUBE_DUE, or the station that is ahead at it. *count is
 * how many are due. */
uint8_t vcube_assignment(size_t n, const uint8_t *table, size_t table_length, size_t station, uint8_t *list, size_t list_length, size_t *count);

/* Slot: how many tests a live station makes in a round by its own row, into *tests; and the most if it suspects any one other besides, into *most,
 * by which its slot on the cable is timed. */
uint8_t vcube_slot(size_t n, const uint8_t *table, size_t table_length, size_t station, size_t *tests, size_t *most);

/* ---- Saved plants, of the cube: vcube_save(3) ---- */
/* Save: writes size, tally and table into a buffer of VCUBE_SAVED_LENGTH(n) bytes. The last granted number is not saved. */
uint8_t vcube_save(size_t n, const uint8_t *table, size_t table_length, uint32_t rounds, uint32_t tests, uint8_t *saved, size_t saved_length);

/* Load: the reverse of a save. The table has VCUBE_TABLE_LENGTH(n) bytes, for the n that vcube_saved_size gives beforehand. */
uint8_t vcube_load(const uint8_t *saved, size_t saved_length, uint8_t *table, size_t table_length, size_t *n, uint32_t *rounds, uint32_t *tests);
uint8_t vcube_saved_size(const uint8_t *saved, size_t saved_length, size_t *n);

/* Conversion: writes the plant of a file of edition 1 as a saved plant, of the length that vcube_converted_length gives beforehand. */
uint8_t vcube_convert(const uint8_t *old, size_t old_length, uint8_t *saved, size_t saved_length);
uint8_t vcube_converted_length(const uint8_t *old, size_t old_length, size_t *length);

/* ---- Figures of results: vcube_figures(3) ---- */
/* A fraction in lowest terms, its lower part positive. Zero is 0/1. */
struct vcube_fraction {
    uint64_t upper, lower;
};

/* The variance is divided by the count, not by one less. */
struct vcube_figures {
    uint64_t count, least, greatest;
    struct vcube_fraction mean, variance;
};

/* Totals of results, kept in place of the results: squares is the sum of the squares. All are 0 for no result. */
struct vcube_totals {
    uint64_t count, sum, squares, least, greatest;
};

/* Figures of a list, of the one list that holds both, and of the results that totals were taken of. */
uint8_t vcube_figures_of_list(const uint16_t *results, size_t length, struct vcube_figures *figures);
uint8_t vcube_figures_of_two_lists(const uint16_t *first, size_t first_length, const uint16_t *second, size_t second_length,
                                   struct vcube_figures *figures);
uint8_t vcube_figures_of_totals(const struct vcube_totals *totals, struct vcube_figures *figures);

/* Totals of a list, and of the results of both. */
uint8_t vcube_totals_of_list(const uint16_t *results, size_t length, struct vcube_totals *totals);
uint8_t vcube_join_totals(const struct vcube_totals *first, const struct vcube_totals *second, struct vcube_totals *joined);

/* ---- Words and inputs: vcube_words(3) ---- */
/* Words of a refusal, a status or an outcome, by its number: ASCII, with zeros behind, into VCUBE_WORDS_LENGTH bytes. */
uint8_t vcube_refusal_words(size_t refusal, uint8_t *words, size_t words_length);
uint8_t vcube_status_words(size_t status, uint8_t *words, size_t words_length);
uint8_t vcube_outcome_words(size_t outcome, uint8_t *words, size_t words_length);

/* Input: reads an input of the run program into a schedule of VCUBE_SCHEDULE_LENGTH bytes: 2 * *entries of them are the schedule of a run. *line is
 * the number, from 1, of the first line that cannot be read, and words say why; or 0. That is no error. */
uint8_t vcube_read_input(const uint8_t *input, size_t input_length, uint8_t *schedule, size_t schedule_length, uint8_t *words, size_t words_length,
                         size_t *n, size_t *entries, size_t *line);

/* ---- A board's own half: vcube_board(3) ---- */
/* With these calls each board keeps its own line of VCUBE_LINE_LENGTH(n) bytes and nothing else, and the boards send each other messages. A packed
 * row has VCUBE_PACKED_LENGTH(n) bytes: board k is bit k % 8 of byte k / 8, bit 0 the lowest, and 1 if it is suspected. */

/* Fresh: the line becomes a line of a fresh table. Not after a reset in service: a board that left would be live again. */
uint8_t vcube_board_fresh(size_t wiring, size_t n, size_t board, uint8_t *line, size_t line_length);

/* Next: the board that the next turn tests, into *tested; VCUBE_NO_STATION where there is none. */
uint8_t vcube_board_next(size_t wiring, size_t n, size_t board, const uint8_t *line, size_t line_length, size_t *tested);

/* Row: the board's row, packed, as a reply or an exchange. */
uint8_t vcube_board_row(size_t wiring, size_t n, size_t board, const uint8_t *line, size_t line_length, uint8_t *packed, size_t packed_length);

/* Replied, not replied: the turn with the reply of the tested board, or without one in time. *outcome says what to send (enum vcube_outcome). */
uint8_t vcube_board_replied(size_t wiring, size_t n, size_t board, uint8_t *line, size_t line_length, const uint8_t *packed, size_t packed_length,
                            size_t *outcome);
uint8_t vcube_board_not_replied(size_t wiring, size_t n, size_t board, uint8_t *line, size_t line_length, size_t *outcome);

/* Told, exchanged: the board leaves, told by the board `by`; or joins the row of the board `from` into its own. Both were its testers. */
uint8_t vcube_board_told(size_t wiring, size_t n, size_t board, uint8_t *line, size_t line_length, size_t by);
uint8_t vcube_board_exchanged(size_t wiring, size_t n, size_t board, uint8_t *line, size_t line_length, size_t from, const uint8_t *packed,
                              size_t packed_length);

/* Round closed: closes the round in the board's line. */
uint8_t vcube_board_round_closed(size_t wiring, size_t n, size_t board, uint8_t *line, size_t line_length);

#ifdef __cplusplus
}
#endif

#endif
