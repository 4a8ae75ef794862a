/* The four entries that docs/RULES.md, "A worked run", begins with, by the C interface of the library, and the doubt lamp after the first
 * and after all; a group in a plant of 11, and which distances are due and who is ahead at the others; then a board that leaves when it is
 * tested; and a table of eight boards that is mended after a brownout. */

#include "vcube.h"

#include <inttypes.h>
#include <stdio.h>

#define N 4

/* 0 suspects 1, exchanges with 2, then with 3; 1 tests 0, is told and leaves. */
static const uint8_t example[] = {
    VCUBE_KIND_LATE_TURN, 0,
    VCUBE_KIND_TURN, 0,
    VCUBE_KIND_TURN, 0,
    VCUBE_KIND_TURN, 1,
};

/* 1, 2 and 3 finish their passes; then 1's reply to 0 is late, and 0 suspects 1, exchanges with 2, then with 3, and finishes its pass too.
 * In the next round 0 tests 1, which is told and leaves. */
static const uint8_t late_after_passes[] = {
    VCUBE_KIND_TURN, 1, VCUBE_KIND_TURN, 1, VCUBE_KIND_TURN, 1,
    VCUBE_KIND_TURN, 2, VCUBE_KIND_TURN, 2, VCUBE_KIND_TURN, 2,
    VCUBE_KIND_TURN, 3, VCUBE_KIND_TURN, 3, VCUBE_KIND_TURN, 3,
    VCUBE_KIND_LATE_TURN, 0,
    VCUBE_KIND_TURN, 0, VCUBE_KIND_TURN, 0, VCUBE_KIND_TURN, 0,
    VCUBE_KIND_TURN, 0,
};

static uint8_t table[VCUBE_TABLE_LENGTH(N)];
static uint8_t sheet[2 * sizeof late_after_passes]; /* long enough for both schedules */

/* Prints numbers behind each other; VCUBE_NO_STATION as -. */
static void print_bytes(const uint8_t *bytes, size_t length)
{
    for (size_t k = 0; k < length; k++) {
        if (k > 0)
            printf(" ");
        if (bytes[k] == VCUBE_NO_STATION)
            printf("-");
        else
            printf("%d", bytes[k]);
    }
    printf("\n");
}

/* Says which call was refused; gives whether it was. */
static int refused(const char *call, uint8_t number)
{
    if (number != VCUBE_ACCEPTED)
        printf("%s: refused with %d\n", call, number);
    return number != VCUBE_ACCEPTED;
}

/* Prints who is no longer live, by the sheet alone: the outcome says it of the tested station, the status of the other one. */
static void print_ceased(size_t taken)
{
    printf("no longer live:");
    for (size_t entry = 0; entry < taken; entry++) {
        const uint8_t *line = sheet + 4 * entry;
        if (line[2] == VCUBE_OUTCOME_TESTED_TOLD)
            printf(" %d", line[1]);
        if (line[3] != VCUBE_STATUS_LIVE)
            printf(" %d", line[0]);
    }
    printf("\n");
}

/* Runs a schedule on a fresh table and prints the sheet, the tally and who is no longer live. */
static int run(const uint8_t *schedule, size_t length)
{
    uint32_t rounds = 0, tests = 0;
    size_t taken;
    uint8_t number;

    if (refused("fresh table", vcube_fresh_table(VCUBE_WIRING_CUBE, N, table, sizeof table)))
        return 1;
    number = vcube_run(VCUBE_WIRING_CUBE, N, table, sizeof table, &rounds, &tests, schedule, length, sheet, 2 * length, &taken);
    printf("station tested outcome status\n");
    for (size_t entry = 0; entry < taken; entry++)
        print_bytes(sheet + 4 * entry, 4);
    printf("rounds %" PRIu32 " tests %" PRIu32 " refused %d at %zu\n", rounds, tests, number, taken);
    print_ceased(taken);
    return 0;
}

/* Prints a station's group in a plant of n. */
static int print_group(size_t n, size_t station, size_t level)
{
    uint8_t list[VCUBE_LONGEST_GROUP];
    size_t length = vcube_group_length(n, station, level);

    if (refused("group list", vcube_group_list(n, station, level, list, length)))
        return 1;
    printf("of %zu stations, group of %zu at level %zu: ", n, station, level);
    print_bytes(list, length);
    return 0;
}

/* Prints the distances due for a station, and of each other distance who is ahead of it. */
static int print_assignment(size_t station)
{
    uint8_t list[VCUBE_ASSIGNMENT_LENGTH(N)];
    size_t count;

    if (refused("assignment", vcube_assignment(N, table, sizeof table, station, list, sizeof list, &count)))
        return 1;
    printf("%zu of %d distances due for %zu:", count, N - 1, station);
    for (size_t k = 0; k < sizeof list; k += 2)
        if (list[k + 1] == VCUBE_DUE)
            printf(" %d", list[k]);
    for (size_t k = 0; k < sizeof list; k += 2)
        if (list[k + 1] != VCUBE_DUE)
            printf("; at %d station %d is ahead", list[k], list[k + 1]);
    printf("\n");
    return 0;
}

/* Prints a station's status, which is the first byte of its line, and its row, which is a part of the table. */
static int print_line(size_t station)
{
    size_t start, length;

    if (refused("row", vcube_row(VCUBE_WIRING_CUBE, N, table, sizeof table, station, &start, &length)))
        return 1;
    printf("status of %zu: %d, row: ", station, table[station * (N + VCUBE_HEAD)]);
    print_bytes(table + start, length);
    return 0;
}

/* Prints the pair of the doubt lamp, if there is one. */
static int print_lamp(void)
{
    size_t by, of;

    if (refused("doubt lamp", vcube_doubt_lamp(VCUBE_WIRING_CUBE, N, table, sizeof table, &by, &of)))
        return 1;
    if (by == VCUBE_NO_STATION)
        printf("doubt lamp: out\n");
    else
        printf("doubt lamp: %zu suspects %zu\n", by, of);
    return 0;
}

static int print_lines(void)
{
    for (size_t station = 0; station < N; station++)
        if (print_line(station))
            return 1;
    return 0;
}

/* Eight boards after a brownout that damaged five bytes: mends the table and prints what was mended. */
static int print_mending(void)
{
    static const char *const names[VCUBE_HEAD] = {"status", "next distance", "pass finished", "tests made", "told by", "rounds ago"};
    const size_t line = 8 + VCUBE_HEAD;
    uint8_t mended[VCUBE_TABLE_LENGTH(8)], report[VCUBE_REPORT_LENGTH(8)];
    size_t changes;

    if (refused("fresh table", vcube_fresh_table(VCUBE_WIRING_CUBE, 8, mended, sizeof mended)))
        return 1;
    mended[2 * line] = 12;
    mended[2 * line + 4] = 0;
    mended[5 * line + 1] = 0;
    mended[5 * line + VCUBE_HEAD + 6] = 64;
    mended[7 * line + VCUBE_HEAD + 7] = 1;
    if (refused("mend", vcube_mend(VCUBE_WIRING_CUBE, 8, mended, sizeof mended, report, sizeof report, &changes)))
        return 1;
    printf("bytes mended: %zu\n", changes);
    for (const uint8_t *change = report; change < report + VCUBE_CHANGE_LENGTH * changes; change += VCUBE_CHANGE_LENGTH) {
        size_t offset = 256 * (size_t)change[0] + change[1];
        size_t board = offset / line, byte = offset % line;

        if (byte < VCUBE_HEAD)
            printf("board %zu, %s: %u became %u\n", board, names[byte], change[2], change[3]);
        else
            printf("board %zu, about board %zu: %u became %u\n", board, byte - VCUBE_HEAD, change[2], change[3]);
    }
    return 0;
}

/* A library of another version than the header's may link as well. */
static int is_other_version(void)
{
    if (vcube_version() == VCUBE_VERSION_NUMBER)
        return 0;
    printf("the header is of version %d, the library of %" PRIu32 "\n", VCUBE_VERSION_NUMBER, vcube_version());
    return 1;
}

int main(void)
{
    if (is_other_version())
        return 1;
    /* After the first entry 0 suspects 1, which is live; after all four 1 has left. */
    if (run(example, 2) || print_lamp() || run(example, sizeof example) || print_lamp())
        return 1;
    if (print_group(N, 3, 2) || print_group(11, 2, 4) || print_assignment(0) || print_assignment(2) ||
        print_assignment(3) || print_lines())
        return 1;
    return run(late_after_passes, sizeof late_after_passes) || print_lines() || print_mending() || fflush(stdout) != 0 || ferror(stdout);
}
