/* Runs schedules on the table and on boards, by whatever is linked behind include/vcube.h, from a record on standard input that
 * tests/harness/compare/src/boards.rs describes. Each board has its own line and nothing else; rows go from board to board packed. After every
 * entry the lines of all boards must be those of the table, and what they did what the run sheet says.
 *
 * Exit status: 0 all are the same; 1 one is not; 2 the record cannot be read. With WRONG defined the boards forget to join at an exchange. */
#include "vcube.h"

#include <stdio.h>
#include <stdlib.h>
#include <string.h>

static size_t wiring, n, length, packed_length;
static uint8_t table[VCUBE_TABLE_LENGTH(64)], boards[VCUBE_TABLE_LENGTH(64)];
static uint32_t rounds, tests;
static unsigned long schedules, entries, taken, closings;

static void take(uint8_t *to, size_t count)
{
    if (fread(to, 1, count, stdin) != count)
        exit(2);
}

static void expect(int is_so, const char *what)
{
    if (is_so)
        return;
    fprintf(stderr, "boards: schedule %lu, entry %lu: not so: %s\n", schedules, entries, what);
    exit(1);
}

static uint8_t *line(size_t board)
{
    return boards + board * length;
}

/* A packed row as it may come: the bits that nobody looks at are 1. */
static void disturb(uint8_t *packed, size_t sender)
{
    packed[sender / 8] |= (uint8_t)(1 << sender % 8);
    for (size_t k = n; k < 8 * packed_length; k++)
        packed[k / 8] |= (uint8_t)(1 << k % 8);
}

/* A turn, as the page for a board's maker says. Gives the outcome, and whom it tested. */
static size_t turn(size_t i, int is_late, size_t *j)
{
    uint8_t packed[VCUBE_PACKED_LENGTH(64)] = {0};
    size_t outcome = 0;

    expect(vcube_board_next(wiring, n, i, line(i), length, j) == 0, "the board takes its turn");
    if (*j == VCUBE_NO_STATION || vcube_board_row(wiring, n, *j, line(*j), length, packed, packed_length) != 0 || is_late) {
        expect(vcube_board_not_replied(wiring, n, i, line(i), length, &outcome) == 0, "the board goes on without a reply");
        return outcome;
    }
    disturb(packed, *j);
    expect(vcube_board_replied(wiring, n, i, line(i), length, packed, packed_length, &outcome) == 0, "the board goes by the reply");
    if (outcome == VCUBE_OUTCOME_EXCHANGED) {
        expect(vcube_board_row(wiring, n, i, line(i), length, packed, packed_length) == 0, "the tester sends its row");
        disturb(packed, i);
#ifndef WRONG
        expect(vcube_board_exchanged(wiring, n, *j, line(*j), length, i, packed, packed_length) == 0, "the tested board joins it");
#endif
    }
    if (outcome == VCUBE_OUTCOME_TESTED_TOLD)
        expect(vcube_board_told(wiring, n, *j, line(*j), length, i) == 0, "the tested board is told");
    return outcome;
}

/* Where every live board has finished its pass, and one is live, all are told that the round is closed. */
static void close_round(void)
{
    int is_live = 0;

    for (size_t k = 0; k < n; k++) {
        if (line(k)[0] == VCUBE_STATUS_LIVE && line(k)[2] == 0)
            return;
        is_live |= line(k)[0] == VCUBE_STATUS_LIVE;
    }
    if (!is_live)
        return;
    closings++;
    for (size_t k = 0; k < n; k++)
        expect(vcube_board_round_closed(wiring, n, k, line(k), length) == 0, "the board closes the round");
}

/* An entry that the run takes; what the boards did. */
static void go_on(uint8_t kind, size_t i, uint8_t *sheet)
{
    size_t tested = VCUBE_NO_STATION, outcome = VCUBE_OUTCOME_CRASH;

    if (kind == VCUBE_KIND_CRASH)
        line(i)[0] = VCUBE_STATUS_CRASHED;
    else
        outcome = turn(i, kind == VCUBE_KIND_LATE_TURN, &tested);
    close_round();
    sheet[0] = (uint8_t)i;
    sheet[1] = (uint8_t)tested;
    sheet[2] = (uint8_t)outcome;
    sheet[3] = line(i)[0];
}

static void run_entry(void)
{
    uint8_t recorded[7], sheet[4] = {0}, of_boards[4] = {0};
    size_t count = 0, tested;

    take(recorded, sizeof recorded);
    entries++;
    rounds = tests = 0;
    expect(vcube_run(wiring, n, table, n * length, &rounds, &tests, recorded, 2, sheet, 4, &count) == recorded[2], "the number of the run");
    if (recorded[2] == 0) {
        taken++;
        go_on(recorded[0], recorded[1], of_boards);
    } else if (recorded[2] >= VCUBE_REFUSED_NOT_LIVE && recorded[0] != VCUBE_KIND_CRASH) {
        expect(vcube_board_next(wiring, n, recorded[1], line(recorded[1]), length, &tested) == recorded[2], "the board's own refusal");
    }
    expect(memcmp(sheet, recorded + 3, 4) == 0, "the run sheet is that of the simulator");
    expect(memcmp(sheet, of_boards, 4) == 0, "the boards do what the run sheet says");
    expect(memcmp(table, boards, n * length) == 0, "the lines of the boards are those of the table");
}

int main(void)
{
    uint8_t front[4];

    while (fread(front, 1, 1, stdin) == 1) {
        take(front + 1, 3);
        schedules++;
        wiring = front[0];
        n = front[1];
        length = VCUBE_LINE_LENGTH(n);
        packed_length = VCUBE_PACKED_LENGTH(n);
        take(table, n * length);
        memcpy(boards, table, n * length);
        entries = 0;
        for (size_t k = front[2] + 256u * front[3]; k > 0; k--)
            run_entry();
    }
    printf("boards: %lu schedules, %lu entries taken, %lu rounds closed: table and boards are the same\n", schedules, taken, closings);
    return schedules == 0 ? 2 : 0;
}
