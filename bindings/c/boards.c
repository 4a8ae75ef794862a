/* Four boards, each with its own line and nothing else, by the C interface of the library. What one sends another is copied from board to board
 * here; on a plant it goes over the cable. First the others find a board that is dead, on the ring: the run of docs/RULES.md, "Ring: who stands
 * where, who tests whom". Then "A worked run" of it, on the cube; and a run in which a board is told to leave by the one that tests it. */

#include "vcube.h"

#include <stdio.h>

#define N 4

/* What a board keeps. */
struct board {
    size_t wiring;
    size_t number;
    uint8_t line[VCUBE_LINE_LENGTH(N)];
};

/* A row on the cable. */
struct row {
    uint8_t packed[VCUBE_PACKED_LENGTH(N)];
};

/* A turn that the bus master grants; whether the reply comes late, if there is one. */
struct turn {
    size_t board;
    int is_late;
};

/* 1 is dead. */
static const struct turn on_ring[] = {{0, 0}, {0, 0}, {0, 0}, {2, 0}, {2, 0}, {3, 0}, {3, 0}};

/* The reply of 1 to 0 is late. So 0 suspects 1, and tells it when 1 tests 0. */
static const struct turn worked_run[] = {{0, 1}, {0, 0}, {0, 0}, {1, 0}, {0, 0}, {2, 0}, {2, 0}, {2, 0}, {3, 0}, {3, 0}, {3, 0}};

/* 1, 2 and 3 finish their passes first: so 1 tests nobody any more in this round, and in the next one 0 tests 1, and tells it. */
static const struct turn late_after_passes[] = {{1, 0}, {1, 0}, {1, 0}, {2, 0}, {2, 0}, {2, 0}, {3, 0},
                                                {3, 0}, {3, 0}, {0, 1}, {0, 0}, {0, 0}, {0, 0}, {0, 0}};

static struct board boards[N];

/* Says which call was refused; gives whether it was. */
static int refused(const char *call, uint8_t number)
{
    if (number != VCUBE_ACCEPTED)
        printf("%s: refused with %d\n", call, number);
    return number != VCUBE_ACCEPTED;
}

/* What the board sends as a reply or an exchange; gives whether it sends anything, which a board that is not live does not. */
static int send_row(const struct board *board, struct row *row)
{
    const uint8_t number = vcube_board_row(board->wiring, N, board->number, board->line, sizeof board->line, row->packed, sizeof row->packed);

    return number != VCUBE_REFUSED_NOT_LIVE && !refused("board row", number);
}

/* What the tester sends to the tested board after the reply, by the outcome. */
static int send_after_reply(const struct board *tester, struct board *tested, size_t outcome)
{
    struct row row;

    if (outcome == VCUBE_OUTCOME_TESTED_TOLD)
        return refused("board told", vcube_board_told(tested->wiring, N, tested->number, tested->line, sizeof tested->line, tester->number));
    if (outcome == VCUBE_OUTCOME_EXCHANGED && send_row(tester, &row))
        return refused("board exchanged", vcube_board_exchanged(tested->wiring, N, tested->number, tested->line, sizeof tested->line,
                                                                tester->number, row.packed, sizeof row.packed));
    return 0;
}

/* Makes a turn, and prints it as a line of the run sheet. */
static int make_turn(const struct turn *turn)
{
    struct board *tester = &boards[turn->board];
    struct row reply;
    size_t tested, outcome;
    uint8_t number;

    if (refused("board next", vcube_board_next(tester->wiring, N, tester->number, tester->line, sizeof tester->line, &tested)))
        return 1;
    if (tested != VCUBE_NO_STATION && send_row(&boards[tested], &reply) && !turn->is_late)
        number = vcube_board_replied(tester->wiring, N, tester->number, tester->line, sizeof tester->line, reply.packed, sizeof reply.packed,
                                     &outcome);
    else
        number = vcube_board_not_replied(tester->wiring, N, tester->number, tester->line, sizeof tester->line, &outcome);
    if (refused("turn", number) || (tested != VCUBE_NO_STATION && send_after_reply(tester, &boards[tested], outcome)))
        return 1;
    printf("%zu ", tester->number);
    if (tested == VCUBE_NO_STATION)
        printf("-");
    else
        printf("%zu", tested);
    printf(" %zu %d\n", outcome, tester->line[0]);
    return 0;
}

/* Whether some board is live and every live one has finished its pass. On a plant the bus master knows it by the table on which it runs the
 * entries. */
static int is_round_over(void)
{
    int live = 0, finished = 0;

    for (size_t k = 0; k < N; k++)
        if (boards[k].line[0] == VCUBE_STATUS_LIVE) {
            live++;
            finished += boards[k].line[2];
        }
    return live > 0 && finished == live;
}

/* Tells all boards that the round is closed. */
static int close_round(void)
{
    for (size_t k = 0; k < N; k++)
        if (refused("board round closed",
                    vcube_board_round_closed(boards[k].wiring, N, k, boards[k].line, sizeof boards[k].line)))
            return 1;
    printf("the round closes\n");
    return 0;
}

static int begin(size_t wiring)
{
    for (size_t k = 0; k < N; k++) {
        boards[k].wiring = wiring;
        boards[k].number = k;
        if (refused("board fresh", vcube_board_fresh(wiring, N, k, boards[k].line, sizeof boards[k].line)))
            return 1;
    }
    printf("tester tested outcome status\n");
    return 0;
}

static void print_lines(void)
{
    for (size_t k = 0; k < N; k++) {
        printf("line %zu:", k);
        for (size_t byte = 0; byte < sizeof boards[k].line; byte++)
            printf(" %d", boards[k].line[byte]);
        printf("\n");
    }
}

/* Makes turns, and closes each round that is over; then prints what the boards keep. */
static int run(const struct turn *turns, size_t count)
{
    for (size_t k = 0; k < count; k++)
        if (make_turn(&turns[k]) || (is_round_over() && close_round()))
            return 1;
    print_lines();
    return 0;
}

#define RUN(turns) run(turns, sizeof turns / sizeof turns[0])

int main(void)
{
    if (begin(VCUBE_WIRING_RING))
        return 1;
    boards[1].line[0] = VCUBE_STATUS_CRASHED;
    if (RUN(on_ring))
        return 1;
    return begin(VCUBE_WIRING_CUBE) || RUN(worked_run) || begin(VCUBE_WIRING_CUBE) || RUN(late_after_passes) ||
           fflush(stdout) != 0 || ferror(stdout);
}
