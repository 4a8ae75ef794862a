/* What a board calls in one turn, so that its instructions can be counted: turn WIRING N SUSPECTED CALLS, where board 0 tests board 1, each suspects
 * the last SUSPECTED of N boards, and CALLS are letters: n next, r row of the tested board, p replied, R row of the tester, x exchanged, s not replied,
 * t told, c round closed; nprRx is a turn with an exchange, and - no call. With a further word it prints how much of the stack they take, in bytes.
 * tests/slots counts them. */
#define _GNU_SOURCE
#include "stack.h"
#include "vcube.h"

#include <stdio.h>
#include <stdlib.h>
#include <string.h>

static size_t wiring, n;
static const char *calls;
static uint8_t lines[2][VCUBE_LINE_LENGTH(64)], row[VCUBE_PACKED_LENGTH(64)];
static uint8_t number;

static void begin(size_t suspected)
{
    for (size_t board = 0; board < 2; board++) {
        number |= vcube_board_fresh(wiring, n, board, lines[board], VCUBE_LINE_LENGTH(n));
        memset(lines[board] + VCUBE_LINE_LENGTH(n) - suspected, 1, suspected);
    }
}

static void make_calls(void)
{
    const size_t length = VCUBE_LINE_LENGTH(n), packed_length = VCUBE_PACKED_LENGTH(n);
    size_t tested, outcome;

    for (const char *call = calls; *call != 0; call++) {
        if (*call == 'n')
            number |= vcube_board_next(wiring, n, 0, lines[0], length, &tested);
        else if (*call == 'r')
            number |= vcube_board_row(wiring, n, 1, lines[1], length, row, packed_length);
        else if (*call == 'p')
            number |= vcube_board_replied(wiring, n, 0, lines[0], length, row, packed_length, &outcome);
        else if (*call == 'R')
            number |= vcube_board_row(wiring, n, 0, lines[0], length, row, packed_length);
        else if (*call == 'x')
            number |= vcube_board_exchanged(wiring, n, 1, lines[1], length, 0, row, packed_length);
        else if (*call == 's')
            number |= vcube_board_not_replied(wiring, n, 0, lines[0], length, &outcome);
        else if (*call == 't')
            number |= vcube_board_told(wiring, n, 1, lines[1], length, 0);
        else if (*call == 'c')
            number |= vcube_board_round_closed(wiring, n, 1, lines[1], length);
    }
}

int main(int count, char **words)
{
    if (count < 5)
        return 2;
    wiring = strtoul(words[1], NULL, 10);
    n = strtoul(words[2], NULL, 10);
    calls = words[4];
    begin(strtoul(words[3], NULL, 10));
    if (count == 5) {
        make_calls();
    } else {
        printf("%zu\n", stack_taken(make_calls));
    }
    return number;
}
