/* The early release's order of groups, for a board that does not keep the rules: it took each group by rising number. Linked in the place of two of
 * the library's calls (-Wl,--wrap=vcube_board_next,--wrap=vcube_board_not_replied), so that the board tests whom that order says, and finishes its
 * pass where that order names nobody. On the cube. All boards of the program have it, or with CHOSEN those that the program says. */
#include "vcube.h"

#ifdef CHOSEN
int has_early_order(size_t wiring, size_t board);
#else
#define has_early_order(wiring, board) 1
#endif

uint8_t __real_vcube_board_next(size_t wiring, size_t n, size_t board, const uint8_t *line, size_t line_length, size_t *tested);
uint8_t __wrap_vcube_board_next(size_t wiring, size_t n, size_t board, const uint8_t *line, size_t line_length, size_t *tested);
uint8_t __real_vcube_board_not_replied(size_t wiring, size_t n, size_t board, uint8_t *line, size_t line_length, size_t *outcome);
uint8_t __wrap_vcube_board_not_replied(size_t wiring, size_t n, size_t board, uint8_t *line, size_t line_length, size_t *outcome);

/* Whether the board is the first, of those that it does not suspect, in its half of the block: by rising number, which was the mistake. */
static int is_first(const uint8_t *line, size_t board, size_t half)
{
    size_t first = board / half * half;

    while (first < board && line[VCUBE_HEAD + first] == 1)
        first++;
    return first == board;
}

uint8_t __wrap_vcube_board_next(size_t wiring, size_t n, size_t board, const uint8_t *line, size_t line_length, size_t *tested)
{
    const uint8_t error = __real_vcube_board_next(wiring, n, board, line, line_length, tested);
    size_t half;

    if (error != VCUBE_ACCEPTED || !has_early_order(wiring, board))
        return error;
    for (half = 1; half < 64; half *= 2) {
        size_t distance;

        for (distance = half; distance < 2 * half; distance++)
            if (distance >= line[1] && (board ^ distance) < n && is_first(line, board, half)) {
                *tested = board ^ distance;
                return error;
            }
    }
    *tested = VCUBE_NO_STATION;
    return error;
}

uint8_t __wrap_vcube_board_not_replied(size_t wiring, size_t n, size_t board, uint8_t *line, size_t line_length, size_t *outcome)
{
    size_t tested, end = 1;
    const uint8_t error = __wrap_vcube_board_next(wiring, n, board, line, line_length, &tested);

    if (error != VCUBE_ACCEPTED || tested != VCUBE_NO_STATION || !has_early_order(wiring, board))
        return __real_vcube_board_not_replied(wiring, n, board, line, line_length, outcome);
    while (end < n)
        end *= 2;
    line[1] = (uint8_t)end;
    line[2] = 1;
    *outcome = VCUBE_OUTCOME_PASS_FINISHED;
    return error;
}
