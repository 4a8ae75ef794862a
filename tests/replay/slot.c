/* What a bus master calls in one slot, so that its instructions can be counted: slot N WHAT, on a fresh table of N boards, where WHAT is
 * none, grant, check (a run of no entry) or turn (a run of one entry). tests/slots counts them. */
#include "vcube.h"

#include <stdlib.h>
#include <string.h>

int main(int count, char **words)
{
    static uint8_t table[VCUBE_TABLE_LENGTH(64)];
    size_t n = count == 3 ? strtoul(words[1], NULL, 10) : 0, taken, station = 0;
    uint32_t rounds = 0, tests = 0;
    uint8_t schedule[2] = {VCUBE_KIND_TURN, 0}, sheet[4], number;

    number = vcube_fresh_table(VCUBE_WIRING_CUBE, n, table, VCUBE_TABLE_LENGTH(n));
    if (number == VCUBE_ACCEPTED && strcmp(words[2], "grant") == 0)
        number = vcube_grant(VCUBE_WIRING_CUBE, n, table, VCUBE_TABLE_LENGTH(n), VCUBE_NO_STATION, &station);
    if (number == VCUBE_ACCEPTED && strcmp(words[2], "check") == 0)
        number = vcube_run(VCUBE_WIRING_CUBE, n, table, VCUBE_TABLE_LENGTH(n), &rounds, &tests, schedule, 0, sheet, 0, &taken);
    if (number == VCUBE_ACCEPTED && strcmp(words[2], "turn") == 0)
        number = vcube_run(VCUBE_WIRING_CUBE, n, table, VCUBE_TABLE_LENGTH(n), &rounds, &tests, schedule, 2, sheet, 4, &taken);
    return number;
}
