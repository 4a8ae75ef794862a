/* What vcube_plant.h has inline. On a worked run of docs/RULES.md: what each accessor reads. Then, at each size and on both wirings, each call beside
 * that of vcube.h: both return the same and leave the same. And what is refused. What is wrong is printed; then the exit status is 1. */

#include "vcube_plant.h"

#include <stdio.h>
#include <string.h>

#define CUBE VCUBE_WIRING_CUBE
#define RING VCUBE_WIRING_RING
#define MOST 64

static int failures;

static void expect(int holds, const char *what)
{
    if (!holds) {
        printf("wrong: %s\n", what);
        failures++;
    }
}

static int are_bytes(const uint8_t *bytes, const uint8_t *expected, size_t length)
{
    return memcmp(bytes, expected, length) == 0;
}

/* RULES, "A worked run": its first four entries, then the others. */
static void worked_run(void)
{
    static const uint8_t schedule[] = {2, 0, 1, 0, 1, 0, 1, 1, 1, 0, 1, 2, 1, 2, 1, 2, 1, 3, 1, 3, 1, 3};
    static const uint8_t fourth[] = {1, 0, 2, 2};
    uint8_t memory[VCUBE_TABLE_LENGTH(4) + 1], sheet[2 * sizeof schedule], *line;
    struct vcube_plant plant;
    size_t taken, by, of, tested;

    memory[sizeof memory - 1] = 77;
    expect(vcube_plant_fresh(&plant, CUBE, 4, memory, sizeof memory) == VCUBE_ACCEPTED && plant.table_length == 40 && plant.last == 255,
           "a fresh plant takes the front of a longer memory");
    expect(vcube_plant_run(&plant, schedule, 2, sheet, 4, &taken) == VCUBE_ACCEPTED && taken == 1, "run");
    expect(vcube_plant_doubt_lamp(&plant, &by, &of) == VCUBE_ACCEPTED && by == 0 && of == 1, "doubt lamp");
    expect(vcube_plant_enter(&plant, 1, 0, NULL) == VCUBE_ACCEPTED && vcube_plant_enter(&plant, 1, 0, NULL) == VCUBE_ACCEPTED, "enter");
    expect(vcube_plant_enter(&plant, 1, 1, sheet) == VCUBE_ACCEPTED && are_bytes(sheet, fourth, 4), "enter writes a line of the sheet");
    expect(vcube_plant_status(&plant, 1) == VCUBE_STATUS_TOLD && !vcube_plant_is_live(&plant, 1) && vcube_plant_next_distance(&plant, 1) == 2 &&
               !vcube_plant_finished(&plant, 1) && vcube_plant_tests_made(&plant, 1) == 1 && vcube_plant_told_by(&plant, 1) == 0 &&
               vcube_plant_rounds_ago(&plant, 1) == 0 && !vcube_plant_suspects(&plant, 1, 0),
           "line 1: 2 2 0 1 0 0, 0 0 0 0");
    expect(vcube_plant_is_live(&plant, 0) && vcube_plant_next_distance(&plant, 0) == 4 && vcube_plant_tests_made(&plant, 0) == 3 &&
               vcube_plant_told_by(&plant, 0) == VCUBE_TOLD_BY_NONE && vcube_plant_suspects(&plant, 0, 1) && !vcube_plant_suspects(&plant, 0, 2),
           "line 0: 0 4 0 3 255 0, 0 1 0 0");
    expect(vcube_plant_next(&plant, 2, &tested) == VCUBE_ACCEPTED && tested == 3, "the next test of 2 is of 3");
    expect(vcube_plant_enter(&plant, 1, 0, NULL) == VCUBE_ACCEPTED && vcube_plant_finished(&plant, 0), "0 finishes its pass");
    expect(vcube_plant_next(&plant, 0, &tested) == VCUBE_REFUSED_PASS_FINISHED, "it has no next test");
    expect(vcube_plant_run(&plant, schedule + 10, 12, sheet, 24, &taken) == VCUBE_ACCEPTED && plant.rounds == 1 && plant.tests == 8, "the tally");
    line = vcube_plant_line(&plant, 1);
    expect(vcube_line_status(line) == 2 && vcube_line_next_distance(line) == 1 && !vcube_line_finished(line) && vcube_line_tests_made(line) == 0 &&
               vcube_line_told_by(line) == 0 && vcube_line_rounds_ago(line) == 1 && !vcube_line_suspects(line, 3),
           "line 1: 2 1 0 0 0 1, 0 0 0 0");
    expect(vcube_plant_bring_back(&plant, 1) == VCUBE_ACCEPTED && plant.rounds == 1 && vcube_plant_is_live(&plant, 1), "1 is brought back");
    for (by = 0; by < 4; by++)
        expect(vcube_plant_told_by(&plant, by) == 255 && !vcube_plant_suspects(&plant, by, 1), "nobody suspects it");
    expect(memory[sizeof memory - 1] == 77, "the byte behind the table stays");
}

/* The same calls on a plant and on loose buffers. */
static void beside(size_t wiring, size_t n)
{
    static uint8_t memory[VCUBE_TABLE_LENGTH(MOST) + 1], table[VCUBE_TABLE_LENGTH(MOST)], report[2][VCUBE_REPORT_LENGTH(MOST)];
    static uint8_t saved[2][VCUBE_SAVED_LENGTH(MOST)], loaded[VCUBE_TABLE_LENGTH(MOST)];
    const size_t length = VCUBE_TABLE_LENGTH(n), saved_length = VCUBE_SAVED_LENGTH(n);
    const uint8_t schedule[] = {VCUBE_KIND_TURN, 0, VCUBE_KIND_LATE_TURN, (uint8_t)(n - 1), VCUBE_KIND_CRASH, (uint8_t)(n / 2), 9, 0};
    uint8_t sheet[2][2 * sizeof schedule], list[2][VCUBE_ASSIGNMENT_LENGTH(MOST)];
    struct vcube_plant plant, other;
    enum vcube_refusal refusal;
    uint32_t rounds = 0, tests = 0;
    size_t last = VCUBE_NO_STATION, k, a[4] = {0}, b[4] = {0};

    memset(sheet, 0, sizeof sheet);
    memset(list, 0, sizeof list);
    expect(vcube_plant_fresh(&plant, wiring, n, memory, sizeof memory) == vcube_fresh_table(wiring, n, table, length), "beside: fresh");
    /* 9 is no kind. Of two stations the one whose test came late has left, and cannot crash. */
    refusal = vcube_plant_run(&plant, schedule, sizeof schedule, sheet[0], sizeof sheet[0], a);
    expect(refusal == (n > 2 ? VCUBE_REFUSED_UNKNOWN_KIND : VCUBE_REFUSED_NOT_LIVE) && a[0] == (n > 2 ? 3 : 2), "beside: the run stops");
    expect(vcube_run(wiring, n, table, length, &rounds, &tests, schedule, sizeof schedule, sheet[1], sizeof sheet[1], b) == refusal &&
               a[0] == b[0] && are_bytes(sheet[0], sheet[1], sizeof sheet[0]),
           "beside: run");
    for (k = 0; k < 3; k++) {
        expect(vcube_plant_grant(&plant, a) == vcube_grant(wiring, n, table, length, last, b) && a[0] == b[0], "beside: grant");
        expect(vcube_plant_drive(&plant, a) == vcube_drive(wiring, n, table, length, &rounds, &tests, &last, b) && a[0] == b[0], "beside: drive");
        expect(are_bytes(memory, table, length) && plant.rounds == rounds && plant.tests == tests && plant.last == last, "beside: the plant");
    }
    expect(vcube_plant_doubt_lamp(&plant, a, a + 1) == vcube_doubt_lamp(wiring, n, table, length, b, b + 1) && a[0] == b[0] && a[1] == b[1],
           "beside: doubt lamp");
    expect(vcube_plant_wait(&plant, a, a + 1, a + 2, a + 3) == vcube_wait(wiring, n, table, length, b, b + 1, b + 2, b + 3) &&
               memcmp(a, b, sizeof a) == 0,
           "beside: wait");
    expect(vcube_plant_one_dead(&plant, a, a + 1) == vcube_one_dead(wiring, n, b, b + 1) && a[0] == b[0] && a[1] == b[1], "beside: one dead");
    for (k = 0; k <= n; k++) {
        expect(vcube_plant_row(&plant, k, a, a + 1) == vcube_row(wiring, n, table, length, k, b, b + 1) && a[0] == b[0] && a[1] == b[1],
               "beside: row");
        expect(vcube_plant_slot(&plant, k, a, a + 1) == vcube_slot(n, table, length, k, b, b + 1) && a[0] == b[0] && a[1] == b[1], "beside: slot");
        expect(vcube_plant_assignment(&plant, k, list[0], VCUBE_ASSIGNMENT_LENGTH(n), a) ==
                       vcube_assignment(n, table, length, k, list[1], VCUBE_ASSIGNMENT_LENGTH(n), b) &&
                   a[0] == b[0] && are_bytes(list[0], list[1], sizeof list[0]),
               "beside: assignment");
    }
    expect(vcube_plant_save(&plant, saved[0], saved_length) == VCUBE_ACCEPTED &&
               vcube_save(n, table, length, rounds, tests, saved[1], saved_length) == VCUBE_ACCEPTED &&
               are_bytes(saved[0], saved[1], saved_length),
           "beside: save");
    expect(vcube_plant_load(&other, wiring, loaded, sizeof loaded, saved[0], saved_length) == VCUBE_ACCEPTED && other.n == n &&
               other.wiring == wiring && other.table == loaded && other.table_length == length && other.rounds == rounds && other.tests == tests &&
               other.last == VCUBE_NO_STATION && are_bytes(loaded, table, length),
           "beside: load");
    memory[0] = table[0] = 9;
    expect(vcube_plant_status(&plant, 0) == 9, "a damaged status");
    expect(vcube_plant_mend(&plant, report[0], VCUBE_REPORT_LENGTH(n), a) == VCUBE_ACCEPTED &&
               vcube_mend(wiring, n, table, length, report[1], VCUBE_REPORT_LENGTH(n), b) == VCUBE_ACCEPTED && a[0] == b[0] &&
               are_bytes(report[0], report[1], VCUBE_REPORT_LENGTH(n)) && are_bytes(memory, table, length),
           "beside: mend");
}

/* Every call on a plant that a refused call left. */
static void none_is_refused(struct vcube_plant *plant, const char *what)
{
    uint8_t bytes[4] = {0};
    size_t a, b, c, d;

    expect(plant->n == 0 && plant->table == NULL && plant->table_length == 0 && plant->rounds == 0 && plant->tests == 0 &&
               plant->last == VCUBE_NO_STATION,
           what);
    expect(vcube_plant_run(plant, bytes, 0, bytes, 0, &a) == VCUBE_REFUSED_NO_SUCH_WIRING &&
               vcube_plant_enter(plant, 1, 0, NULL) == VCUBE_REFUSED_NO_SUCH_WIRING &&
               vcube_plant_grant(plant, &a) == VCUBE_REFUSED_NO_SUCH_WIRING && vcube_plant_next(plant, 0, &a) == VCUBE_REFUSED_NO_SUCH_WIRING &&
               vcube_plant_drive(plant, &a) == VCUBE_REFUSED_NO_SUCH_WIRING &&
               vcube_plant_doubt_lamp(plant, &a, &b) == VCUBE_REFUSED_NO_SUCH_WIRING &&
               vcube_plant_wait(plant, &a, &b, &c, &d) == VCUBE_REFUSED_NO_SUCH_WIRING &&
               vcube_plant_row(plant, 0, &a, &b) == VCUBE_REFUSED_NO_SUCH_WIRING &&
               vcube_plant_mend(plant, bytes, 0, &a) == VCUBE_REFUSED_NO_SUCH_WIRING &&
               vcube_plant_bring_back(plant, 0) == VCUBE_REFUSED_NO_SUCH_WIRING &&
               vcube_plant_assignment(plant, 0, bytes, 0, &a) == VCUBE_REFUSED_SIZE_OUT_OF_RANGE &&
               vcube_plant_slot(plant, 0, &a, &b) == VCUBE_REFUSED_SIZE_OUT_OF_RANGE &&
               vcube_plant_save(plant, bytes, 0) == VCUBE_REFUSED_SIZE_OUT_OF_RANGE,
           what);
}

static void refusals(void)
{
    static const size_t wide[] = {300, 65536 + 1, SIZE_MAX - 254, SIZE_MAX};
    uint8_t memory[VCUBE_TABLE_LENGTH(4)], saved[VCUBE_SAVED_LENGTH(4)];
    struct vcube_plant plant;
    size_t k, tested;

    expect(vcube_plant_fresh(&plant, 3, 4, memory, sizeof memory) == VCUBE_REFUSED_NO_SUCH_WIRING, "refused: a wiring");
    none_is_refused(&plant, "after a wiring that is none");
    expect(vcube_plant_fresh(&plant, CUBE, 4, memory, sizeof memory - 1) == VCUBE_REFUSED_TABLE_LENGTH, "refused: a memory too short");
    expect(vcube_plant_fresh(&plant, CUBE, 1, memory, sizeof memory) == VCUBE_REFUSED_SIZE_OUT_OF_RANGE, "refused: 1 station");
    for (k = 0; k < 4; k++)
        expect(vcube_plant_fresh(&plant, CUBE, wide[k], memory, sizeof memory) == VCUBE_REFUSED_SIZE_OUT_OF_RANGE, "refused: a size");
    expect(vcube_plant_fresh(&plant, RING, 4, memory, sizeof memory) == VCUBE_ACCEPTED, "a fresh plant");
    for (k = 0; k < 4; k++) {
        expect(vcube_plant_enter(&plant, 1, wide[k], NULL) == VCUBE_REFUSED_NO_SUCH_STATION, "refused: an entry's station");
        expect(vcube_plant_enter(&plant, wide[k], 1, NULL) == VCUBE_REFUSED_UNKNOWN_KIND, "refused: an entry's kind");
        expect(vcube_plant_next(&plant, wide[k], &tested) == VCUBE_REFUSED_NO_SUCH_STATION, "refused: the next test of no station");
        expect(vcube_plant_bring_back(&plant, wide[k]) == VCUBE_REFUSED_NO_SUCH_STATION, "refused: to bring back no station");
    }
    expect(vcube_plant_save(&plant, saved, sizeof saved) == VCUBE_ACCEPTED, "save");
    expect(vcube_plant_load(&plant, RING, memory, sizeof memory - 1, saved, sizeof saved) == VCUBE_REFUSED_TABLE_LENGTH, "refused: too short");
    none_is_refused(&plant, "after a memory too short for a load");
    expect(vcube_plant_load(&plant, RING, memory, sizeof memory, saved, sizeof saved - 1) == VCUBE_REFUSED_FIELD_PAST_END, "refused: cut off");
    none_is_refused(&plant, "after a saved plant that was cut off");
}

int main(void)
{
    size_t n;

    worked_run();
    for (n = 2; n <= MOST; n++) {
        beside(CUBE, n);
        beside(RING, n);
    }
    refusals();
    return failures != 0;
}
