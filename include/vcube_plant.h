/* A plant as one struct, over the caller's memory, and the calls of vcube.h on it. Station 5 of eight crashes, and the others find out:
 *
 *     uint8_t memory[VCUBE_TABLE_LENGTH(8)];
 *     struct vcube_plant plant;
 *     size_t grants;
 *     enum vcube_refusal error = vcube_plant_fresh(&plant, VCUBE_WIRING_CUBE, 8, memory, sizeof memory);
 *     if (!error)
 *         error = vcube_plant_enter(&plant, VCUBE_KIND_CRASH, 5, NULL);
 *     if (!error)
 *         error = vcube_plant_drive(&plant, &grants);
 *     if (!error && vcube_plant_suspects(&plant, 0, 5))
 *         printf("after %u tests station 0 suspects station 5\n", (unsigned)plant.tests);
 *
 * All is inline, for C99 and C++: there is nothing to link besides the library. Each call does what the call of vcube.h does whose name it has
 * without `plant_`, but where its comment says otherwise, and returns the same errors, as enum vcube_refusal. vcube_plant(3) says more. */
#ifndef VCUBE_PLANT_H
#define VCUBE_PLANT_H

#include "vcube.h"

#ifdef __cplusplus
extern "C" {
#endif

/* A fresh plant and a load write all fields; for a table that is there already fill them yourself. The caller may read them, and write the tally,
 * `last` and the bytes of the table. A copy of the struct shares the table: for one of its own copy the bytes, and set `table`. */
struct vcube_plant {
    size_t wiring;                      /* VCUBE_WIRING_CUBE or VCUBE_WIRING_RING */
    size_t n;                           /* how many stations */
    uint8_t *table;                     /* the caller's memory */
    size_t table_length;
    uint32_t rounds;                    /* the tally: closed rounds .. */
    uint32_t tests;                     /* .. and tests */
    size_t last;                        /* the last granted number, or VCUBE_NO_STATION */
};

/* ---- A line of the table, and what it holds ---- */
/* A line is that of a station of a plant (vcube_plant_line), or a board's own. k is below n. */

static inline uint8_t vcube_line_status(const uint8_t *line) /* a number of enum vcube_status; another one only before vcube_mend */
{
    return line[0];
}

static inline uint8_t vcube_line_next_distance(const uint8_t *line)
{
    return line[1];
}

static inline int vcube_line_finished(const uint8_t *line) /* whether it has finished its pass in this round */
{
    return line[2] != 0;
}

static inline uint8_t vcube_line_tests_made(const uint8_t *line) /* in this round */
{
    return line[3];
}

static inline uint8_t vcube_line_told_by(const uint8_t *line) /* a station, VCUBE_TOLD_BY_NONE or VCUBE_TOLD_NOT_RECORDED */
{
    return line[4];
}

static inline uint8_t vcube_line_rounds_ago(const uint8_t *line) /* since it stopped being live; 255 means 255 or more */
{
    return line[5];
}

static inline int vcube_line_suspects(const uint8_t *line, size_t k)
{
    return line[VCUBE_HEAD + k] != 0;
}

/* ---- The same of a station of a plant ---- */
/* Station and k are below plant->n. Unlike the calls below, these check nothing. */

static inline uint8_t *vcube_plant_line(const struct vcube_plant *plant, size_t station)
{
    return plant->table + station * VCUBE_LINE_LENGTH(plant->n);
}

static inline uint8_t vcube_plant_status(const struct vcube_plant *plant, size_t station)
{
    return vcube_line_status(vcube_plant_line(plant, station));
}

static inline int vcube_plant_is_live(const struct vcube_plant *plant, size_t station)
{
    return vcube_plant_status(plant, station) == VCUBE_STATUS_LIVE;
}

static inline uint8_t vcube_plant_next_distance(const struct vcube_plant *plant, size_t station)
{
    return vcube_line_next_distance(vcube_plant_line(plant, station));
}

static inline int vcube_plant_finished(const struct vcube_plant *plant, size_t station)
{
    return vcube_line_finished(vcube_plant_line(plant, station));
}

static inline uint8_t vcube_plant_tests_made(const struct vcube_plant *plant, size_t station)
{
    return vcube_line_tests_made(vcube_plant_line(plant, station));
}

static inline uint8_t vcube_plant_told_by(const struct vcube_plant *plant, size_t station)
{
    return vcube_line_told_by(vcube_plant_line(plant, station));
}

static inline uint8_t vcube_plant_rounds_ago(const struct vcube_plant *plant, size_t station)
{
    return vcube_line_rounds_ago(vcube_plant_line(plant, station));
}

static inline int vcube_plant_suspects(const struct vcube_plant *plant, size_t station, size_t k)
{
    return vcube_line_suspects(vcube_plant_line(plant, station), k);
}

/* ---- A plant begins ---- */

/* With an error the struct becomes this: no plant, on which every call is refused. */
static inline void vcube_plant_none(struct vcube_plant *plant)
{
    const struct vcube_plant none = {0, 0, NULL, 0, 0, 0, VCUBE_NO_STATION};

    *plant = none;
}

/* A fresh plant, in the front of a memory of VCUBE_TABLE_LENGTH(n) bytes or more. Its tally is 0 and 0, and none was granted yet. A memory too short
 * is refused as a table of another length is. */
static inline enum vcube_refusal vcube_plant_fresh(struct vcube_plant *plant, size_t wiring, size_t n, uint8_t *memory, size_t memory_length)
{
    const size_t length = n <= 64 && VCUBE_TABLE_LENGTH(n) <= memory_length ? VCUBE_TABLE_LENGTH(n) : memory_length;
    const struct vcube_plant fresh = {wiring, n, memory, length, 0, 0, VCUBE_NO_STATION};
    const enum vcube_refusal error = (enum vcube_refusal)vcube_fresh_table(wiring, n, memory, length);

    if (error)
        vcube_plant_none(plant);
    else
        *plant = fresh;
    return error;
}

/* A plant of a saved one, in the front of a memory that is long enough for its size, which vcube_saved_size tells; VCUBE_TABLE_LENGTH(64) is for
 * every size. A saved plant does not say its wiring: give the one that it was saved with. None was granted yet. */
static inline enum vcube_refusal vcube_plant_load(struct vcube_plant *plant, size_t wiring, uint8_t *memory, size_t memory_length,
                                                  const uint8_t *saved, size_t saved_length)
{
    struct vcube_plant loaded = {wiring, 0, memory, memory_length, 0, 0, VCUBE_NO_STATION};
    enum vcube_refusal error;
    size_t n;

    if (vcube_saved_size(saved, saved_length, &n) == VCUBE_ACCEPTED && VCUBE_TABLE_LENGTH(n) <= memory_length)
        loaded.table_length = VCUBE_TABLE_LENGTH(n);
    error = (enum vcube_refusal)vcube_load(saved, saved_length, memory, loaded.table_length, &loaded.n, &loaded.rounds, &loaded.tests);
    if (error)
        vcube_plant_none(plant);
    else
        *plant = loaded;
    return error;
}

/* ---- Run, grant and drive ---- */

static inline enum vcube_refusal vcube_plant_run(struct vcube_plant *plant, const uint8_t *schedule, size_t schedule_length, uint8_t *sheet,
                                                 size_t sheet_length, size_t *taken)
{
    return (enum vcube_refusal)vcube_run(plant->wiring, plant->n, plant->table, plant->table_length, &plant->rounds, &plant->tests, schedule,
                                         schedule_length, sheet, sheet_length, taken);
}

/* A run of one entry: kind (enum vcube_kind) and station. Its four bytes of the run sheet go into sheet, which may be NULL. */
static inline enum vcube_refusal vcube_plant_enter(struct vcube_plant *plant, size_t kind, size_t station, uint8_t *sheet)
{
    const uint8_t entry[2] = {(uint8_t)(kind < 255 ? kind : 255), (uint8_t)(station < 255 ? station : 255)};
    uint8_t unread[4];
    size_t taken;

    return vcube_plant_run(plant, entry, sizeof entry, sheet ? sheet : unread, sizeof unread, &taken);
}

/* The station that is to have the next turn. Once its turn was taken, write it into plant->last. */
static inline enum vcube_refusal vcube_plant_grant(const struct vcube_plant *plant, size_t *station)
{
    return (enum vcube_refusal)vcube_grant(plant->wiring, plant->n, plant->table, plant->table_length, plant->last, station);
}

/* The station that a turn of this one would test, or VCUBE_NO_STATION: vcube_board_next, on its line. */
static inline enum vcube_refusal vcube_plant_next(const struct vcube_plant *plant, size_t station, size_t *tested)
{
    const size_t length = station < plant->n ? VCUBE_LINE_LENGTH(plant->n) : 0;

    return (enum vcube_refusal)vcube_board_next(plant->wiring, plant->n, station, length ? vcube_plant_line(plant, station) : plant->table, length,
                                                tested);
}

static inline enum vcube_refusal vcube_plant_drive(struct vcube_plant *plant, size_t *grants)
{
    return (enum vcube_refusal)vcube_drive(plant->wiring, plant->n, plant->table, plant->table_length, &plant->rounds, &plant->tests,
                                           &plant->last, grants);
}

/* ---- Doubt lamp, wait and one dead ---- */

static inline enum vcube_refusal vcube_plant_doubt_lamp(const struct vcube_plant *plant, size_t *by, size_t *of)
{
    return (enum vcube_refusal)vcube_doubt_lamp(plant->wiring, plant->n, plant->table, plant->table_length, by, of);
}

static inline enum vcube_refusal vcube_plant_wait(const struct vcube_plant *plant, size_t *rounds, size_t *turns_per_round,
                                                  size_t *turns_until_known, size_t *turns_from_crash)
{
    return (enum vcube_refusal)vcube_wait(plant->wiring, plant->n, plant->table, plant->table_length, rounds, turns_per_round, turns_until_known,
                                          turns_from_crash);
}

static inline enum vcube_refusal vcube_plant_one_dead(const struct vcube_plant *plant, size_t *rounds, size_t *grants)
{
    return (enum vcube_refusal)vcube_one_dead(plant->wiring, plant->n, rounds, grants);
}

/* ---- The table ---- */

static inline enum vcube_refusal vcube_plant_row(const struct vcube_plant *plant, size_t station, size_t *start, size_t *length)
{
    return (enum vcube_refusal)vcube_row(plant->wiring, plant->n, plant->table, plant->table_length, station, start, length);
}

static inline enum vcube_refusal vcube_plant_mend(struct vcube_plant *plant, uint8_t *report, size_t report_length, size_t *changes)
{
    return (enum vcube_refusal)vcube_mend(plant->wiring, plant->n, plant->table, plant->table_length, report, report_length, changes);
}

/* A station that was replaced is live again: it gets a fresh line (vcube_board_fresh), and nobody suspects it. Only between two rounds. */
static inline enum vcube_refusal vcube_plant_bring_back(struct vcube_plant *plant, size_t station)
{
    const size_t length = station < plant->n ? VCUBE_LINE_LENGTH(plant->n) : 0;
    uint8_t *line = length ? vcube_plant_line(plant, station) : plant->table;
    const enum vcube_refusal error = (enum vcube_refusal)vcube_board_fresh(plant->wiring, plant->n, station, line, length);
    size_t i;

    for (i = 0; !error && i < plant->n; i++)
        vcube_plant_line(plant, i)[VCUBE_HEAD + station] = 0;
    return error;
}

/* ---- Who tests whom, on the cube ---- */

static inline enum vcube_refusal vcube_plant_assignment(const struct vcube_plant *plant, size_t station, uint8_t *list, size_t list_length,
                                                        size_t *count)
{
    return (enum vcube_refusal)vcube_assignment(plant->n, plant->table, plant->table_length, station, list, list_length, count);
}

static inline enum vcube_refusal vcube_plant_slot(const struct vcube_plant *plant, size_t station, size_t *tests, size_t *most)
{
    return (enum vcube_refusal)vcube_slot(plant->n, plant->table, plant->table_length, station, tests, most);
}

/* ---- Saving, on the cube ---- */

static inline enum vcube_refusal vcube_plant_save(const struct vcube_plant *plant, uint8_t *saved, size_t saved_length)
{
    return (enum vcube_refusal)vcube_save(plant->n, plant->table, plant->table_length, plant->rounds, plant->tests, saved, saved_length);
}

#ifdef __cplusplus
}
#endif

#endif
