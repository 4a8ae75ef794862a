/* A bus master that grants the turns, by the C interface of the library: drives over a plant of 8 boards until a dead one is known by all the
 * others, and beside each drive the same round made grant by grant and turn by turn. */

#include "vcube_plant.h"

#include <inttypes.h>
#include <stdio.h>
#include <string.h>

#define N 8
#define DEAD 5
#define MOST_DRIVES 4 /* the open round, then the 3 rounds of 8 boards (Rule Worst case) */

/* 1, 4 and 7 finish their passes before there is a bus master; then 5 crashes. Nobody who has turns left in this round tests 5. */
static const uint8_t beforehand[] = {
    VCUBE_KIND_TURN, 1, VCUBE_KIND_TURN, 1, VCUBE_KIND_TURN, 1, VCUBE_KIND_TURN, 1,
    VCUBE_KIND_TURN, 4, VCUBE_KIND_TURN, 4, VCUBE_KIND_TURN, 4, VCUBE_KIND_TURN, 4,
    VCUBE_KIND_TURN, 7, VCUBE_KIND_TURN, 7, VCUBE_KIND_TURN, 7, VCUBE_KIND_TURN, 7,
    VCUBE_KIND_CRASH, DEAD,
};

/* Says which call was refused; gives whether it was. */
static int refused(const char *call, unsigned number)
{
    if (number != VCUBE_ACCEPTED)
        printf("%s: refused with %u\n", call, number);
    return number != VCUBE_ACCEPTED;
}

/* Runs a schedule; gives whether an entry was refused. */
static int run(struct vcube_plant *plant, const uint8_t *schedule, size_t length)
{
    uint8_t sheet[2 * sizeof beforehand]; /* long enough for every schedule here */
    size_t taken;

    return refused("run", vcube_plant_run(plant, schedule, length, sheet, 2 * length, &taken));
}

/* One grant and its turn; prints who was granted. */
static int grant_turn(struct vcube_plant *plant)
{
    size_t station;

    if (refused("grant", vcube_plant_grant(plant, &station)))
        return 1;
    printf(" %zu", station);
    if (refused("run", vcube_plant_enter(plant, VCUBE_KIND_TURN, station, NULL)))
        return 1;
    /* Kept only now that the turn was taken, as a drive does. */
    plant->last = station;
    return 0;
}

/* Grants turns until the round closes; how many into *grants. */
static int grant_round(struct vcube_plant *plant, size_t *grants)
{
    const uint32_t rounds = plant->rounds;

    printf("granted:");
    for (*grants = 0; plant->rounds == rounds; ++*grants)
        if (grant_turn(plant))
            return 1;
    printf("\n");
    return 0;
}

static int same(const struct vcube_plant *one, const struct vcube_plant *other)
{
    return memcmp(one->table, other->table, one->table_length) == 0 && one->rounds == other->rounds && one->tests == other->tests &&
           one->last == other->last;
}

/* A drive, and the same round turn by turn on a copy of the plant. */
static int drive(struct vcube_plant *plant)
{
    uint8_t memory[VCUBE_TABLE_LENGTH(N)];
    struct vcube_plant copy = *plant;
    size_t grants, turns;

    copy.table = memory;
    memcpy(copy.table, plant->table, plant->table_length);
    if (grant_round(&copy, &turns) || refused("drive", vcube_plant_drive(plant, &grants)))
        return 1;
    printf("drive: rounds %" PRIu32 " tests %" PRIu32 " last %zu grants %zu\n", plant->rounds, plant->tests, plant->last, grants);
    if (!same(plant, &copy) || grants != turns) {
        printf("turn by turn it is not the same\n");
        return 1;
    }
    return 0;
}

/* How many boards suspect the dead one, which does not suspect itself. */
static size_t known_by(const struct vcube_plant *plant)
{
    size_t many = 0;

    for (size_t station = 0; station < N; station++)
        many += vcube_plant_suspects(plant, station, DEAD) ? 1 : 0;
    return many;
}

int main(void)
{
    uint8_t memory[VCUBE_TABLE_LENGTH(N)];
    struct vcube_plant plant;
    size_t known = 0;

    if (refused("fresh table", vcube_plant_fresh(&plant, VCUBE_WIRING_CUBE, N, memory, sizeof memory)) ||
        run(&plant, beforehand, sizeof beforehand))
        return 1;
    for (int drives = 0; drives < MOST_DRIVES && known < N - 1; drives++) {
        if (drive(&plant))
            return 1;
        known = known_by(&plant);
        printf("%d is known by %zu of %d\n", DEAD, known, N - 1);
    }
    return known != N - 1 || fflush(stdout) != 0 || ferror(stdout);
}
