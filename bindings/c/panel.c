/* Saving a plant to the panel, by the C interface of the library: the four entries that docs/RULES.md, "A worked run", begins with are run,
 * and the plant is saved, loaded by a panel that does not know its size, and driven on. Then a saved plant of another panel, the same one
 * cut off, and an old file of edition 1, which is converted before it is loaded. Of each plant the panel says which boards are not live, who
 * told them to leave and how many rounds ago. */

#include "vcube_plant.h"

#include <inttypes.h>
#include <stdio.h>
#include <string.h>

#define N 4
#define MOST 64

/* 0 suspects 1, exchanges with 2, then with 3; 1 tests 0, is told and leaves. */
static const uint8_t example[] = {
    VCUBE_KIND_LATE_TURN, 0,
    VCUBE_KIND_TURN, 0,
    VCUBE_KIND_TURN, 0,
    VCUBE_KIND_TURN, 1,
};

/* A plant of 4 after 384 rounds. Board 1 left long ago, when nobody recorded who told it; board 2 crashed 2 rounds ago. */
static const uint8_t elsewhere[] = {
    VCUBE_TAG_OPENING, 0, 1, VCUBE_EDITION,
    VCUBE_TAG_SIZE, 0, 1, 4,
    VCUBE_TAG_TALLY, 0, 8, 0, 0, 1, 128, 0, 0, 8, 0,
    VCUBE_TAG_LINE, 0, 11, 0, VCUBE_STATUS_LIVE, 1, 0, 0, VCUBE_TOLD_BY_NONE, 0, 0, 1, 1, 0,
    VCUBE_TAG_LINE, 0, 11, 1, VCUBE_STATUS_TOLD, 1, 0, 0, VCUBE_TOLD_NOT_RECORDED, 255, 0, 0, 0, 0,
    VCUBE_TAG_LINE, 0, 11, 2, VCUBE_STATUS_CRASHED, 1, 0, 0, VCUBE_TOLD_BY_NONE, 2, 0, 1, 0, 0,
    VCUBE_TAG_LINE, 0, 11, 3, VCUBE_STATUS_LIVE, 1, 0, 0, VCUBE_TOLD_BY_NONE, 0, 0, 1, 1, 0,
};

/* A plant of 3 as edition 1 has it, its fields in another order, after 256 rounds: board 0 was told to leave, board 2 crashed. */
static const uint8_t stored[] = {
    VCUBE_TAG_LINE, 0, 8, 2, VCUBE_STATUS_CRASHED, 1, 0, 0, 0, 0, 0,
    VCUBE_TAG_LINE, 0, 8, 0, VCUBE_STATUS_TOLD, 1, 0, 0, 0, 0, 0,
    VCUBE_TAG_TALLY, 0, 8, 0, 0, 1, 0, 0, 0, 4, 0,
    VCUBE_TAG_LINE, 0, 8, 1, VCUBE_STATUS_LIVE, 1, 0, 0, 1, 0, 1,
    VCUBE_TAG_SIZE, 0, 1, 3,
};

/* Two plants, each in a memory for any size. */
static uint8_t running_memory[VCUBE_TABLE_LENGTH(MOST)], panel_memory[VCUBE_TABLE_LENGTH(MOST)];
static struct vcube_plant running, panel;
static uint8_t saved[VCUBE_SAVED_LENGTH(MOST)], other[VCUBE_SAVED_LENGTH(MOST)];

/* Says which call was refused; gives whether it was. */
static int refused(const char *call, unsigned number)
{
    if (number != VCUBE_ACCEPTED)
        printf("%s: refused with %u\n", call, number);
    return number != VCUBE_ACCEPTED;
}

/* A fresh plant after the four entries above. */
static int run_example(void)
{
    uint8_t sheet[2 * sizeof example];
    size_t taken;

    return refused("fresh table", vcube_plant_fresh(&running, VCUBE_WIRING_CUBE, N, running_memory, sizeof running_memory)) ||
           refused("run", vcube_plant_run(&running, example, sizeof example, sheet, sizeof sheet, &taken));
}

static int save(const struct vcube_plant *plant, uint8_t *buffer)
{
    return refused("save", vcube_plant_save(plant, buffer, VCUBE_SAVED_LENGTH(plant->n)));
}

/* Into the panel's memory. The size is asked for first, as a panel does that gets its memory by it. */
static int load(const uint8_t *file, size_t length)
{
    size_t n;

    return refused("saved size", vcube_saved_size(file, length, &n)) ||
           refused("load", vcube_plant_load(&panel, VCUBE_WIRING_CUBE, panel_memory, VCUBE_TABLE_LENGTH(n), file, length));
}

/* Converts an old file and loads what it becomes. The length is asked for first. */
static int convert(const uint8_t *file, size_t length)
{
    size_t converted;

    return refused("converted length", vcube_converted_length(file, length, &converted)) ||
           refused("convert", vcube_convert(file, length, saved, converted)) || load(saved, converted);
}

/* The rest of the round. The last granted number is not saved: the bus master begins anew. */
static int drive(struct vcube_plant *plant)
{
    size_t grants;

    return refused("drive", vcube_plant_drive(plant, &grants));
}

/* Why a board is not live, from its line. */
static void print_why(const uint8_t *line)
{
    if (vcube_line_status(line) == VCUBE_STATUS_CRASHED)
        printf("crashed");
    else if (vcube_line_status(line) == VCUBE_STATUS_ALONE)
        printf("left because alone");
    else if (vcube_line_told_by(line) == VCUBE_TOLD_NOT_RECORDED)
        printf("was told to leave, by whom is not recorded");
    else
        printf("was told to leave by board %d", vcube_line_told_by(line));
}

/* How long ago that was: the count stops at 255. */
static void print_how_long_ago(const uint8_t *line)
{
    const uint8_t rounds = vcube_line_rounds_ago(line);

    if (rounds == 0)
        printf("in this round");
    else
        printf("%d round%s ago%s", rounds, rounds == 1 ? "" : "s", rounds == 255 ? " or more" : "");
}

/* The tally, and a line for each board that is not live. */
static void print_plant(const char *what, const struct vcube_plant *plant)
{
    printf("%s: boards %zu rounds %" PRIu32 " tests %" PRIu32 "\n", what, plant->n, plant->rounds, plant->tests);
    for (size_t station = 0; station < plant->n; station++) {
        if (vcube_plant_is_live(plant, station))
            continue;
        printf("board %zu ", station);
        print_why(vcube_plant_line(plant, station));
        printf(", ");
        print_how_long_ago(vcube_plant_line(plant, station));
        printf("\n");
    }
}

/* Saves the plant and prints the saved plant in hexadecimal, a line for each field. */
static int print_saved(const struct vcube_plant *plant)
{
    size_t length = VCUBE_SAVED_LENGTH(plant->n), next = 0;

    if (save(plant, saved))
        return 1;
    printf("saved: bytes %zu\n", length);
    for (size_t k = 0; k < length; k++) {
        if (k == next)
            next = k + 3 + 256 * (size_t)saved[k + 1] + saved[k + 2];
        printf("%02x%s", saved[k], k + 1 == next ? "\n" : " ");
    }
    return 0;
}

/* The plant that ran on and the one that was saved, loaded and then ran on are the same. */
static int same(void)
{
    if (save(&running, other) || save(&panel, saved))
        return 0;
    if (running.n == panel.n && memcmp(other, saved, VCUBE_SAVED_LENGTH(panel.n)) == 0)
        return 1;
    printf("the loaded plant did not run on as the other one\n");
    return 0;
}

int main(void)
{
    if (run_example() || print_saved(&running) || load(saved, VCUBE_SAVED_LENGTH(N)))
        return 1;
    print_plant("loaded", &panel);
    if (drive(&running) || drive(&panel) || !same())
        return 1;
    print_plant("driven", &panel);
    if (print_saved(&panel) || load(elsewhere, sizeof elsewhere))
        return 1;
    print_plant("loaded from elsewhere", &panel);
    if (print_saved(&panel) || !load(elsewhere, sizeof elsewhere - 1) || !load(stored, sizeof stored))
        return 1;
    if (convert(stored, sizeof stored))
        return 1;
    print_plant("converted and loaded", &panel);
    return print_saved(&panel) || !convert(elsewhere, sizeof elsewhere) || fflush(stdout) != 0 || ferror(stdout);
}
