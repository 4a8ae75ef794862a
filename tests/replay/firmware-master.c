/* The bus master's firmware in one turn, so that its instructions can be counted: firmware-master turn STEPS, where board 0 has the turn, tests
 * board 1 and exchanges with it, and the first STEPS steps are made; by the last one the entry is made and the next turn granted. With a further
 * word it prints how many bytes of the stack they take, and how many a struct vcube_master has. It gives 0 if all was as expected. tests/slots
 * counts the instructions. */
#define _GNU_SOURCE
#include "firmware.h"

#define FRAME(kind, sender, receiver, length) {VCUBE_FRAME_IDENTIFIER(kind, sender, receiver, 1), length, {0}}
#define GRANT(number, granted) VCUBE_FRAME_IDENTIFIER(VCUBE_FRAME_GRANT, 0, granted, number)

static const struct step heard[] = {
    {FRAME(VCUBE_FRAME_TEST, 0, 1, 0), 0},
    {FRAME(VCUBE_FRAME_REPLY, 1, 0, 8), 0},
    {FRAME(VCUBE_FRAME_EXCHANGE, 0, 1, 8), GRANT(2, 1)},
};

static struct vcube_master master;

static void firmware_step(void)
{
    vcube_master_step(&master, &cable);
}

/* The master starts, and grants the first turn. */
static bool begin(void)
{
    static const struct step grants = {{0, 0, {0}}, GRANT(1, 0)};
    const struct vcube_master_settings settings = {VCUBE_WIRING_CUBE, BOARDS, VCUBE_TIMES_USUAL, true, NULL, NULL, NULL, NULL, NULL};

    if (vcube_master_start(&master, &settings))
        return false;
    make_step(&grants);
    return !is_wrong;
}

int main(int count, char **words)
{
    const size_t all = sizeof heard / sizeof *heard;
    const size_t steps_made = count > 2 ? strtoul(words[2], NULL, 10) : all + 1;

    if (steps_made > all || strcmp(words[1], "turn") != 0 || !begin())
        return 2;
    make_steps(heard, steps_made, count > 3, sizeof master);
    return judged(master.entries == (steps_made == all) && !vcube_master_has_stopped(&master));
}
