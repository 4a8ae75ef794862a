/* A board's firmware in one turn, so that its instructions can be counted: firmware-board ROLE STEPS, where the board tests another or is tested
 * (ROLE: tests, tested), they exchange, and the first STEPS steps of the turn are made. With a further word it prints how many bytes of the stack
 * they take, and how many a struct vcube_node has. It gives 0 if all was as expected. tests/slots counts the instructions. */
#define _GNU_SOURCE
#include "firmware.h"

#define TESTER 0
#define TESTED 1

/* The master's frame: the turn of this number is granted, and the entry before it is a turn in which two boards exchanged. */
#define GRANT(number, granted, station, tested) \
    {VCUBE_FRAME_IDENTIFIER(VCUBE_FRAME_GRANT, 0, granted, number), 7, \
     {0, 0, 0, number, 16 * VCUBE_KIND_TURN + VCUBE_OUTCOME_EXCHANGED, station, tested}}
#define FRAME(kind, sender, receiver, length) {VCUBE_FRAME_IDENTIFIER(kind, sender, receiver, 2), length, {0}}
#define SENT(kind, sender, receiver) VCUBE_FRAME_IDENTIFIER(kind, sender, receiver, 2)

/* Entry 1 was made by two others. Turn 2 is that of the tester; the next one is another's. */
#define FIRST GRANT(2, TESTER, 4, 5)
#define LAST GRANT(3, 4, TESTER, TESTED)

static const struct step tests[] = {
    {FIRST, SENT(VCUBE_FRAME_TEST, TESTER, TESTED)},
    {FRAME(VCUBE_FRAME_REPLY, TESTED, TESTER, 8), SENT(VCUBE_FRAME_EXCHANGE, TESTER, TESTED)},
    {LAST, 0},
};

static const struct step tested[] = {
    {FIRST, 0},
    {FRAME(VCUBE_FRAME_TEST, TESTER, TESTED, 0), SENT(VCUBE_FRAME_REPLY, TESTED, TESTER)},
    {FRAME(VCUBE_FRAME_EXCHANGE, TESTER, TESTED, 8), 0},
    {LAST, 0},
};

static const struct role {
    const char *name;
    size_t own;
    const struct step *turn;
    size_t steps;
} roles[] = {
    {"tests", TESTER, tests, sizeof tests / sizeof *tests},
    {"tested", TESTED, tested, sizeof tested / sizeof *tested},
};

static struct vcube_node node;

static void firmware_step(void)
{
    vcube_node_step(&node, &cable);
}

/* The board starts, and hears that no entry is made yet. */
static bool begin(size_t own)
{
    static const struct step hears_none = {{VCUBE_FRAME_IDENTIFIER(VCUBE_FRAME_ENTERED, 0, 0, 1), 7, {0, 0, 0, 1}}, 0};
    const struct vcube_node_settings settings = {VCUBE_WIRING_CUBE, BOARDS, own, VCUBE_TIMES_USUAL, 500, NULL, NULL};

    if (vcube_node_start(&node, &settings))
        return false;
    make_step(&hears_none);
    return !is_wrong && node.has_line;
}

/* Entry 1 is in force by the first step of the turn, entry 2 by the last. */
static uint32_t entries_after(const struct role *role, size_t count)
{
    return count == role->steps ? 2 : count > 0;
}

int main(int count, char **words)
{
    const size_t steps_made = count > 2 ? strtoul(words[2], NULL, 10) : 0;

    for (const struct role *role = roles; count > 2 && role < roles + sizeof roles / sizeof *roles; role++) {
        if (strcmp(words[1], role->name) != 0)
            continue;
        if (steps_made > role->steps || !begin(role->own))
            return 2;
        make_steps(role->turn, steps_made, count > 3, sizeof node);
        return judged(node.entries == entries_after(role, steps_made));
    }
    return 2;
}
