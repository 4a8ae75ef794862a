/* A turn of firmware-board.c or firmware-master.c, on a cable that is an array of frames: each step hears one of them. The clock stands still. */
#ifndef FIRMWARE_H
#define FIRMWARE_H

#include "node.h"
#include "stack.h"

#include <stdio.h>
#include <stdlib.h>

#define BOARDS 64

/* What a step hears, and the identifier of the frame that it has to send, or 0. */
struct step {
    struct vcube_frame heard;
    uint32_t sent;
};

static const struct vcube_frame *coming;
static uint32_t expected;
static bool is_wrong;

static void take_sent(void *context, const struct vcube_frame *frame)
{
    (void)context;
    if (frame->identifier != expected)
        is_wrong = true;
    expected = 0;
}

static bool give_coming(void *context, struct vcube_frame *frame, uint32_t until)
{
    (void)context;
    (void)until;
    if (!coming)
        return false;
    *frame = *coming;
    coming = NULL;
    return true;
}

static uint32_t give_time(void *context)
{
    (void)context;
    return 0;
}

static bool have_all_gone_out(void *context)
{
    (void)context;
    return true;
}

static const struct vcube_cable cable = {NULL, take_sent, give_coming, give_time, have_all_gone_out};

/* The board or master makes a step on the cable. */
static void firmware_step(void);

static void make_step(const struct step *step)
{
    coming = step->heard.identifier ? &step->heard : NULL;
    expected = step->sent;
    firmware_step();
    if (coming || expected)
        is_wrong = true;
}

static const struct step *turn;
static size_t steps;

static void make_turn(void)
{
    for (size_t i = 0; i < steps; i++)
        make_step(&turn[i]);
}

/* Makes so many steps of a turn. If it measures, it prints how much of the stack they take, and the size of what the firmware keeps. */
static void make_steps(const struct step *all, size_t count, bool measures, size_t kept)
{
    turn = all;
    steps = count;
    if (measures)
        printf("%zu %zu\n", stack_taken(make_turn), kept);
    else
        make_turn();
}

/* What main gives. */
static int judged(bool is_as_expected)
{
    if (!is_as_expected || is_wrong)
        fprintf(stderr, "a frame or an entry is not as expected\n");
    return !is_as_expected || is_wrong;
}

#endif
