/* What board.c and master.c share: numbers, moments and frames. */
#ifndef VCUBE_NODE_SHARED_H
#define VCUBE_NODE_SHARED_H

#include "node.h"

/* Without frames and without anything else to do, a step is made after so many milliseconds. */
#define IDLE_TIME 1000

/* A step handles so many frames at most: so it ends although frames come without end. */
#define MOST_FRAMES 64

/* Whether a comes after b. Numbers and moments go on after 4,294,967,295 with 0, so what counts is their difference. */
static inline bool is_after(uint32_t a, uint32_t b)
{
    return a != b && (uint32_t)(a - b) < UINT32_C(0x80000000);
}

static inline bool is_reached(uint32_t moment, uint32_t now)
{
    return !is_after(moment, now);
}

static inline uint32_t earlier(uint32_t a, uint32_t b)
{
    return is_after(a, b) ? b : a;
}

/* The number next to `near` that has these low 12 bits. */
static inline uint32_t whole_number(uint32_t low, uint32_t near)
{
    const uint32_t from = near - 0x800;

    return from + ((low - from) & 0xfff);
}

static inline void put_number(uint8_t *data, uint32_t number)
{
    data[0] = (uint8_t)(number >> 24);
    data[1] = (uint8_t)(number >> 16);
    data[2] = (uint8_t)(number >> 8);
    data[3] = (uint8_t)number;
}

static inline uint32_t number_in(const uint8_t *data)
{
    return (uint32_t)data[0] << 24 | (uint32_t)data[1] << 16 | (uint32_t)data[2] << 8 | data[3];
}

/* Whether the master may have entered this of a plant of n boards (Rule Entered). */
static inline bool is_entry(size_t n, uint8_t kind, uint8_t station, uint8_t tested, uint8_t outcome)
{
    const bool has_tested = tested < n && tested != station;

    if (station >= n)
        return false;
    switch (outcome) {
    case VCUBE_OUTCOME_PASS_FINISHED:
        return kind == VCUBE_KIND_TURN && tested == VCUBE_NO_STATION;
    case VCUBE_OUTCOME_EXCHANGED:
    case VCUBE_OUTCOME_TOLD:
    case VCUBE_OUTCOME_TESTED_TOLD:
        return kind == VCUBE_KIND_TURN && has_tested;
    case VCUBE_OUTCOME_NO_REPLY:
        return (kind == VCUBE_KIND_TURN || kind == VCUBE_KIND_LATE_TURN) && has_tested;
    case VCUBE_OUTCOME_CRASH:
        return kind == VCUBE_KIND_CRASH && tested == VCUBE_NO_STATION;
    default:
        return false;
    }
}

/* A frame without data yet. */
static inline struct vcube_frame frame_of(enum vcube_frame_kind kind, size_t sender, size_t receiver, uint32_t number)
{
    const struct vcube_frame frame = {VCUBE_FRAME_IDENTIFIER(kind, sender, receiver, number), 0, {0}};

    return frame;
}

static inline void send_frame(const struct vcube_cable *cable, const struct vcube_frame *frame)
{
    cable->send(cable->context, frame);
}

/* Whether all frames that were handed over have gone out. */
static inline bool have_gone_out(const struct vcube_cable *cable)
{
    return !cable->sent || cable->sent(cable->context);
}

#endif
