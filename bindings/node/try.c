/* Tries board.c and master.c: all boards and the master in one process, on a cable that loses, doubles and delays frames, with a clock of its own.
 * All that happens in a run follows from its number (seed): boards are killed, stopped at chosen moments and started again, the master too, the
 * cable is out for a while, frames come from nobody.
 *
 * Each line that a board puts in force is compared with that of the master's table after the same entry; the entries, run on a fresh table, must
 * give the master's; and once the wait is over (RULES, "Bounds of the wait") each live board's own line must suspect just those who are not live.
 * So it prints one line of counts, or the first difference with its seed.
 *
 * Linked with early.c, by which a board can be given the order of groups of the early release. */

#include "node.h"

#include <stdarg.h>
#include <stdio.h>
#include <stdlib.h>
#include <string.h>

#define MOST_BOARDS VCUBE_MOST_STATIONS
#define MOST_PARTS (MOST_BOARDS + 1)
#define MOST_ENTRIES 4000
#define MOST_TABLE VCUBE_TABLE_LENGTH(MOST_BOARDS)
#define INBOX 1024
#define MOST_EVENTS 65536
#define MOST_PLANS 8
#define MILLISECOND UINT64_C(1000)
#define NEVER UINT64_MAX
#define FRAME_TIME 130                  /* microseconds of a frame on the cable */
#define QUIET 500                       /* milliseconds */
#define MOST_UNSAID (400 * MILLISECOND) /* the cable is out, and the master has not said so */
#define MOST_PAUSE (1000 * MILLISECOND) /* microseconds without an entry, where the plant has to go on */

#define TABLE_OF(number) history[number]

enum action { NOTHING, KILL, STOP, START_AGAIN };

/* In place of a frame's kind: the part asks for a frame. */
#define ASKS_FOR_FRAME 31

/* Something that happens to one part: at its count-th frame of this kind, just before or just behind the sending; as it asks for a frame; or at a
 * moment, if kind is 0. */
struct plan {
    enum action action;
    size_t part;
    uint32_t kind;
    unsigned count;
    bool is_behind;
    uint64_t moment;
    uint64_t duration;
};

/* A board, or the master, whose number is n. */
struct part {
    struct vcube_frame inbox[INBOX];
    size_t first;
    size_t count;
    uint64_t wake;
    uint64_t stopped_until;
    bool is_killed;
    bool is_busy;
    bool was_stopped;
    unsigned sent[32];
    bool has_entries;
    size_t entries;                     /* in force at the board, since it was started */
};

struct event {
    uint64_t moment;
    size_t to;
    struct vcube_frame frame;
};

/* The settings of a run, all by its seed. */
struct scene {
    uint64_t seed;
    size_t wiring;
    size_t n;
    unsigned loss;                      /* per cent, at each receiver by itself */
    bool is_lost_at_all;                /* or at all receivers at once */
    unsigned doubled;                   /* per cent */
    unsigned delayed;                   /* per cent */
    uint64_t delay;                     /* microseconds at most */
    unsigned stray;                     /* per cent of frames behind which one from nobody comes */
    bool is_by_kind;                    /* of frames that wait for the cable the lowest identifier goes first, as on CAN; else the oldest */
    bool tells_sent;                    /* the controller says what has gone out */
    uint64_t out_from;                  /* the cable is out */
    uint64_t out_until;
    size_t early;                       /* this board has the early release's order; or n */
    size_t liar;                        /* this board sends wrong rows, in frames of kind `lie`; or n */
    uint32_t lie;
    size_t undead;                      /* this board replies although it was entered as crashed; or n */
    bool kills_master;
    bool is_brownout;                   /* all boards lose power at once, and start again */
    bool is_saved_old;                  /* it is started again from an old state */
    bool stops_at_fault;
    uint32_t first_number;              /* entries before the run, to see the numbers go round */
    size_t entries;                     /* so many are made */
};

static struct scene scene;
static struct part parts[MOST_PARTS];
static struct vcube_node nodes[MOST_BOARDS];
static struct vcube_master master;
static struct vcube_node_settings node_settings[MOST_BOARDS];
static struct vcube_master_settings master_settings;
static struct plan plans[MOST_PLANS];
static size_t plan_count;

static struct event events[MOST_EVENTS];
static size_t first_event;
static size_t event_count;
static uint64_t clock_now;
static uint64_t soonest;                /* before this moment nothing happens but that frames come; 0 if it has to be looked for */
static uint64_t cable_free;
static struct vcube_frame held[MOST_EVENTS];
static size_t held_from[MOST_EVENTS];
static size_t held_count;
static struct vcube_frame waiting[MOST_EVENTS];
static size_t waiting_from[MOST_EVENTS];
static size_t waiting_count;
static uint64_t random_state;

/* What the master made: its table after each entry, and the entries. */
static uint8_t history[MOST_ENTRIES + 1][MOST_TABLE];
static struct vcube_entry entries[MOST_ENTRIES + 1];
static bool must_know[MOST_ENTRIES + 1];
static size_t made;
static uint8_t saved[VCUBE_MASTER_SAVED_LENGTH(MOST_BOARDS)];
static uint8_t saved_old[VCUBE_MASTER_SAVED_LENGTH(MOST_BOARDS)];
static bool has_saved;
static bool is_save_lost;
static long waited_rounds;              /* closed since the wait began; -1 while it has not begun */

/* The outcomes, as bits, of the ends that the boards sent in the open turn. */
static unsigned ends_said[MOST_BOARDS];

/* The first wrong test that a board of the early release sent, and the first fault that the master named. */
static bool has_wrong;
static uint8_t wrong_tested;
static uint8_t wrong_should;
static uint32_t wrong_turn;
static bool has_fault;
static struct vcube_fault first_fault;
static bool has_lied;
static bool has_replied_dead;

/* The last probe that was on the cable, and the answers to it. */
static uint8_t last_probe;
static unsigned answers;

/* Counts over all runs. */
static struct {
    unsigned long runs, entries, records, frames, asks, lates, crashes, lefts, faults, behind, killed, stopped, again, masters, outages, known,
        named, silences, off, stopped_at_fault;
    unsigned long lates_without_cause, crashes_without_cause;
} counts;

static void fail(const char *format, ...)
{
    va_list arguments;

    printf("seed %llu (n %zu, wiring %zu, loss %u %%), at %llu us, entry %zu: ", (unsigned long long)scene.seed, scene.n, scene.wiring, scene.loss,
           (unsigned long long)clock_now, made);
    va_start(arguments, format);
    vprintf(format, arguments);
    va_end(arguments);
    printf("\n");
    exit(1);
}

static uint64_t random_number(void)
{
    uint64_t x = random_state += UINT64_C(0x9e3779b97f4a7c15);

    x = (x ^ x >> 30) * UINT64_C(0xbf58476d1ce4e5b9);
    x = (x ^ x >> 27) * UINT64_C(0x94d049bb133111eb);
    return x ^ x >> 31;
}

static uint64_t below(uint64_t limit)
{
    return limit ? random_number() % limit : 0;
}

static bool with_chance(unsigned per_cent)
{
    return per_cent && below(100) < per_cent;
}

/* ---- The early release: early.c ---- */

uint8_t __real_vcube_board_next(size_t wiring, size_t n, size_t board, const uint8_t *line, size_t line_length, size_t *tested);
int has_early_order(size_t wiring, size_t board);

int has_early_order(size_t wiring, size_t board)
{
    return board == scene.early && wiring == VCUBE_WIRING_CUBE;
}

/* ---- The cable ---- */

/* The frames under way stand in the order in which they come; of those that come at one moment the first sent is first. */
static void push_event(uint64_t moment, size_t to, const struct vcube_frame *frame)
{
    size_t at;

    if (first_event + event_count == MOST_EVENTS) {
        memmove(events, &events[first_event], event_count * sizeof events[0]);
        first_event = 0;
    }
    if (event_count == MOST_EVENTS)
        fail("too many frames under way");
    for (at = first_event + event_count++; at > first_event && events[at - 1].moment > moment; at--)
        events[at] = events[at - 1];
    events[at].moment = moment;
    events[at].to = to;
    events[at].frame = *frame;
}

static struct event pop_event(void)
{
    event_count--;
    return events[first_event++];
}

static bool is_out(void)
{
    return clock_now >= scene.out_from && clock_now < scene.out_until;
}

/* One frame on its way to one receiver. */
static void deliver(uint64_t moment, size_t to, const struct vcube_frame *frame)
{
    if (!scene.is_lost_at_all && with_chance(scene.loss))
        return;
    if (with_chance(scene.delayed))
        moment += below(scene.delay);
    push_event(moment, to, frame);
    if (with_chance(scene.doubled))
        push_event(moment + below(3 * MILLISECOND), to, frame);
}

/* Counts the answers to a probe. */
static void note_answer(const struct vcube_frame *frame)
{
    const uint32_t kind = VCUBE_FRAME_KIND(frame->identifier);

    if (kind == VCUBE_FRAME_PROBE && frame->data[0] != last_probe) {
        last_probe = frame->data[0];
        answers = 0;
    }
    answers += kind == VCUBE_FRAME_HERE && frame->data[0] == last_probe;
}

/* The cable is free: the next frame goes to all others. */
static void use_cable(void)
{
    size_t first = 0;

    for (size_t k = 1; scene.is_by_kind && k < waiting_count; k++)
        if (waiting[k].identifier < waiting[first].identifier)
            first = k;
    const struct vcube_frame frame = waiting[first];
    const size_t from = waiting_from[first];
    waiting_count--;
    memmove(&waiting[first], &waiting[first + 1], (waiting_count - first) * sizeof waiting[0]);
    memmove(&waiting_from[first], &waiting_from[first + 1], (waiting_count - first) * sizeof waiting_from[0]);
    counts.frames++;
    note_answer(&frame);
    cable_free = clock_now + FRAME_TIME;
    if (scene.is_lost_at_all && with_chance(scene.loss))
        return;
    for (size_t to = 0; to <= scene.n; to++)
        if (to != from)
            deliver(cable_free, to, &frame);
}

static void broadcast(size_t from, const struct vcube_frame *frame)
{
    if (waiting_count == MOST_EVENTS)
        fail("too many frames wait for the cable");
    waiting[waiting_count] = *frame;
    waiting_from[waiting_count++] = from;
    soonest = 0;
}

/* A frame from nobody: bytes at random, or a frame of somebody with another length. */
static void send_stray(const struct vcube_frame *frame)
{
    struct vcube_frame stray = *frame;

    if (below(2)) {
        stray.identifier = (uint32_t)below(UINT64_C(1) << 29);
        for (size_t k = 0; k < sizeof stray.data; k++)
            stray.data[k] = (uint8_t)below(256);
        stray.length = (uint8_t)below(9);
    } else {
        stray.length = (uint8_t)((stray.length + 1 + below(8)) % 9);
    }
    broadcast(MOST_PARTS, &stray);
}

static void run_until(uint64_t moment);

static size_t number_of(const struct part *part)
{
    return (size_t)(part - parts);
}

/* What is planned for this part at this frame. While it is stopped all others go on. */
static void do_plans(struct part *part, uint32_t kind, bool is_behind)
{
    for (size_t k = 0; k < plan_count; k++) {
        struct plan *plan = &plans[k];

        if (plan->action == NOTHING || plan->kind != kind || plan->part != number_of(part) || plan->is_behind != is_behind
            || plan->count != part->sent[kind])
            continue;
        if (plan->action == KILL) {
            part->is_killed = true;
            counts.killed++;
        } else {
            counts.stopped++;
            part->was_stopped = true;
            plan->action = NOTHING;
            run_until(clock_now + plan->duration);
        }
        plan->action = NOTHING;
    }
}

/* Keeps what the ends of the open turn said. */
static void note_end(const struct vcube_frame *frame)
{
    static const uint8_t outcomes[] = {VCUBE_OUTCOME_PASS_FINISHED, VCUBE_OUTCOME_TOLD, VCUBE_OUTCOME_TESTED_TOLD, VCUBE_OUTCOME_EXCHANGED,
                                       VCUBE_OUTCOME_NO_REPLY};
    const uint32_t kind = VCUBE_FRAME_KIND(frame->identifier);

    if (kind >= VCUBE_FRAME_FINISHED && kind <= VCUBE_FRAME_NO_REPLY
        && VCUBE_FRAME_NUMBER(frame->identifier) == ((scene.first_number + made + 1) & 0xfff))
        ends_said[VCUBE_FRAME_SENDER(frame->identifier)] |= 1u << outcomes[kind - VCUBE_FRAME_FINISHED];
}

/* Keeps the first frame of the granted board of the early release by which it tests another board than the table says. */
static void note_wrong_test(const struct vcube_frame *frame)
{
    const uint32_t kind = VCUBE_FRAME_KIND(frame->identifier);
    const uint8_t i = VCUBE_FRAME_SENDER(frame->identifier);
    const size_t length = VCUBE_LINE_LENGTH(scene.n);
    uint8_t tested = VCUBE_NO_STATION;
    size_t should;

    if (has_wrong || i != scene.early || (kind != VCUBE_FRAME_TEST && kind != VCUBE_FRAME_FINISHED)
        || VCUBE_FRAME_NUMBER(frame->identifier) != ((scene.first_number + made + 1) & 0xfff))
        return;
    if (kind == VCUBE_FRAME_TEST)
        tested = VCUBE_FRAME_RECEIVER(frame->identifier);
    if (__real_vcube_board_next(scene.wiring, scene.n, i, &TABLE_OF(made)[i * length], length, &should) || should == tested)
        return;
    has_wrong = true;
    wrong_tested = tested;
    wrong_should = (uint8_t)should;
    wrong_turn = scene.first_number + (uint32_t)made + 1;
}

static void part_send(void *context, const struct vcube_frame *frame)
{
    struct part *part = context;
    const uint32_t kind = VCUBE_FRAME_KIND(frame->identifier);
    struct vcube_frame sent = *frame;

    part->sent[kind]++;
    do_plans(part, kind, false);
    if (part->is_killed)
        return;
    counts.asks += kind == VCUBE_FRAME_ASK;
    if (number_of(part) < scene.n && nodes[number_of(part)].has_line && nodes[number_of(part)].line[0] != VCUBE_STATUS_LIVE)
        fail("board %zu is not live, and sends a frame of kind %u", number_of(part), (unsigned)kind);
    if (number_of(part) == scene.liar && kind == scene.lie) {
        const size_t k = (scene.liar + 1) % scene.n;

        sent.data[k / 8] = (uint8_t)(sent.data[k / 8] ^ 1u << k % 8);
        has_lied = true;
    }
    note_wrong_test(&sent);
    note_end(&sent);
    if (is_out()) {
        if (scene.tells_sent && held_count < MOST_EVENTS) {
            held[held_count] = sent;
            held_from[held_count++] = number_of(part);
        }
    } else {
        broadcast(number_of(part), &sent);
        if (with_chance(scene.stray))
            send_stray(&sent);
    }
    do_plans(part, kind, true);
}

static bool part_receive(void *context, struct vcube_frame *frame, uint32_t until)
{
    struct part *part = context;

    (void)until;
    part->sent[ASKS_FOR_FRAME]++;
    do_plans(part, ASKS_FOR_FRAME, false);
    if (part->is_killed || !part->count)
        return false;
    *frame = part->inbox[part->first];
    part->first = (part->first + 1) % INBOX;
    part->count--;
    return true;
}

/* The clock of all parts begins shortly before it goes round. */
static uint32_t moment_now(void)
{
    return (uint32_t)(clock_now / MILLISECOND) - 700;
}

static uint32_t part_now(void *context)
{
    (void)context;
    return moment_now();
}

static bool part_sent(void *context)
{
    (void)context;
    return !is_out();
}

static struct vcube_cable cable_of(struct part *part)
{
    return (struct vcube_cable){part, part_send, part_receive, part_now, scene.tells_sent ? part_sent : NULL};
}

/* ---- What is compared ---- */

static size_t index_of(uint32_t number)
{
    return (size_t)(uint32_t)(number - scene.first_number);
}

/* Whether the line of a live board suspects just those who are not live in the table after this entry. */
static bool knows(const uint8_t *line, size_t number)
{
    for (size_t k = 0; k < scene.n; k++)
        if (line[VCUBE_HEAD + k] != (TABLE_OF(number)[k * VCUBE_LINE_LENGTH(scene.n)] != VCUBE_STATUS_LIVE))
            return false;
    return true;
}

static void node_in_force(void *context, uint32_t number, const uint8_t *line, size_t length)
{
    const size_t k = number_of(context);
    const size_t e = index_of(number);

    counts.records++;
    if (parts[k].has_entries && e <= parts[k].entries)
        fail("board %zu had %zu entries in force, and now %zu", k, parts[k].entries, e);
    parts[k].has_entries = true;
    parts[k].entries = e;
    if (e > made)
        fail("board %zu has entry %zu in force, and the master made %zu", k, e, made);
    if (length != VCUBE_LINE_LENGTH(scene.n) || memcmp(line, &TABLE_OF(e)[k * length], length) != 0)
        fail("the line of board %zu after entry %zu is not the table's", k, e);
    if (line[0] == VCUBE_STATUS_LIVE && must_know[e]) {
        counts.known++;
        if (!knows(line, e))
            fail("board %zu does not know who is dead after entry %zu, when the wait is over", k, e);
    }
}

/* The wait begins at a closing with the lamp out; a crash or a late reply ends it. */
static void count_wait(const struct vcube_entry *entry)
{
    const uint8_t *now = TABLE_OF(made);
    const size_t length = VCUBE_TABLE_LENGTH(scene.n);
    size_t by, of, rounds, turns[3];

    if (entry->kind != VCUBE_KIND_TURN)
        waited_rounds = -1;
    if (entry->closed && waited_rounds >= 0)
        waited_rounds++;
    if (entry->closed && waited_rounds < 0 && !vcube_doubt_lamp(scene.wiring, scene.n, now, length, &by, &of) && by == VCUBE_NO_STATION)
        waited_rounds = 0;
    must_know[made] = waited_rounds >= 0 && !vcube_wait(scene.wiring, scene.n, now, length, &rounds, &turns[0], &turns[1], &turns[2])
                      && (size_t)waited_rounds >= rounds;
}

/* What is entered is what the granted board sent as the end of its turn; it is late just if the board tested is live in the table before. */
static void compare_entry(const struct vcube_entry *entry, const uint8_t *before)
{
    if (entry->kind == VCUBE_KIND_CRASH)
        return;
    if (scene.undead == scene.n && !(ends_said[entry->station] >> entry->outcome & 1))
        fail("entry of board %d with outcome %d, which it did not send", entry->station, entry->outcome);
    if (entry->tested == VCUBE_NO_STATION)
        return;
    const bool is_tested_live = before[entry->tested * VCUBE_LINE_LENGTH(scene.n)] == VCUBE_STATUS_LIVE;
    if ((entry->kind == VCUBE_KIND_LATE_TURN) != (entry->outcome == VCUBE_OUTCOME_NO_REPLY && is_tested_live))
        fail("entry of kind %d of board %d with outcome %d, which tested %d", entry->kind, entry->station, entry->outcome, entry->tested);
}

static void master_save(void *context, const uint8_t *bytes, size_t length)
{
    (void)context;
    if (is_save_lost) {
        /* Killed just before the entry is saved: nobody ever hears of it. */
        is_save_lost = false;
        parts[scene.n].is_killed = true;
        return;
    }
    if (parts[scene.n].is_killed)
        return;
    if (made == MOST_ENTRIES)
        fail("more than %d entries", MOST_ENTRIES);
    memcpy(saved, bytes, length);
    has_saved = true;
    made++;
    memcpy(TABLE_OF(made), vcube_master_table(&master), VCUBE_TABLE_LENGTH(scene.n));
    entries[made] = master.last;
    if (index_of(master.last.number) != made)
        fail("entry %zu has number %u", made, (unsigned)master.last.number);
    compare_entry(&entries[made], TABLE_OF(made - 1));
    memset(ends_said, 0, sizeof ends_said);
    count_wait(&entries[made]);
}

static bool has_killed(size_t part)
{
    return parts[part].is_killed;
}

/* An entry of a board that was not killed, stopped or started again. That is right only where frames are lost or late. The cable out is no cause of a
 * crash; nor of a late reply, if the controllers tell what has gone out. */
static void without_cause(unsigned long *count, const struct vcube_entry *entry)
{
    const bool is_crash = entry->kind == VCUBE_KIND_CRASH;

    (*count)++;
    if (scene.loss == 0 && scene.delay <= 5 * MILLISECOND && !has_fault && (is_crash || scene.out_until == 0 || scene.tells_sent))
        fail("without cause: entry %d of board %d, which tested %d", entry->kind, entry->station, entry->tested);
}

static bool was_away(size_t part)
{
    return parts[part].is_killed || parts[part].was_stopped;
}

static void master_entered(void *context, const struct vcube_entry *entry)
{
    (void)context;
    if (has_killed(scene.n))
        return;
    counts.entries++;
    if (entry->kind == VCUBE_KIND_LATE_TURN) {
        counts.lates++;
        /* A tester that was stopped has the reply in its queue. A master that was stopped could not tell the tested one what it missed. */
        if (!was_away(entry->tested) && !parts[scene.n].was_stopped)
            without_cause(&counts.lates_without_cause, entry);
    }
    if (entry->kind == VCUBE_KIND_CRASH) {
        counts.crashes++;
        if (!was_away(entry->station) && !has_fault)
            without_cause(&counts.crashes_without_cause, entry);
    }
    counts.lefts += entry->outcome == VCUBE_OUTCOME_TOLD || entry->outcome == VCUBE_OUTCOME_TESTED_TOLD;
    counts.lefts += entry->status == VCUBE_STATUS_ALONE;
}

static void master_fault(void *context, const struct vcube_fault *fault)
{
    (void)context;
    counts.faults++;
    if (!has_fault)
        first_fault = *fault;
    if (!has_fault && fault->kind == VCUBE_FAULT_WRONG_TEST && fault->tested != VCUBE_NO_STATION && ends_said[fault->board])
        fail("board %d tested %d, and was named only after the end of its turn", fault->board, fault->tested);
    has_fault = true;
    if (scene.early == scene.n && scene.liar == scene.n && scene.undead == scene.n && !scene.is_saved_old)
        fail("fault %d of board %d named, which tested %d and should have tested %d; said %d, should have said %d", (int)fault->kind,
             fault->board, fault->tested, fault->should_test, fault->said, fault->should_say);
}

static void master_silence(void *context, bool is_silent)
{
    (void)context;
    counts.silences += is_silent;
}

/* ---- Time ---- */

/* When this part is to make its next step. */
static uint64_t due(const struct part *part)
{
    uint64_t moment = part->count ? clock_now : part->wake;

    if (part->is_killed || part->is_busy)
        return NEVER;
    if (moment < part->stopped_until)
        moment = part->stopped_until;
    return moment < clock_now ? clock_now : moment;
}

static uint64_t earlier_of(uint64_t a, uint64_t b)
{
    return a < b ? a : b;
}

static void step_part(struct part *part)
{
    const struct vcube_cable cable = cable_of(part);
    uint32_t wake;
    int32_t from_now;

    part->is_busy = true;
    if (number_of(part) == scene.n)
        wake = vcube_master_step(&master, &cable);
    else
        wake = vcube_node_step(&nodes[number_of(part)], &cable);
    part->is_busy = false;
    from_now = (int32_t)(wake - moment_now());
    part->wake = from_now > 0 ? (clock_now / MILLISECOND + (uint64_t)from_now) * MILLISECOND : clock_now + 100;
    soonest = part->count || waiting_count ? 0 : earlier_of(soonest, part->wake);
}

/* The board that was entered as crashed, and does not keep silent. */
static void reply_dead(const struct event *event)
{
    const uint32_t identifier = event->frame.identifier;
    struct vcube_frame frame = {0, (uint8_t)VCUBE_PACKED_LENGTH(scene.n), {0}};

    if (event->to != scene.undead || scene.undead == scene.n || VCUBE_FRAME_KIND(identifier) != VCUBE_FRAME_TEST
        || VCUBE_FRAME_RECEIVER(identifier) != scene.undead || VCUBE_FRAME_NUMBER(identifier) != ((scene.first_number + made + 1) & 0xfff)
        || TABLE_OF(made)[scene.undead * VCUBE_LINE_LENGTH(scene.n)] == VCUBE_STATUS_LIVE)
        return;
    frame.identifier = VCUBE_FRAME_IDENTIFIER(VCUBE_FRAME_REPLY, scene.undead, VCUBE_FRAME_SENDER(identifier), VCUBE_FRAME_NUMBER(identifier));
    has_replied_dead = true;
    broadcast(scene.undead, &frame);
}

/* A frame comes. A part that waits for it makes a step at once. */
static void come(const struct event *event)
{
    struct part *part = &parts[event->to];

    reply_dead(event);
    if (part->is_killed || part->count == INBOX)
        return;
    part->inbox[(part->first + part->count) % INBOX] = event->frame;
    part->count++;
    if (due(part) == clock_now)
        step_part(part);
    else
        soonest = 0;
}

static void start_part(struct part *part)
{
    part->is_killed = false;
    part->count = 0;
    part->has_entries = false;
    part->wake = clock_now;
    part->stopped_until = clock_now;
    if (number_of(part) < scene.n) {
        if (vcube_node_start(&nodes[number_of(part)], &node_settings[number_of(part)]))
            fail("board %zu cannot start", number_of(part));
    } else if (has_saved ? vcube_master_resume(&master, &master_settings, scene.is_saved_old ? saved_old : saved,
                                               VCUBE_MASTER_SAVED_LENGTH(scene.n))
                         : vcube_master_start(&master, &master_settings)) {
        fail("the master cannot start");
    }
}

static void do_plan_now(struct plan *plan)
{
    struct part *part = &parts[plan->part];
    const enum action action = plan->action;

    if (part->is_busy) {
        /* It is stopped in the middle of a step already. */
        plan->moment += MILLISECOND;
        return;
    }
    plan->action = NOTHING;
    switch (action) {
    case KILL:
        counts.killed += !part->is_killed && number_of(part) < scene.n;
        part->is_killed = true;
        break;
    case STOP:
        counts.stopped++;
        part->was_stopped = true;
        part->stopped_until = clock_now + plan->duration;
        break;
    case START_AGAIN:
        part->was_stopped = true;
        if (number_of(part) < scene.n)
            counts.again++;
        else
            counts.masters++;
        start_part(part);
        break;
    case NOTHING:
        break;
    }
}

/* What was waiting in the controllers while the cable was out. */
static void send_held(void)
{
    for (size_t k = 0; k < held_count; k++)
        broadcast(held_from[k], &held[k]);
    held_count = 0;
}

/* When something is to happen but that a frame comes; and what. */
static uint64_t look_for_soonest(struct part **next_part, struct plan **next_plan)
{
    uint64_t next = held_count ? scene.out_until : NEVER;

    if (waiting_count)
        next = earlier_of(next, clock_now > cable_free ? clock_now : cable_free);
    for (size_t k = 0; k <= scene.n; k++)
        if (due(&parts[k]) < next) {
            next = due(&parts[k]);
            *next_part = &parts[k];
        }
    for (size_t k = 0; k < plan_count; k++)
        if (plans[k].action != NOTHING && plans[k].kind == 0 && plans[k].moment < next) {
            next = plans[k].moment;
            *next_plan = &plans[k];
        }
    return next;
}

static void run_until(uint64_t moment)
{
    for (;;) {
        const uint64_t coming = event_count ? events[first_event].moment : NEVER;
        struct part *next_part = NULL;
        struct plan *next_plan = NULL;

        if (coming >= soonest || soonest == 0)
            soonest = look_for_soonest(&next_part, &next_plan);
        if (moment < coming && moment < soonest) {
            soonest = 0;
            if (clock_now < moment)
                clock_now = moment;
            return;
        }
        if (clock_now < earlier_of(coming, soonest))
            clock_now = earlier_of(coming, soonest);
        if (coming < soonest) {
            const struct event event = pop_event();

            come(&event);
            continue;
        }
        soonest = 0;
        if (next_plan)
            do_plan_now(next_plan);
        else if (next_part)
            step_part(next_part);
        else if (waiting_count && cable_free <= clock_now)
            use_cable();
        else
            send_held();
    }
}

/* ---- A run ---- */

static void plan(enum action action, size_t part, uint32_t kind, unsigned count, bool is_behind, uint64_t moment, uint64_t duration)
{
    if (plan_count < MOST_PLANS)
        plans[plan_count++] = (struct plan){action, part, kind, count, is_behind, moment, duration};
}

/* A kill or a stop, at a frame that ends a turn, at a test or a reply, as it asks for a frame, or at any moment. The master may be stopped too. */
static void plan_at_random(enum action action)
{
    static const uint32_t kinds[] = {0, 0, VCUBE_FRAME_TEST, VCUBE_FRAME_REPLY, VCUBE_FRAME_EXCHANGE, VCUBE_FRAME_FINISHED, VCUBE_FRAME_NO_REPLY,
                                     ASKS_FOR_FRAME, ASKS_FOR_FRAME};
    struct plan new_plan;

    new_plan.action = action;
    new_plan.part = below(scene.n + (action == STOP));
    new_plan.kind = kinds[below(sizeof kinds / sizeof kinds[0])];
    new_plan.count = 1 + (unsigned)below(new_plan.kind == ASKS_FOR_FRAME ? 3000 : 4);
    new_plan.is_behind = new_plan.kind != ASKS_FOR_FRAME && below(2);
    new_plan.moment = below(1500 * MILLISECOND);
    new_plan.duration = 5 + below(below(2) ? 45 : 400);
    new_plan.duration *= MILLISECOND;
    if (plan_count < MOST_PLANS)
        plans[plan_count++] = new_plan;
}

/* A scene of n boards that all keep the rules. */
static void set_size(size_t n)
{
    scene.n = scene.early = scene.liar = scene.undead = n;
}

static void choose(uint64_t seed)
{
    static const size_t sizes[] = {2, 3, 4, 5, 6, 7, 8, 8, 9, 11, 12, 16, 16, 17, 23, 32, 33, 64};
    static const unsigned losses[] = {0, 0, 5, 20};
    size_t number;

    memset(&scene, 0, sizeof scene);
    random_state = seed * UINT64_C(0x2545f4914f6cdd1d);
    scene.seed = seed;
    scene.wiring = seed % 2 ? VCUBE_WIRING_CUBE : VCUBE_WIRING_RING;
    set_size(sizes[below(sizeof sizes / sizeof sizes[0])]);
    scene.loss = losses[seed / 2 % 4];
    scene.is_lost_at_all = below(4) == 0;
    scene.doubled = below(2) ? 30 : 0;
    if (below(2)) {
        const bool is_long = below(3) == 0;

        scene.delayed = is_long ? 3 : 30;
        scene.delay = (is_long ? 60 : 5) * MILLISECOND;
    }
    scene.stray = below(4) ? 0 : 10;
    scene.is_by_kind = below(2);
    scene.tells_sent = below(2);
    scene.first_number = below(4) ? 0 : UINT32_MAX - (uint32_t)below(200);
    scene.entries = 100 + below(300) + 6 * scene.n;
    plan_count = 0;
    for (number = below(4); number; number--)
        plan_at_random(KILL);
    if (seed % 3 == 0)
        for (number = 1 + below(5); number; number--)
            plan_at_random(STOP);
    if (seed % 7 == 0) {
        const size_t part = below(scene.n);
        const uint64_t moment = below(300 * MILLISECOND);

        plan(KILL, part, 0, 0, false, moment, 0);
        plan(START_AGAIN, part, 0, 0, false, moment + below(300 * MILLISECOND), 0);
    }
    if (seed % 5 == 0) {
        scene.out_from = below(800 * MILLISECOND);
        scene.out_until = scene.out_from + (20 + below(1000)) * MILLISECOND;
        counts.outages++;
    }
    scene.kills_master = seed % 11 == 0;
    scene.is_brownout = seed % 17 == 0;
    if (seed % 8 == 1) {
        /* One board alone is stopped, again and again, where each frame takes long: its replies wait behind other frames. */
        set_size(2 + below(3));
        scene.delayed = 100;
        scene.delay = 5 * MILLISECOND;
        scene.stray = 0;
        scene.out_until = 0;
        scene.entries = 300;
        plan_count = 0;
        for (number = 0; number < MOST_PLANS; number++) {
            plan_at_random(STOP);
            plans[number].part = seed / 8 % scene.n;
            plans[number].kind = ASKS_FOR_FRAME;
            plans[number].count = 1 + (unsigned)below(3000);
            plans[number].is_behind = false;
            plans[number].duration = (22 + below(20)) * MILLISECOND;
        }
    }
}

/* A plant on a sound cable with one board that does not keep the rules. */
static void choose_fault(uint64_t seed)
{
    choose(seed);
    scene.loss = 0;
    scene.delayed = 0;
    scene.stray = 0;
    scene.out_until = 0;
    scene.kills_master = false;
    plan_count = 0;
    scene.stops_at_fault = seed / 4 % 2;
    switch (seed % 4) {
    case 0: {
        static const size_t sizes[] = {4, 8, 16, 5, 11, 32};

        scene.wiring = VCUBE_WIRING_CUBE;
        set_size(sizes[seed / 4 % 6]);
        scene.early = below(scene.n);
        break;
    }
    case 1:
        scene.liar = below(scene.n);
        scene.lie = below(2) ? VCUBE_FRAME_REPLY : VCUBE_FRAME_EXCHANGE;
        break;
    case 2:
        scene.kills_master = true;
        scene.is_saved_old = true;
        break;
    default:
        scene.undead = below(scene.n);
        plan(KILL, scene.undead, 0, 0, false, below(100 * MILLISECOND), 0);
        break;
    }
}

static void begin_run(void)
{
    event_count = held_count = waiting_count = made = 0;
    clock_now = cable_free = 0;
    waited_rounds = 0;
    has_saved = is_save_lost = has_wrong = has_fault = has_lied = has_replied_dead = false;
    memset(ends_said, 0, sizeof ends_said);
    memset(must_know, 0, sizeof must_know);
    memset(parts, 0, sizeof parts);
    if (vcube_fresh_table(scene.wiring, scene.n, TABLE_OF(0), VCUBE_TABLE_LENGTH(scene.n)))
        fail("no fresh table");
    master_settings = (struct vcube_master_settings){
        .wiring = scene.wiring, .n = scene.n, .times = VCUBE_TIMES_USUAL, .stops_at_fault = scene.stops_at_fault,
        .entered = master_entered, .fault = master_fault, .save = master_save, .silence = master_silence};
    for (size_t k = 0; k < scene.n; k++) {
        node_settings[k] = (struct vcube_node_settings){
            .wiring = scene.wiring, .n = scene.n, .own = k, .times = VCUBE_TIMES_USUAL, .quiet = QUIET,
            .in_force = node_in_force, .context = &parts[k]};
        start_part(&parts[k]);
    }
    start_part(&parts[scene.n]);
    /* As if so many entries had been made before. */
    if (scene.first_number) {
        const struct vcube_entry before = {scene.first_number, VCUBE_KIND_TURN, 0, VCUBE_NO_STATION, VCUBE_OUTCOME_PASS_FINISHED, 0, true};

        master.entries = scene.first_number;
        master.last = before;
        for (size_t k = 0; k < scene.n; k++) {
            nodes[k].has_line = true;
            nodes[k].entries = scene.first_number;
        }
    }
}

/* The entries that the master made, run on a fresh table, give its table; and the run sheet says what it noted of each. */
static void compare_run(void)
{
    static uint8_t schedule[2 * MOST_ENTRIES], sheet[4 * MOST_ENTRIES], run_table[MOST_TABLE];
    const size_t length = VCUBE_TABLE_LENGTH(scene.n);
    uint32_t rounds = 0, tests = 0;
    size_t taken;

    for (size_t e = 1; e <= made; e++) {
        schedule[2 * (e - 1)] = entries[e].kind;
        schedule[2 * (e - 1) + 1] = entries[e].station;
    }
    if (vcube_fresh_table(scene.wiring, scene.n, run_table, length)
        || vcube_run(scene.wiring, scene.n, run_table, length, &rounds, &tests, schedule, 2 * made, sheet, 4 * made, &taken))
        fail("a run does not take the entries that the master made");
    if (memcmp(run_table, TABLE_OF(made), length) != 0 || memcmp(run_table, vcube_master_table(&master), length) != 0)
        fail("the run of the master's entries gives another table than the master's");
    if (rounds != master.rounds || tests != master.tests)
        fail("the run counts %u rounds and %u tests, the master %u and %u", (unsigned)rounds, (unsigned)tests, (unsigned)master.rounds,
             (unsigned)master.tests);
    for (size_t e = 1; e <= made; e++) {
        const uint8_t *line = &sheet[4 * (e - 1)];

        if (line[0] != entries[e].station || line[1] != entries[e].tested || line[2] != entries[e].outcome || line[3] != entries[e].status)
            fail("the run sheet says something else of entry %zu than the master", e);
    }
}

/* At the end, once the master has rested for a while: each live board has put all entries in force. The others may be behind: they are silent. */
static void compare_ends(void)
{
    for (size_t k = 0; k < scene.n; k++) {
        const bool is_live = TABLE_OF(made)[k * VCUBE_LINE_LENGTH(scene.n)] == VCUBE_STATUS_LIVE;

        if (has_killed(k))
            continue;
        if (index_of(nodes[k].entries) == made && nodes[k].has_line) {
            if (vcube_node_outputs_on(&nodes[k], moment_now()) != is_live)
                fail("outputs of board %zu", k);
        } else {
            counts.behind++;
            if (is_live && !master.is_silent)
                fail("board %zu is live, and behind: %zu entries", k, index_of(nodes[k].entries));
        }
    }
}

/* Then nothing comes through any more, and all outputs go off. */
static void compare_outputs(void)
{
    scene.out_from = clock_now;
    scene.out_until = NEVER;
    event_count = 0;
    waiting_count = 0;
    run_until(clock_now + (QUIET + 10) * MILLISECOND);
    for (size_t k = 0; k < scene.n; k++)
        if (!has_killed(k)) {
            counts.off++;
            if (vcube_node_outputs_on(&nodes[k], moment_now()))
                fail("board %zu hears nothing, and its outputs are on", k);
        }
}

static bool is_master_up(void)
{
    return !has_killed(scene.n) && parts[scene.n].stopped_until <= clock_now && !vcube_master_is_resting(&master)
           && !vcube_master_has_stopped(&master);
}

/* Whether the plant has to go on: the cable is whole, and the master and a live board are up. */
static bool has_to_go_on(void)
{
    if (is_out() || !is_master_up())
        return false;
    for (size_t k = 0; k < scene.n; k++)
        if (!has_killed(k) && parts[k].stopped_until <= clock_now && TABLE_OF(made)[k * VCUBE_LINE_LENGTH(scene.n)] == VCUBE_STATUS_LIVE)
            return true;
    return false;
}

/* Since when what holds in a run holds without a break. */
struct progress {
    size_t made;
    uint64_t looked;
    unsigned long masters;
    uint64_t made_since;
    uint64_t out_since;
};

/* Where it has to go on, it makes an entry within MOST_PAUSE. While the cable is out, the master says so after MOST_UNSAID. */
static void look_at_progress(struct progress *progress)
{
    /* Else a part was stopped in the middle of a step, or the master started again. */
    const bool is_next = clock_now - progress->looked <= MILLISECOND && progress->masters == counts.masters;

    progress->looked = clock_now;
    progress->masters = counts.masters;
    if (made != progress->made || !is_next || !has_to_go_on())
        progress->made_since = clock_now;
    progress->made = made;
    if (clock_now - progress->made_since > MOST_PAUSE)
        fail("no entry, although the cable is whole and a live board is up");
    if (!is_next || !is_out() || !is_master_up())
        progress->out_since = clock_now;
    if (clock_now - progress->out_since > MOST_UNSAID && !master.is_silent)
        fail("the cable is out, and the master does not say that it hears nobody");
}

static void make_run(void)
{
    bool is_master_down = false;
    struct progress progress = {0, 0, counts.masters, 0, 0};

    begin_run();
    while (made < scene.entries && !vcube_master_is_resting(&master) && clock_now < 60000 * MILLISECOND) {
        run_until(clock_now + MILLISECOND);
        look_at_progress(&progress);
        if (scene.is_brownout && made > scene.entries / 2) {
            scene.is_brownout = false;
            for (size_t k = 0; k < scene.n; k++)
                if (!has_killed(k)) {
                    parts[k].was_stopped = true;
                    counts.again++;
                    start_part(&parts[k]);
                }
        }
        if (made <= scene.entries / 3)
            memcpy(saved_old, saved, sizeof saved);
        if (scene.kills_master && !is_master_down && made > scene.entries / 3 + 5) {
            /* Between two steps; or as it makes its next entry, before that is saved. */
            is_master_down = true;
            if (below(2) && !scene.is_saved_old)
                is_save_lost = true;
            else
                parts[scene.n].is_killed = true;
            plan(START_AGAIN, scene.n, 0, 0, false, clock_now + (20 + below(900)) * MILLISECOND, 0);
        }
        if (vcube_master_has_stopped(&master))
            break;
    }
    if (has_killed(scene.n))
        start_part(&parts[scene.n]);
    vcube_master_rest(&master, true);
    run_until(clock_now + 3000 * MILLISECOND);
    if (!scene.is_saved_old)
        compare_run();
    if (!vcube_master_has_stopped(&master))
        compare_ends();
    compare_outputs();
    counts.runs++;
}

/* The board of the early release is named at its first wrong test, the one that sends wrong rows at its first row, the dead one at its first
 * reply. */
static void compare_fault(void)
{
    if (scene.early < scene.n && has_wrong != has_fault)
        fail("board %zu of the early release: tested wrong %d, was named %d; fault %d of board %d, tested %d, should %d", scene.early, has_wrong,
             has_fault, (int)first_fault.kind, first_fault.board, first_fault.tested, first_fault.should_test);
    if (scene.liar < scene.n && has_lied != has_fault)
        fail("board %zu sends wrong rows: it did %d, was named %d", scene.liar, has_lied, has_fault);
    if (scene.undead < scene.n && has_replied_dead != has_fault)
        fail("board %zu is dead, and replies: it did %d, was named %d", scene.undead, has_replied_dead, has_fault);
    if (scene.is_saved_old && !has_fault)
        fail("the master was started from an old state, and named nothing");
    if (!has_fault)
        return;
    counts.named++;
    if (scene.stops_at_fault || scene.is_saved_old) {
        if (!vcube_master_has_stopped(&master) || (!scene.is_saved_old && index_of(first_fault.number) != made + 1))
            fail("the master goes on after fault %d", (int)first_fault.kind);
        counts.stopped_at_fault++;
    }
    if (scene.is_saved_old && first_fault.kind != VCUBE_FAULT_AHEAD)
        fail("the master was started from an old state, and named fault %d", (int)first_fault.kind);
    if (scene.early < scene.n
        && (first_fault.kind != VCUBE_FAULT_WRONG_TEST || first_fault.board != scene.early || first_fault.tested != wrong_tested
            || first_fault.should_test != wrong_should || first_fault.number != wrong_turn))
        fail("board %zu of the early release tested %d in turn %u and should have tested %d; named was %d, tested %d, should %d", scene.early,
             wrong_tested, (unsigned)wrong_turn, wrong_should, first_fault.board, first_fault.tested, first_fault.should_test);
    if (scene.undead < scene.n && (first_fault.kind != VCUBE_FAULT_NOT_LIVE || first_fault.board != scene.undead))
        fail("board %zu is dead, and replies; named was %d of board %d", scene.undead, (int)first_fault.kind, first_fault.board);
    if (scene.liar < scene.n && (first_fault.kind != VCUBE_FAULT_WRONG_ROW || first_fault.board != scene.liar))
        fail("board %zu sent a wrong row; named was %d of board %d", scene.liar, (int)first_fault.kind, first_fault.board);
}

/* ---- Cases by themselves: one board, or the master, and the frames that it is given ---- */

#define CASE_BOARDS 5

static struct {
    uint32_t now;
    struct vcube_frame in[8];
    size_t in_count;
    struct vcube_frame out[64];
    size_t out_count;
    bool is_stuck;                      /* what is handed over does not go out */
    bool has_babbler;                   /* frames come without end */
    unsigned long babbled;
    unsigned silences;
    struct vcube_entry last;
    unsigned entries;
    struct vcube_fault fault;
    unsigned faults;
} bench;

static void need(bool holds, const char *what)
{
    if (!holds) {
        printf("case: %s\n", what);
        exit(1);
    }
}

static void bench_send(void *context, const struct vcube_frame *frame)
{
    (void)context;
    bench.out[bench.out_count++ % (sizeof bench.out / sizeof bench.out[0])] = *frame;
}

static bool bench_receive(void *context, struct vcube_frame *frame, uint32_t until)
{
    (void)context;
    (void)until;
    if (bench.has_babbler) {
        memset(frame, 0, sizeof *frame);
        if (++bench.babbled > 100000)
            need(false, "a step has no end while frames come");
        return true;
    }
    if (!bench.in_count)
        return false;
    *frame = bench.in[0];
    bench.in_count--;
    memmove(&bench.in[0], &bench.in[1], bench.in_count * sizeof bench.in[0]);
    return true;
}

static uint32_t bench_now(void *context)
{
    (void)context;
    return bench.now;
}

static bool bench_sent(void *context)
{
    (void)context;
    return !bench.is_stuck;
}

static const struct vcube_cable bench_cable = {NULL, bench_send, bench_receive, bench_now, bench_sent};

static void bench_silence(void *context, bool is_silent)
{
    (void)context;
    bench.silences += is_silent;
}

static void bench_entered(void *context, const struct vcube_entry *entry)
{
    (void)context;
    bench.entries++;
    bench.last = *entry;
}

static void bench_fault(void *context, const struct vcube_fault *fault)
{
    (void)context;
    bench.faults++;
    bench.fault = *fault;
}

static unsigned count_out(enum vcube_frame_kind kind)
{
    unsigned count = 0;

    for (size_t k = 0; k < bench.out_count && k < sizeof bench.out / sizeof bench.out[0]; k++)
        count += VCUBE_FRAME_KIND(bench.out[k].identifier) == (uint32_t)kind;
    return count;
}

/* This frame comes next. */
static void come_alone(size_t sender, size_t receiver, uint32_t kind, uint32_t number, size_t length, const uint8_t *data)
{
    struct vcube_frame *frame = &bench.in[bench.in_count++];

    memset(frame, 0, sizeof *frame);
    frame->identifier = VCUBE_FRAME_IDENTIFIER(kind, sender, receiver, number);
    frame->length = (uint8_t)length;
    if (length)
        memcpy(frame->data, data, length);
}

static void step_board(void)
{
    bench.out_count = 0;
    vcube_node_step(&nodes[1], &bench_cable);
}

static void step_master(uint32_t milliseconds)
{
    while (milliseconds--) {
        bench.now++;
        vcube_master_step(&master, &bench_cable);
    }
}

/* The board hears a frame, with a row of zeros or without data. */
static void hear(size_t sender, uint32_t kind, uint32_t number, size_t length)
{
    come_alone(sender, 1, kind, number, length, (const uint8_t[]){0});
    step_board();
}

/* A note of entry `number`, with a grant to `granted`. */
static void hear_note_of(size_t sender, uint32_t number, size_t granted, unsigned kind_and_outcome, unsigned station, unsigned tested)
{
    const uint32_t turn = number + 1;
    const uint8_t data[7] = {(uint8_t)(turn >> 24), (uint8_t)(turn >> 16), (uint8_t)(turn >> 8), (uint8_t)turn,
                             (uint8_t)kind_and_outcome, (uint8_t)station, (uint8_t)tested};

    come_alone(sender, granted, VCUBE_FRAME_GRANT, turn, sizeof data, data);
    step_board();
}

#define NOTE_OF(kind, outcome) (16u * (kind) + (outcome))
#define NOTE_FINISHED NOTE_OF(VCUBE_KIND_TURN, VCUBE_OUTCOME_PASS_FINISHED)

/* Halves of a live line that suspects nobody. */
static void hear_head_of(uint32_t number)
{
    const uint8_t data[8] = {(uint8_t)(number >> 24), (uint8_t)(number >> 16), (uint8_t)(number >> 8), (uint8_t)number, 0, 1, 255, 0};

    come_alone(0, 1, VCUBE_FRAME_LINE_HEAD, number, sizeof data, data);
    step_board();
}

static void hear_row_of(uint32_t number)
{
    const uint8_t data[1] = {0};

    come_alone(0, 1, VCUBE_FRAME_LINE_ROW, number, sizeof data, data);
    step_board();
}

static void hear_line_of(uint32_t number)
{
    hear_head_of(number);
    hear_row_of(number);
}

static bool is_on(void)
{
    return vcube_node_outputs_on(&nodes[1], bench.now);
}

static void start_board(void)
{
    const struct vcube_node_settings settings = {
        .wiring = VCUBE_WIRING_CUBE, .n = CASE_BOARDS, .own = 1, .times = VCUBE_TIMES_USUAL, .quiet = QUIET};

    memset(&bench, 0, sizeof bench);
    need(vcube_node_start(&nodes[1], &settings) == VCUBE_ACCEPTED, "the board starts");
}

/* A board at which `number` entries are in force. */
static void start_in_step(uint32_t number)
{
    start_board();
    hear_note_of(0, number, 0, NOTE_FINISHED, 0, VCUBE_NO_STATION);
    hear_line_of(number);
    need(nodes[1].has_line && nodes[1].entries == number && is_on(), "a board that starts takes its line, and its outputs go on");
}

static void start_master(void)
{
    memset(&bench, 0, sizeof bench);
    master_settings = (struct vcube_master_settings){.wiring = VCUBE_WIRING_CUBE, .n = CASE_BOARDS, .times = VCUBE_TIMES_USUAL,
                                                     .silence = bench_silence, .entered = bench_entered, .fault = bench_fault};
    need(vcube_master_start(&master, &master_settings) == VCUBE_ACCEPTED, "the master starts");
}

/* Where nothing goes out, the master says so. */
static void try_silence(void)
{
    start_master();
    bench.is_stuck = true;
    step_master(65);
    need(bench.silences == 0, "no silence before G and P");
    step_master(10);
    need(bench.silences == 1, "a grant that does not go out for G and P is told as silence");
    bench.is_stuck = false;
    step_master(2);
    come_alone(2, 0, VCUBE_FRAME_ASK, 0, 0, NULL);
    step_master(1);
    need(!master.is_silent, "a board that is heard ends the silence");
    need(bench.entries == 0, "no entry while nothing goes out");
    start_master();
    bench.is_stuck = true;
    step_master(30);
    come_alone(2, 0, VCUBE_FRAME_ASK, 0, 0, NULL);
    step_master(65);
    need(bench.silences == 0, "no silence while a board is heard");
    step_master(10);
    need(bench.silences == 1, "silence G and P after a board was heard");
}

/* Steps until it probes. */
static void step_until_probe(void)
{
    for (unsigned count = 0; master.phase != VCUBE_MASTER_PROBING; count++) {
        need(count < 100, "the master probes");
        step_master(1);
    }
}

/* The time of the probe begins when it has gone out. An answer to an earlier probe says nothing. */
static void try_probe(void)
{
    const uint8_t here[5] = {1, 0, 0, 0, 0};

    start_master();
    step_master(50);
    need(master.phase == VCUBE_MASTER_GRANTED, "G is not over");
    bench.out_count = 0;
    bench.is_stuck = true;
    step_master(1);
    need(count_out(VCUBE_FRAME_PROBE) == 1, "a probe after G");
    step_master(14);
    bench.is_stuck = false;
    step_master(18);
    come_alone(2, 0, VCUBE_FRAME_HERE, 1, sizeof here, here);
    step_master(1);
    need(bench.entries == 0 && bench.silences == 0, "the time of a probe runs from when it has gone out");
    step_master(2);
    need(bench.entries == 1 && bench.last.kind == VCUBE_KIND_CRASH && bench.last.station == 0, "the board that is not heard is entered as crashed");
    start_master();
    step_until_probe();
    step_master(25);
    step_until_probe();
    come_alone(2, 0, VCUBE_FRAME_HERE, 1, sizeof here, here);
    step_master(25);
    need(bench.entries == 0, "an answer to an earlier probe says nothing");
    for (unsigned asks = 0; asks < 2; asks++) {
        start_master();
        step_until_probe();
        come_alone(2, 0, VCUBE_FRAME_HERE, 1, sizeof here, here);
        come_alone(0, !asks, asks ? VCUBE_FRAME_ASK : VCUBE_FRAME_TEST, 1, 0, NULL);
        step_master(25);
        need(bench.entries == 0 && bench.faults == 0, "asking and testing are signs of life");
    }
}

/* A board that answers probes, and does not end its turn, gets the time of a turn three times more, and then is named. */
static void try_no_end(void)
{
    uint8_t here[5] = {0, 0, 0, 0, 0};

    start_master();
    for (unsigned longer = 0; longer <= 3; longer++) {
        need(bench.entries == 0 && bench.faults == 0, "a board that answers gets the time of a turn three times more");
        step_until_probe();
        here[0] = master.probes;
        come_alone(0, 0, VCUBE_FRAME_HERE, 1, sizeof here, here);
        come_alone(2, 0, VCUBE_FRAME_HERE, 1, sizeof here, here);
        step_master(25);
    }
    need(bench.faults == 1 && bench.fault.kind == VCUBE_FAULT_NO_END && bench.fault.board == 0, "then it is named");
    need(bench.entries == 1 && bench.last.kind == VCUBE_KIND_CRASH && bench.last.station == 0, "and entered as crashed");
}

/* Each fault of a frame in the first turn, in which board 0 tests 1, and they exchange. The board named is entered as crashed, or the master stops.
 * If the granted board is another one, it is granted again. */
static void try_faults(void)
{
    static const struct {
        enum vcube_frame_kind kind;
        uint8_t sender;
        uint8_t receiver;
        uint8_t row;
        struct vcube_fault fault;
    } wrong[] = {
        {VCUBE_FRAME_TEST, 0, 2, 0, {VCUBE_FAULT_WRONG_TEST, 1, 0, 2, 1, 1, 1}},
        {VCUBE_FRAME_FINISHED, 0, 0, 0, {VCUBE_FAULT_WRONG_TEST, 1, 0, VCUBE_NO_STATION, 1, VCUBE_OUTCOME_PASS_FINISHED, 1}},
        {VCUBE_FRAME_EXCHANGE, 0, 2, 0, {VCUBE_FAULT_WRONG_TEST, 1, 0, 2, 1, 1, 1}},
        {VCUBE_FRAME_NO_REPLY, 0, 2, 0, {VCUBE_FAULT_WRONG_TEST, 1, 0, 2, 1, VCUBE_OUTCOME_NO_REPLY, 1}},
        {VCUBE_FRAME_LEFT, 0, 1, 0, {VCUBE_FAULT_WRONG_END, 1, 0, 1, 1, VCUBE_OUTCOME_TOLD, 1}},
        {VCUBE_FRAME_TOLD, 0, 1, 0, {VCUBE_FAULT_WRONG_END, 1, 0, 1, 1, VCUBE_OUTCOME_TESTED_TOLD, 1}},
        {VCUBE_FRAME_EXCHANGE, 0, 1, 4, {VCUBE_FAULT_WRONG_ROW, 1, 0, 1, 1, 1, 1}},
        {VCUBE_FRAME_REPLY, 1, 0, 4, {VCUBE_FAULT_WRONG_ROW, 1, 1, VCUBE_NO_STATION, VCUBE_NO_STATION, 1, 1}},
        {VCUBE_FRAME_TEST, 2, 3, 0, {VCUBE_FAULT_NOT_GRANTED, 1, 2, 3, VCUBE_NO_STATION, 1, 1}},
    };

    for (size_t k = 0; k < 2 * sizeof wrong / sizeof wrong[0]; k++) {
        const size_t at = k / 2;
        const struct vcube_fault *should = &wrong[at].fault, *is = &bench.fault;
        const bool has_row = wrong[at].kind == VCUBE_FRAME_EXCHANGE || wrong[at].kind == VCUBE_FRAME_REPLY;

        start_master();
        master_settings.stops_at_fault = k % 2;
        need(vcube_master_start(&master, &master_settings) == VCUBE_ACCEPTED, "the master starts");
        step_master(1);
        come_alone(wrong[at].sender, wrong[at].receiver, wrong[at].kind, 2, has_row, &wrong[at].row);
        come_alone(wrong[at].sender, wrong[at].receiver, wrong[at].kind, 1, !has_row, &wrong[at].row);
        step_master(1);
        need(bench.faults == 0 && bench.entries == 0, "a frame of another turn, or of another length, is no fault");
        come_alone(3, 0, VCUBE_FRAME_FINISHED, 1, 0, NULL);
        come_alone(3, 1, VCUBE_FRAME_EXCHANGE, 1, 1, (const uint8_t[]){0});
        step_master(1);
        need(bench.faults == 0 && bench.entries == 0, "an end of a board that is not granted is thrown away");
        come_alone(wrong[at].sender, wrong[at].receiver, wrong[at].kind, 1, has_row, &wrong[at].row);
        step_master(2);
        need(bench.faults == 1 && is->kind == should->kind && is->number == should->number && is->board == should->board
                 && is->tested == should->tested && is->should_test == should->should_test && is->said == should->said
                 && is->should_say == should->should_say,
             "a frame that is not what the table says is named, with what it should be");
        need(vcube_master_has_stopped(&master) == (k % 2 == 1) && bench.entries == (k % 2 == 0), "the master stops, or goes on, as its maker chose");
        need(k % 2 || (bench.last.kind == VCUBE_KIND_CRASH && bench.last.station == should->board), "the board named is entered as crashed");
        need(k % 2 || master.granted == (should->board == 0), "the turn of a board that keeps the rules is granted again");
    }
}

/* Halves of different lines, whose numbers have the same low bits, are not joined. */
static void try_halves(void)
{
    start_in_step(5);
    hear_note_of(0, 8, 0, NOTE_FINISHED, 0, VCUBE_NO_STATION);
    hear_head_of(8);
    bench.now += 3000;
    hear_note_of(0, 8 + 4096, 0, NOTE_FINISHED, 0, VCUBE_NO_STATION);
    hear_row_of(8 + 4096);
    need(nodes[1].entries == 5, "a head is not joined with a row that comes much later");
    start_in_step(5);
    hear_head_of(9);
    hear_note_of(0, 9, 0, NOTE_FINISHED, 0, VCUBE_NO_STATION);
    hear_row_of(9);
    need(nodes[1].entries == 5, "a half that came before the board fell behind is dropped");
}

/* A turn is made once, by a reply of this turn and of the board tested. Of exchanges that of the turn that is entered is joined. */
static void try_turn(void)
{
    start_in_step(5);
    hear_note_of(0, 5, 1, NOTE_FINISHED, 0, VCUBE_NO_STATION);
    need(count_out(VCUBE_FRAME_TEST) == 1 && nodes[1].tested == 0, "a board that is granted tests");
    come_alone(2, 1, VCUBE_FRAME_REPLY, 6, 1, (const uint8_t[]){0});
    hear(0, VCUBE_FRAME_REPLY, 5, 1);
    need(nodes[1].turn == VCUBE_NODE_TESTING, "a reply of another board, or of another turn, is thrown away");
    hear(0, VCUBE_FRAME_REPLY, 6, 1);
    need(count_out(VCUBE_FRAME_EXCHANGE) == 1, "the reply ends the turn");
    hear_note_of(0, 5, 1, NOTE_FINISHED, 0, VCUBE_NO_STATION);
    need(count_out(VCUBE_FRAME_EXCHANGE) == 1 && count_out(VCUBE_FRAME_TEST) == 0, "an ended turn is not made again, and its end is sent again");
    for (uint8_t tester = 0; tester <= 2; tester += 2) {
        start_in_step(5);
        hear(tester, VCUBE_FRAME_EXCHANGE, 6, 1);
        hear_note_of(0, 6, 0, NOTE_OF(VCUBE_KIND_TURN, VCUBE_OUTCOME_EXCHANGED), 0, 1);
        need(nodes[1].entries == (tester == 0 ? 6u : 5u), "the exchange of the board whose turn is entered is joined, and no other");
    }
}

/* A board that is behind answers no test before it has its line. */
static void try_behind(void)
{
    start_in_step(5);
    hear(0, VCUBE_FRAME_TEST, 6, 0);
    need(count_out(VCUBE_FRAME_REPLY) == 1, "a board in step answers");
    hear_note_of(0, 7, 0, NOTE_FINISHED, 0, VCUBE_NO_STATION);
    hear(0, VCUBE_FRAME_TEST, 6, 0);
    need(count_out(VCUBE_FRAME_REPLY) == 0, "a board that is behind answers no test");
    hear(0, VCUBE_FRAME_TEST, 8, 0);
    need(count_out(VCUBE_FRAME_REPLY) == 0, "nor one of a later turn");
    hear_line_of(7);
    need(count_out(VCUBE_FRAME_REPLY) == 1, "it answers the test that it kept, once in step");
}

/* Notes that no master sends are thrown away. */
static void try_notes(void)
{
    static const uint8_t wrong[][4] = {
        /* kind, outcome, station, tested */
        {0, 0, 0, 0},
        {4, VCUBE_OUTCOME_PASS_FINISHED, 2, VCUBE_NO_STATION},
        {7, 15, 200, 2},
        {VCUBE_KIND_TURN, VCUBE_OUTCOME_CRASH, 2, VCUBE_NO_STATION},
        {VCUBE_KIND_TURN, 6, 2, 3},
        {VCUBE_KIND_TURN, VCUBE_OUTCOME_PASS_FINISHED, 2, 3},
        {VCUBE_KIND_TURN, VCUBE_OUTCOME_PASS_FINISHED, CASE_BOARDS, VCUBE_NO_STATION},
        {VCUBE_KIND_TURN, VCUBE_OUTCOME_NO_REPLY, 2, VCUBE_NO_STATION},
        {VCUBE_KIND_TURN, VCUBE_OUTCOME_NO_REPLY, 2, 2},
        {VCUBE_KIND_TURN, VCUBE_OUTCOME_NO_REPLY, 2, CASE_BOARDS},
        {VCUBE_KIND_LATE_TURN, VCUBE_OUTCOME_TOLD, 2, 3},
        {VCUBE_KIND_LATE_TURN, VCUBE_OUTCOME_PASS_FINISHED, 2, VCUBE_NO_STATION},
        {VCUBE_KIND_CRASH, VCUBE_OUTCOME_TESTED_TOLD, 2, VCUBE_NO_STATION},
        {VCUBE_KIND_CRASH, VCUBE_OUTCOME_CRASH, 2, 3},
    };

    for (size_t k = 0; k < sizeof wrong / sizeof wrong[0]; k++) {
        start_in_step(5);
        hear_note_of(0, 6, 0, NOTE_OF(wrong[k][0], wrong[k][1]), wrong[k][2], wrong[k][3]);
        need(nodes[1].entries == 5 && !nodes[1].is_behind, "a note that no master sends is thrown away");
    }
    start_in_step(5);
    hear_note_of(2, 6, 0, NOTE_FINISHED, 2, VCUBE_NO_STATION);
    need(nodes[1].entries == 5, "a note from another sender than 0 is thrown away");
    start_board();
    hear_note_of(0, 6, 0, 0, 0, 0);
    need(!nodes[1].has_line, "that no entry is made yet goes with number 0 alone");
    hear_note_of(0, 0, 0, 0, 0, 0);
    need(nodes[1].has_line && nodes[1].entries == 0 && is_on(), "where no entry is made yet the line is fresh");
}

/* An old line does not put the outputs on. */
static void try_old_line(void)
{
    start_board();
    hear_line_of(5);
    need(!nodes[1].has_line, "a line that was not asked for is not taken");
    hear_note_of(0, 9, 0, NOTE_FINISHED, 0, VCUBE_NO_STATION);
    hear_line_of(5);
    need(nodes[1].has_line && nodes[1].entries == 5 && !is_on(), "an old line does not put the outputs on");
    bench.now += 10;
    step_board();
    need(count_out(VCUBE_FRAME_ASK) == 1, "after an old line the board asks again");
    hear_line_of(9);
    need(nodes[1].entries == 9 && is_on(), "the line of the newest entry puts them on");

    start_in_step(5);
    hear_note_of(0, 900, 0, NOTE_FINISHED, 0, VCUBE_NO_STATION);
    bench.now += 60;
    hear_line_of(7);
    need(nodes[1].entries == 7 && !nodes[1].is_behind, "a number that no master tells again does not keep a board behind");
}

/* A damaged line puts the outputs off, and the board asks for its line. */
static void try_damage(void)
{
    /* Before its grant; while it waits for the reply; before it is tested; and before a round closes. */
    for (unsigned way = 0; way < 4; way++) {
        start_in_step(5);
        if (way == 1) {
            hear_note_of(0, 5, 1, NOTE_FINISHED, 0, VCUBE_NO_STATION);
            need(nodes[1].turn == VCUBE_NODE_TESTING, "a board that is granted tests");
        }
        nodes[1].line[1] = 200;
        if (way == 0)
            hear_note_of(0, 5, 1, NOTE_FINISHED, 0, VCUBE_NO_STATION);
        else if (way == 2)
            come_alone(0, 1, VCUBE_FRAME_TEST, 6, 0, NULL);
        else if (way == 3)
            hear_note_of(0, 6, 0, 128 + NOTE_FINISHED, 2, VCUBE_NO_STATION);
        else
            bench.now += 30;
        if (way != 0 && way != 3)
            step_board();
        need(!is_on(), "a damaged line puts the outputs off");
        need(nodes[1].turn == VCUBE_NODE_NO_TURN, "a damaged line ends the turn");
        bench.now += 10;
        step_board();
        need(count_out(VCUBE_FRAME_ASK) == 1 && count_out(VCUBE_FRAME_REPLY) == 0, "a board with a damaged line asks for its line");
        hear_line_of(6);
        need(nodes[1].entries == 6 && is_on(), "the master's line is taken in its place");
    }
}

/* A board that is reset in its turn makes it again. If the end of the first time was entered, with another outcome, it asks for its line. */
static void try_reset(void)
{
    for (unsigned is_same = 0; is_same < 2; is_same++) {
        start_in_step(5);
        hear_note_of(0, 5, 1, NOTE_FINISHED, 0, VCUBE_NO_STATION);
        bench.now += 30;
        step_board();
        need(count_out(VCUBE_FRAME_NO_REPLY) == 1, "a test that is not replied to ends the turn");
        start_in_step(5);
        hear_note_of(0, 5, 1, NOTE_FINISHED, 0, VCUBE_NO_STATION);
        hear(0, VCUBE_FRAME_REPLY, 6, 1);
        need(count_out(VCUBE_FRAME_EXCHANGE) == 1, "after a reset the turn is made again");
        hear_note_of(0, 6, 0, is_same ? NOTE_OF(VCUBE_KIND_TURN, VCUBE_OUTCOME_EXCHANGED) : NOTE_OF(VCUBE_KIND_LATE_TURN, VCUBE_OUTCOME_NO_REPLY), 1,
                     0);
        need(nodes[1].entries == (is_same ? 6u : 5u), "the turn made aside is in force only if its outcome was entered");
        bench.now += 10;
        step_board();
        need(count_out(VCUBE_FRAME_ASK) == !is_same, "if another outcome was entered, the board asks");
    }
}

/* A step ends although frames come without end. Outputs go off by the clock alone, also while no step is made. */
static void try_babbler(void)
{
    start_in_step(5);
    need(!vcube_node_outputs_on(&nodes[1], bench.now + QUIET), "outputs go off although no step is made");
    bench.has_babbler = true;
    step_board();
    bench.now += QUIET;
    step_board();
    need(!is_on(), "outputs go off while frames come without end");
    start_master();
    bench.has_babbler = true;
    step_master(3);
    bench.has_babbler = false;
    bench.out_count = 0;
    step_master(1);
    need(count_out(VCUBE_FRAME_GRANT) == 1, "the master goes on once frames have an end");
}

static void keep_saved(void *context, const uint8_t *bytes, size_t length)
{
    (void)context;
    memcpy(saved, bytes, length);
}

static uint8_t resume_with(size_t at, uint8_t byte)
{
    const size_t length = VCUBE_MASTER_SAVED_LENGTH(CASE_BOARDS);
    uint8_t bytes[VCUBE_MASTER_SAVED_LENGTH(CASE_BOARDS)];

    memcpy(bytes, saved, length);
    bytes[at] = byte;
    return vcube_master_resume(&master, &master_settings, bytes, length);
}

/* Of what was saved the last entry is looked at. Byte 16 is its kind, then station, tested, outcome, status, closed. */
static void try_saved(void)
{
    static const uint8_t wrong[][2] = {{16, 0}, {16, 4}, {16, VCUBE_KIND_LATE_TURN}, {16, VCUBE_KIND_CRASH}, {17, 77}, {17, CASE_BOARDS}, {18, 0},
                                       {18, 77}, {19, VCUBE_OUTCOME_PASS_FINISHED}, {19, VCUBE_OUTCOME_CRASH}, {19, 6}, {20, 1}, {21, 2}};

    start_master();
    master_settings.save = keep_saved;
    need(vcube_master_start(&master, &master_settings) == VCUBE_ACCEPTED, "the master starts");
    step_master(1);
    come_alone(0, 1, VCUBE_FRAME_EXCHANGE, 1, 1, (const uint8_t[]){0});
    step_master(1);
    need(bench.entries == 1, "an exchange is entered");
    need(resume_with(0, saved[0]) == VCUBE_ACCEPTED, "the master goes on from what was saved");
    for (size_t k = 0; k < sizeof wrong / sizeof wrong[0]; k++)
        need(resume_with(wrong[k][0], wrong[k][1]) == VCUBE_REFUSED_SIZE_OR_TALLY_FIELD, "a last entry that the master does not make is refused");
}

static void try_cases(void)
{
    try_silence();
    try_probe();
    try_no_end();
    try_faults();
    try_halves();
    try_turn();
    try_behind();
    try_notes();
    try_old_line();
    try_damage();
    try_reset();
    try_babbler();
    try_saved();
}

/* Of 64 boards one dies, and 29 others start again just before the master probes: they ask for their lines, whose frames win the cable. The answers
 * of all others come within P, and the dead board is entered as crashed. */
static void try_largest(size_t wiring)
{
    const size_t dead = 5;
    unsigned expected = 0;

    scene = (struct scene){.wiring = wiring, .is_by_kind = true};
    set_size(MOST_BOARDS);
    plan_count = 0;
    begin_run();
    parts[dead].is_killed = true;
    while (master.granted != dead || !master.is_grant_out || (int32_t)(master.end - moment_now()) > 8)
        run_until(clock_now + MILLISECOND);
    for (size_t k = dead + 1; k < scene.n; k += 2) {
        parts[k].was_stopped = true;
        start_part(&parts[k]);
    }
    while (master.phase != VCUBE_MASTER_PROBING)
        run_until(clock_now + MILLISECOND);
    for (size_t k = 0; k < scene.n; k++)
        expected += !has_killed(k) && nodes[k].has_line;
    while (master.phase == VCUBE_MASTER_PROBING)
        run_until(clock_now + MILLISECOND / 10);
    need(expected > 32 && answers >= expected, "of 64 boards all answer a probe within P");
    need(entries[made].kind == VCUBE_KIND_CRASH && entries[made].station == dead, "the dead one of 64 boards is entered as crashed");
}

/* What many runs have to come to, in a hundred runs: else something is not tried any more. */
static void compare_counts(void)
{
    const struct {
        const char *what;
        unsigned long count;
        unsigned long least;
    } all[] = {{"entries", counts.entries, 20000}, {"lines of boards", counts.records, 200000}, {"lines that know who is dead", counts.known, 20000},
               {"boards killed", counts.killed, 50}, {"stops", counts.stopped, 60}, {"boards started again", counts.again, 20},
               {"masters started again", counts.masters, 5}, {"outages", counts.outages, 10}, {"faults named", counts.named, 10},
               {"stops at a fault", counts.stopped_at_fault, 5}, {"late replies", counts.lates, 60}, {"crashes", counts.crashes, 50},
               {"boards left", counts.lefts, 40}, {"asks", counts.asks, 9000}, {"silences", counts.silences, 10},
               {"outputs that go off", counts.off, 500}};

    for (size_t k = 0; counts.runs >= 100 && k < sizeof all / sizeof all[0]; k++)
        if (all[k].count * 100 < all[k].least * counts.runs) {
            printf("%lu runs have only %lu %s\n", counts.runs, all[k].count, all[k].what);
            exit(1);
        }
}

int main(int count, char **words)
{
    const uint64_t first = count > 1 ? strtoull(words[1], NULL, 10) : 1;
    const uint64_t runs = count > 2 ? strtoull(words[2], NULL, 10) : 400;

    try_cases();
    try_largest(VCUBE_WIRING_CUBE);
    try_largest(VCUBE_WIRING_RING);
    for (uint64_t seed = first; seed < first + runs; seed++) {
        choose(seed);
        make_run();
        if (seed % 4 == 0) {
            choose_fault(seed / 4);
            make_run();
            compare_fault();
        }
    }
    printf("%lu runs, %lu entries, %lu frames: %lu lines of boards are the table's, %lu of them know who is dead; %lu boards killed, %lu stops, "
           "%lu boards and %lu masters started again, %lu outages, %lu named (%lu stopped there); %lu late, %lu crashes, %lu left, %lu asks, "
           "%lu behind at the end; without cause %lu late, %lu crashes\n",
           counts.runs, counts.entries, counts.frames, counts.records, counts.known, counts.killed, counts.stopped, counts.again, counts.masters,
           counts.outages, counts.named, counts.stopped_at_fault, counts.lates, counts.crashes, counts.lefts, counts.asks, counts.behind,
           counts.lates_without_cause, counts.crashes_without_cause);
    compare_counts();
    return 0;
}
