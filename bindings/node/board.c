/* The firmware of a board: docs/RULES.md, "Boards on the cable" and "Entries in force". The frames are in node.h. */

#include "shared.h"

#include <string.h>

/* The master's note of an entry. */
struct note {
    uint32_t number;
    uint8_t kind;
    uint8_t outcome;
    uint8_t station;
    uint8_t tested;
    bool closed;
};

static size_t line_length(const struct vcube_node *node)
{
    return VCUBE_LINE_LENGTH(node->settings.n);
}

static size_t row_length(const struct vcube_node *node)
{
    return VCUBE_PACKED_LENGTH(node->settings.n);
}

/* The number of the turn that follows the entries in force. */
static uint32_t open_turn(const struct vcube_node *node)
{
    return node->entries + 1;
}

static bool is_live(const struct vcube_node *node)
{
    return node->has_line && node->line[0] == VCUBE_STATUS_LIVE;
}

/* ---- Answers ---- */

/* It has to ask for its line. Many boards may have missed the same entry: so one that the open turn does not wait for asks later, each at its own
 * time. */
static void need_line(struct vcube_node *node, const struct vcube_cable *cable, bool is_needed)
{
    const uint32_t own_time = (uint32_t)node->settings.own * node->settings.times.repeat / 8;

    if (!node->is_behind || (is_needed && !node->is_needed))
        node->next_ask = cable->now(cable->context) + (is_needed ? 0 : own_time);
    node->is_behind = true;
    node->is_needed = is_needed;
}

/* It heard the note of an entry that it cannot put in force. */
static void fall_behind(struct vcube_node *node, const struct vcube_cable *cable, uint32_t number, bool is_needed)
{
    if (!node->is_behind || !is_after(node->newest, number)) {
        node->newest = number;
        node->newest_heard = cable->now(cable->context);
    }
    need_line(node, cable, is_needed);
}

/* Whether this line keeps the line rules. */
static bool is_sound(const struct vcube_node *node, const uint8_t *line)
{
    const struct vcube_node_settings *own = &node->settings;
    uint8_t row[8];
    const uint8_t refusal = vcube_board_row(own->wiring, own->n, own->own, line, line_length(node), row, row_length(node));

    return refusal == VCUBE_ACCEPTED || refusal == VCUBE_REFUSED_NOT_LIVE;
}

/* A call refused. If the own line is damaged, the outputs go off, and as after a reset the board has no line until the master sends it. */
static void look_at_damage(struct vcube_node *node, const struct vcube_cable *cable)
{
    if (!node->has_line || is_sound(node, node->line))
        return;
    node->has_line = false;
    node->turn = VCUBE_NODE_NO_TURN;
    node->is_confirmed = false;
    fall_behind(node, cable, node->entries, true);
}

/* Writes the own row into a frame; gives whether there is one to send, which a board that is not live has not (Rule Silent). */
static bool put_row(const struct vcube_node *node, struct vcube_frame *frame)
{
    frame->length = (uint8_t)row_length(node);
    return node->has_line
           && vcube_board_row(node->settings.wiring, node->settings.n, node->settings.own, node->line, line_length(node), frame->data,
                              frame->length) == VCUBE_ACCEPTED;
}

static void reply(struct vcube_node *node, const struct vcube_cable *cable, uint8_t tester)
{
    struct vcube_frame frame = frame_of(VCUBE_FRAME_REPLY, node->settings.own, tester, open_turn(node));

    if (put_row(node, &frame))
        send_frame(cable, &frame);
    else
        look_at_damage(node, cable);
}

/* Rule Answers in step: a test of the open turn is answered. One of a later turn is kept until the entries before it are in force. A board that is
 * behind answers none. */
static void hear_test(struct vcube_node *node, const struct vcube_cable *cable, uint8_t tester, uint32_t low)
{
    const uint32_t number = whole_number(low, open_turn(node));

    if (number == open_turn(node) && !node->is_behind) {
        reply(node, cable, tester);
    } else if (!is_after(open_turn(node), number)) {
        node->has_test = true;
        node->test_from = tester;
        node->test_number = number;
        if (node->is_behind)
            need_line(node, cable, true);
    }
}

static void answer_kept_test(struct vcube_node *node, const struct vcube_cable *cable)
{
    if (node->has_test && !node->is_behind && !is_after(node->test_number, open_turn(node))) {
        node->has_test = false;
        if (node->test_number == open_turn(node))
            reply(node, cable, node->test_from);
    }
}

static void hear_exchange(struct vcube_node *node, const struct vcube_frame *frame, uint8_t tester, uint32_t low)
{
    const uint32_t number = whole_number(low, open_turn(node));

    if (frame->length == row_length(node) && !is_after(open_turn(node), number)) {
        node->has_exchange = true;
        node->exchange_from = tester;
        node->exchange_number = number;
        memcpy(node->exchange_row, frame->data, row_length(node));
    }
}

static void hear_probe(const struct vcube_node *node, const struct vcube_cable *cable, const struct vcube_frame *probe)
{
    struct vcube_frame frame = frame_of(VCUBE_FRAME_HERE, node->settings.own, 0, VCUBE_FRAME_NUMBER(probe->identifier));

    if (probe->length == 1 && is_live(node)) {
        frame.length = 5;
        frame.data[0] = probe->data[0];
        put_number(&frame.data[1], node->entries);
        send_frame(cable, &frame);
    }
}

/* ---- The own turn ---- */

static void give_test(struct vcube_node *node, const struct vcube_cable *cable)
{
    const struct vcube_frame frame = frame_of(VCUBE_FRAME_TEST, node->settings.own, node->tested, open_turn(node));

    node->test_given = cable->now(cable->context);
    node->is_test_waiting = true;
    send_frame(cable, &frame);
}

/* The frame by which a turn of this outcome ends. */
static enum vcube_frame_kind end_kind(size_t outcome)
{
    switch (outcome) {
    case VCUBE_OUTCOME_PASS_FINISHED:
        return VCUBE_FRAME_FINISHED;
    case VCUBE_OUTCOME_EXCHANGED:
        return VCUBE_FRAME_EXCHANGE;
    case VCUBE_OUTCOME_TOLD:
        return VCUBE_FRAME_LEFT;
    case VCUBE_OUTCOME_TESTED_TOLD:
        return VCUBE_FRAME_TOLD;
    default:
        return VCUBE_FRAME_NO_REPLY;
    }
}

/* Rule Aside: makes the turn on a copy of the line, with the row that was replied, or without (NULL); and sends how it ended. */
static void end_turn(struct vcube_node *node, const struct vcube_cable *cable, const uint8_t *replied)
{
    const struct vcube_node_settings *own = &node->settings;
    size_t outcome;
    uint8_t refusal;

    memcpy(node->aside, node->line, line_length(node));
    if (replied)
        refusal = vcube_board_replied(own->wiring, own->n, own->own, node->aside, line_length(node), replied, row_length(node), &outcome);
    else
        refusal = vcube_board_not_replied(own->wiring, own->n, own->own, node->aside, line_length(node), &outcome);
    if (refusal) {
        node->turn = VCUBE_NODE_NO_TURN;
        look_at_damage(node, cable);
        return;
    }
    node->turn = VCUBE_NODE_ENDED;
    node->outcome = (uint8_t)outcome;
    node->end = frame_of(end_kind(outcome), own->own, outcome == VCUBE_OUTCOME_PASS_FINISHED ? 0 : node->tested, open_turn(node));
    if (outcome == VCUBE_OUTCOME_EXCHANGED)
        put_row(node, &node->end);
    send_frame(cable, &node->end);
}

/* The master grants the open turn to this board. It repeats its grants: a turn that is ended is not made anew, but its end is sent again.
 *
 * Rule Aside allows one turn, and a reset forgets it: so the turn is made again, on the line that the master sent. The same board is tested, and
 * replies in step the same row. Only whether its reply comes in time may differ, and so the outcome: put_own compares it with the entry's. */
static void hear_grant(struct vcube_node *node, const struct vcube_cable *cable)
{
    size_t tested;

    if (node->turn == VCUBE_NODE_ENDED)
        send_frame(cable, &node->end);
    if (node->turn != VCUBE_NODE_NO_TURN)
        return;
    if (vcube_board_next(node->settings.wiring, node->settings.n, node->settings.own, node->line, line_length(node), &tested)) {
        look_at_damage(node, cable);
        return;
    }
    if (tested == VCUBE_NO_STATION) {
        end_turn(node, cable, NULL);
        return;
    }
    node->turn = VCUBE_NODE_TESTING;
    node->tested = (uint8_t)tested;
    node->is_test_out = false;
    give_test(node, cable);
}

static void hear_reply(struct vcube_node *node, const struct vcube_cable *cable, const struct vcube_frame *frame)
{
    if (node->turn == VCUBE_NODE_TESTING && frame->length == row_length(node) && VCUBE_FRAME_SENDER(frame->identifier) == node->tested
        && whole_number(VCUBE_FRAME_NUMBER(frame->identifier), open_turn(node)) == open_turn(node))
        end_turn(node, cable, frame->data);
}

/* The time of the reply runs from when the test has gone out. If a repeated test has to wait, the cable is out, and the time begins anew. */
static void look_at_test(struct vcube_node *node, const struct vcube_cable *cable, uint32_t now)
{
    if (node->is_test_waiting && have_gone_out(cable)) {
        const uint32_t moment = cable->now(cable->context);

        if (!node->is_test_out || (uint32_t)(moment - node->test_given) >= node->settings.times.repeat)
            node->reply_end = moment + node->settings.times.reply;
        node->is_test_out = true;
        node->is_test_waiting = false;
        node->next_test = moment + node->settings.times.repeat;
    }
    if (node->is_test_waiting)
        return;
    if (is_reached(node->reply_end, now))
        end_turn(node, cable, NULL);
    else if (is_reached(node->next_test, now))
        give_test(node, cable);
}

/* ---- Entries in force ---- */

/* The board is in step if it misses no entry that the master has told. The master tells its last entry again and again: so a newer note that was not
 * heard again for the time of a turn was none of its. */
static void confirm(struct vcube_node *node, const struct vcube_cable *cable)
{
    const uint32_t now = cable->now(cable->context);

    if (node->is_behind && is_after(node->newest, node->entries) && (uint32_t)(now - node->newest_heard) < node->settings.times.grant)
        return;
    node->is_behind = false;
    node->confirmed = now;
    node->is_confirmed = true;
}

static void tell_line(const struct vcube_node *node)
{
    if (node->settings.in_force)
        node->settings.in_force(node->settings.context, node->entries, node->line, line_length(node));
}

static void drop_halves(struct vcube_node *node)
{
    node->has_head = false;
    node->has_row = false;
}

static void take_line(struct vcube_node *node, uint32_t entries, const uint8_t *line)
{
    memcpy(node->line, line, line_length(node));
    node->has_line = true;
    node->entries = entries;
    node->turn = VCUBE_NODE_NO_TURN;
    drop_halves(node);
    tell_line(node);
}

/* Rule In force, of the board whose turn or crash was entered. A turn that was entered with another outcome is not the one made aside. */
static bool put_own(const struct vcube_node *node, const struct note *note, uint8_t *line)
{
    if (note->kind == VCUBE_KIND_CRASH) {
        line[0] = VCUBE_STATUS_CRASHED;
        return true;
    }
    if (node->turn != VCUBE_NODE_ENDED || node->outcome != note->outcome)
        return false;
    memcpy(line, node->aside, line_length(node));
    return true;
}

/* Rule In force, of the board that was tested. */
static bool put_tested(const struct vcube_node *node, const struct note *note, uint8_t *line)
{
    const struct vcube_node_settings *own = &node->settings;

    if (note->outcome == VCUBE_OUTCOME_TESTED_TOLD)
        return vcube_board_told(own->wiring, own->n, own->own, line, line_length(node), note->station) == VCUBE_ACCEPTED;
    if (note->outcome == VCUBE_OUTCOME_EXCHANGED)
        return node->has_exchange && node->exchange_number == note->number && node->exchange_from == note->station
               && vcube_board_exchanged(own->wiring, own->n, own->own, line, line_length(node), note->station, node->exchange_row,
                                        row_length(node)) == VCUBE_ACCEPTED;
    return true;
}

/* Puts the next entry in force; gives whether it could. */
static bool put_in_force(struct vcube_node *node, const struct note *note)
{
    const struct vcube_node_settings *own = &node->settings;
    uint8_t line[VCUBE_LINE_LENGTH(VCUBE_MOST_STATIONS)];

    memcpy(line, node->line, line_length(node));
    if (note->station == own->own) {
        if (!put_own(node, note, line))
            return false;
    } else if (note->tested == own->own && !put_tested(node, note, line)) {
        return false;
    }
    if (note->closed && vcube_board_round_closed(own->wiring, own->n, own->own, line, line_length(node)))
        return false;
    take_line(node, note->number, line);
    return true;
}

/* A note that comes with a grant, or alone. If no entry is made yet, the line is fresh. A note of an entry that is in force says nothing new. */
static void hear_note(struct vcube_node *node, const struct vcube_cable *cable, const struct note *note, bool is_needed)
{
    const struct vcube_node_settings *own = &node->settings;

    if (!node->has_line && note->kind == 0
        && vcube_board_fresh(own->wiring, own->n, own->own, node->line, line_length(node)) == VCUBE_ACCEPTED) {
        node->has_line = true;
        node->entries = 0;
        tell_line(node);
    }
    if (node->has_line && (is_after(node->entries, note->number) || (note->kind == 0 && node->entries != 0)))
        return;
    if (node->has_line && note->number == node->entries) {
        if (!node->is_behind)
            confirm(node, cable);
        return;
    }
    if (node->has_line && note->number == open_turn(node) && put_in_force(node, note)) {
        confirm(node, cable);
    } else {
        fall_behind(node, cable, note->number, is_needed);
        look_at_damage(node, cable);
    }
}

/* Whether the master may have made this entry; or says that none is made yet. */
static bool is_note(const struct vcube_node *node, const struct note *note)
{
    if (note->kind == 0)
        return note->number == 0 && !note->closed && note->station == 0 && note->tested == 0 && note->outcome == 0;
    return is_entry(node->settings.n, note->kind, note->station, note->tested, note->outcome);
}

static void hear_entered(struct vcube_node *node, const struct vcube_cable *cable, const struct vcube_frame *frame)
{
    const bool is_mine
        = VCUBE_FRAME_KIND(frame->identifier) == VCUBE_FRAME_GRANT && VCUBE_FRAME_RECEIVER(frame->identifier) == node->settings.own;
    struct note note;

    if (frame->length != 7 || (number_in(frame->data) & 0xfff) != VCUBE_FRAME_NUMBER(frame->identifier))
        return;
    note.number = number_in(frame->data) - 1;
    note.closed = frame->data[4] >> 7;
    note.kind = frame->data[4] >> 4 & 7;
    note.outcome = frame->data[4] & 15;
    note.station = frame->data[5];
    note.tested = frame->data[6];
    if (!is_note(node, &note))
        return;
    hear_note(node, cable, &note, is_mine || (node->has_test && node->test_number == note.number + 1));
    if (is_mine && node->has_line && !node->is_behind && note.number == node->entries)
        hear_grant(node, cable);
}

/* ---- The line, as the master has it ---- */

/* Rule Packed row: the line of the two halves. Gives whether it keeps the line rules. */
static bool line_of_halves(const struct vcube_node *node, uint8_t *line)
{
    line[0] = node->head[0] & 3;
    line[1] = node->head[1] & 127;
    line[2] = node->head[1] >> 7;
    line[3] = node->head[0] >> 2;
    line[4] = node->head[2];
    line[5] = node->head[3];
    for (size_t k = 0; k < node->settings.n; k++)
        line[VCUBE_HEAD + k] = node->row[k / 8] >> k % 8 & 1;
    return is_sound(node, line);
}

/* A half is kept for the time of a turn: in that time 4,096 entries cannot be made, so that 12 bits tell which halves belong together. */
static void drop_old_halves(struct vcube_node *node, uint32_t now)
{
    if ((uint32_t)(now - node->head_come) >= node->settings.times.grant)
        node->has_head = false;
    if ((uint32_t)(now - node->row_come) >= node->settings.times.grant)
        node->has_row = false;
}

/* Takes the line that the master sent, once both halves of it have come, if more entries are in force in it. If a note of a newer entry was heard,
 * it is an old line: the board stays behind, and asks again. */
static void join_halves(struct vcube_node *node, const struct vcube_cable *cable)
{
    uint8_t line[VCUBE_LINE_LENGTH(VCUBE_MOST_STATIONS)];

    drop_old_halves(node, cable->now(cable->context));
    if (!node->has_head || !node->has_row || (node->head_number & 0xfff) != node->row_number)
        return;
    drop_halves(node);
    if (node->has_line && is_after(node->entries, node->head_number))
        return;
    if (!node->has_line || node->head_number != node->entries) {
        if (!line_of_halves(node, line))
            return;
        take_line(node, node->head_number, line);
    }
    confirm(node, cable);
}

static void hear_line_head(struct vcube_node *node, const struct vcube_cable *cable, const struct vcube_frame *frame)
{
    if (frame->length != 8 || (number_in(frame->data) & 0xfff) != VCUBE_FRAME_NUMBER(frame->identifier))
        return;
    node->has_head = true;
    node->head_come = cable->now(cable->context);
    node->head_number = number_in(frame->data);
    memcpy(node->head, &frame->data[4], sizeof node->head);
    join_halves(node, cable);
}

static void hear_line_row(struct vcube_node *node, const struct vcube_cable *cable, const struct vcube_frame *frame)
{
    if (frame->length != row_length(node))
        return;
    node->has_row = true;
    node->row_come = cable->now(cable->context);
    node->row_number = VCUBE_FRAME_NUMBER(frame->identifier);
    memcpy(node->row, frame->data, row_length(node));
    join_halves(node, cable);
}

static void look_at_ask(struct vcube_node *node, const struct vcube_cable *cable, uint32_t now)
{
    const struct vcube_frame frame = frame_of(VCUBE_FRAME_ASK, node->settings.own, 0, node->entries);

    if (is_reached(node->next_ask, now) && have_gone_out(cable)) {
        node->next_ask = now + node->settings.times.repeat * (node->is_needed ? 1 : 1 + (uint32_t)node->settings.n / 8);
        send_frame(cable, &frame);
    }
}

/* Whether it asks: it misses an entry, and is not silent. */
static bool asks(const struct vcube_node *node)
{
    return node->is_behind && (!node->has_line || is_live(node));
}

/* ---- The three calls ---- */

/* A frame from the master, whose frames have 0 as their sender. A line that the board did not ask for is an old one. */
static void hear_master(struct vcube_node *node, const struct vcube_cable *cable, const struct vcube_frame *frame)
{
    const bool is_mine = VCUBE_FRAME_RECEIVER(frame->identifier) == node->settings.own;

    if (VCUBE_FRAME_SENDER(frame->identifier) != 0)
        return;
    switch (VCUBE_FRAME_KIND(frame->identifier)) {
    case VCUBE_FRAME_ENTERED:
    case VCUBE_FRAME_GRANT:
        hear_entered(node, cable, frame);
        break;
    case VCUBE_FRAME_LINE_HEAD:
        if (is_mine && node->is_behind)
            hear_line_head(node, cable, frame);
        break;
    case VCUBE_FRAME_LINE_ROW:
        if (is_mine && node->is_behind)
            hear_line_row(node, cable, frame);
        break;
    case VCUBE_FRAME_PROBE:
        hear_probe(node, cable, frame);
        break;
    default:
        break;
    }
}

static void hear(struct vcube_node *node, const struct vcube_cable *cable, const struct vcube_frame *frame)
{
    const uint8_t sender = VCUBE_FRAME_SENDER(frame->identifier);
    const uint32_t number = VCUBE_FRAME_NUMBER(frame->identifier);

    hear_master(node, cable, frame);
    answer_kept_test(node, cable);
    /* From another board to this one. Without its line a board cannot tell which number is meant. */
    if (!node->has_line || VCUBE_FRAME_RECEIVER(frame->identifier) != node->settings.own || sender == node->settings.own
        || sender >= node->settings.n)
        return;
    switch (VCUBE_FRAME_KIND(frame->identifier)) {
    case VCUBE_FRAME_TEST:
        if (frame->length == 0)
            hear_test(node, cable, sender, number);
        break;
    case VCUBE_FRAME_REPLY:
        hear_reply(node, cable, frame);
        break;
    case VCUBE_FRAME_EXCHANGE:
        hear_exchange(node, frame, sender, number);
        break;
    default:
        break;
    }
}

uint8_t vcube_node_start(struct vcube_node *node, const struct vcube_node_settings *settings)
{
    size_t length = 0;

    /* The call judges wiring, size and number. */
    memset(node, 0, sizeof *node);
    if (settings->n <= VCUBE_MOST_STATIONS)
        length = VCUBE_LINE_LENGTH(settings->n);
    node->settings = *settings;
    return vcube_board_fresh(settings->wiring, settings->n, settings->own, node->line, length);
}

uint32_t vcube_node_step(struct vcube_node *node, const struct vcube_cable *cable)
{
    struct vcube_frame frame;
    uint32_t now;
    unsigned count = 0;

    if (!node->has_begun)
        node->wake = cable->now(cable->context);
    node->has_begun = true;
    if (cable->receive(cable->context, &frame, node->wake))
        hear(node, cable, &frame);
    /* All that had come by this moment is handled before the moment counts. */
    now = cable->now(cable->context);
    for (; count < MOST_FRAMES && cable->receive(cable->context, &frame, now); count++)
        hear(node, cable, &frame);
    if (is_reached(node->confirmed + node->settings.quiet, now))
        node->is_confirmed = false;
    if (count == MOST_FRAMES) {
        node->wake = now;
        return node->wake;
    }

    if (node->turn == VCUBE_NODE_TESTING)
        look_at_test(node, cable, now);
    if (asks(node))
        look_at_ask(node, cable, now);

    node->wake = now + IDLE_TIME;
    if (node->is_confirmed)
        node->wake = earlier(node->wake, node->confirmed + node->settings.quiet);
    if (node->turn == VCUBE_NODE_TESTING)
        node->wake = earlier(node->wake, node->is_test_waiting ? now + 1 : earlier(node->reply_end, node->next_test));
    if (asks(node))
        node->wake = earlier(node->wake, have_gone_out(cable) ? node->next_ask : now + 1);
    return node->wake;
}

bool vcube_node_outputs_on(const struct vcube_node *node, uint32_t now)
{
    return is_live(node) && node->is_confirmed && !is_reached(node->confirmed + node->settings.quiet, now);
}
