/* The firmware of the bus master: docs/RULES.md, "The bus master" and "Entries in force". The frames are in node.h. */

#include "shared.h"

#include <string.h>

/* How often a board that answers probes gets the time of a turn once more. */
#define MOST_LONGER 3

/* The layout of what is saved; the table is behind it. */
enum saved_byte {
    SAVED_EDITION = 0,
    SAVED_WIRING = 1,
    SAVED_SIZE = 2,
    SAVED_GRANTED_BEFORE = 3,
    SAVED_ENTRIES = 4,
    SAVED_ROUNDS = 8,
    SAVED_TESTS = 12,
    SAVED_LAST = 16,
    SAVED_END = 22
};

#define EDITION 1

/* A line of the run sheet. */
struct sheet_line {
    uint8_t station;
    uint8_t tested;
    uint8_t outcome;
    uint8_t status;
};

/* An entry that was made on the copy of the table. */
struct tried {
    uint8_t kind;
    struct sheet_line sheet;
    uint32_t rounds;
    uint32_t tests;
};

static uint8_t *table(struct vcube_master *master)
{
    return &master->saved[VCUBE_MASTER_HEAD];
}

static size_t table_length(const struct vcube_master *master)
{
    return VCUBE_TABLE_LENGTH(master->settings.n);
}

static const uint8_t *line_of(const struct vcube_master *master, size_t station)
{
    return &vcube_master_table(master)[station * VCUBE_LINE_LENGTH(master->settings.n)];
}

static bool is_live(const struct vcube_master *master, size_t station)
{
    return line_of(master, station)[0] == VCUBE_STATUS_LIVE;
}

/* The number of the turn that follows the entries. */
static uint32_t open_turn(const struct vcube_master *master)
{
    return master->entries + 1;
}

/* ---- Frames of the master ---- */

/* The note of the last entry, with the grant of the open turn or alone. */
static void send_note(const struct vcube_master *master, const struct vcube_cable *cable, enum vcube_frame_kind kind, size_t receiver)
{
    const struct vcube_entry *last = &master->last;
    struct vcube_frame frame = frame_of(kind, 0, receiver, open_turn(master));

    frame.length = 7;
    put_number(frame.data, open_turn(master));
    frame.data[4] = (uint8_t)((last->closed ? 128 : 0) + 16 * last->kind + last->outcome);
    frame.data[5] = last->station;
    frame.data[6] = last->tested;
    send_frame(cable, &frame);
}

static void give_grant(struct vcube_master *master, const struct vcube_cable *cable)
{
    master->grant_given = cable->now(cable->context);
    master->is_grant_waiting = true;
    send_note(master, cable, VCUBE_FRAME_GRANT, master->granted);
}

static void give_probe(struct vcube_master *master, const struct vcube_cable *cable)
{
    struct vcube_frame frame = frame_of(VCUBE_FRAME_PROBE, 0, 0, open_turn(master));

    master->phase = VCUBE_MASTER_PROBING;
    master->has_heard_granted = false;
    master->has_heard_other = false;
    master->probes++;
    master->is_probe_waiting = true;
    master->probe_given = cable->now(cable->context);
    frame.length = 1;
    frame.data[0] = master->probes;
    send_frame(cable, &frame);
}

/* Rule Packed row. */
static size_t pack_row(const struct vcube_master *master, size_t station, uint8_t *packed)
{
    const uint8_t *row = &line_of(master, station)[VCUBE_HEAD];

    memset(packed, 0, 8);
    for (size_t k = 0; k < master->settings.n; k++)
        packed[k / 8] = (uint8_t)(packed[k / 8] | row[k] << k % 8);
    return VCUBE_PACKED_LENGTH(master->settings.n);
}

static void send_line(const struct vcube_master *master, const struct vcube_cable *cable, size_t station)
{
    const uint8_t *line = line_of(master, station);
    struct vcube_frame head = frame_of(VCUBE_FRAME_LINE_HEAD, 0, station, master->entries);
    struct vcube_frame row = frame_of(VCUBE_FRAME_LINE_ROW, 0, station, master->entries);

    head.length = 8;
    put_number(head.data, master->entries);
    head.data[4] = (uint8_t)(line[0] + 4 * line[3]);
    head.data[5] = (uint8_t)(line[1] + 128 * line[2]);
    head.data[6] = line[4];
    head.data[7] = line[5];
    send_frame(cable, &head);
    row.length = (uint8_t)pack_row(master, station, row.data);
    send_frame(cable, &row);
}

/* ---- Entries ---- */

static void stop_refused(struct vcube_master *master, uint8_t refusal)
{
    const struct vcube_fault fault = {VCUBE_FAULT_REFUSED, open_turn(master), VCUBE_NO_STATION, VCUBE_NO_STATION, VCUBE_NO_STATION, refusal, 0};

    master->phase = VCUBE_MASTER_STOPPED;
    if (master->settings.fault)
        master->settings.fault(master->settings.context, &fault);
}

/* Makes an entry on the copy of the table. The tally counts from 0, so that it is never full; gives whether a run takes the entry. */
static bool try_entry(struct vcube_master *master, uint8_t kind, uint8_t station, struct tried *tried)
{
    const uint8_t entry[2] = {kind, station};
    uint8_t sheet[4];
    size_t taken;
    uint8_t refusal;

    tried->kind = kind;
    tried->rounds = 0;
    tried->tests = 0;
    memcpy(master->copy, table(master), table_length(master));
    refusal = vcube_run(master->settings.wiring, master->settings.n, master->copy, table_length(master), &tried->rounds, &tried->tests, entry,
                        sizeof entry, sheet, sizeof sheet, &taken);
    if (refusal) {
        stop_refused(master, refusal);
        return false;
    }
    tried->sheet.station = sheet[0];
    tried->sheet.tested = sheet[1];
    tried->sheet.outcome = sheet[2];
    tried->sheet.status = sheet[3];
    return true;
}

static void put_last(uint8_t *saved, const struct vcube_entry *last)
{
    saved[0] = last->kind;
    saved[1] = last->station;
    saved[2] = last->tested;
    saved[3] = last->outcome;
    saved[4] = last->status;
    saved[5] = last->closed;
}

static void save(struct vcube_master *master)
{
    uint8_t *saved = master->saved;

    saved[SAVED_EDITION] = EDITION;
    saved[SAVED_WIRING] = (uint8_t)master->settings.wiring;
    saved[SAVED_SIZE] = (uint8_t)master->settings.n;
    saved[SAVED_GRANTED_BEFORE] = master->granted_before;
    put_number(&saved[SAVED_ENTRIES], master->entries);
    put_number(&saved[SAVED_ROUNDS], master->rounds);
    put_number(&saved[SAVED_TESTS], master->tests);
    put_last(&saved[SAVED_LAST], &master->last);
    if (master->settings.save)
        master->settings.save(master->settings.context, saved, VCUBE_MASTER_SAVED_LENGTH(master->settings.n));
}

/* Makes what was tried the next entry. It is saved before any frame tells of it: so no board ever has more entries than what was saved. */
static void take_entry(struct vcube_master *master, const struct tried *tried)
{
    memcpy(table(master), master->copy, table_length(master));
    master->entries++;
    master->rounds += tried->rounds;
    master->tests += tried->tests;
    master->last.number = master->entries;
    master->last.kind = tried->kind;
    master->last.station = tried->sheet.station;
    master->last.tested = tried->sheet.tested;
    master->last.outcome = tried->sheet.outcome;
    master->last.status = tried->sheet.status;
    master->last.closed = tried->rounds == 1;
    /* The one whose turn is over. If another board is entered as crashed meanwhile, the granted one is granted again. */
    if (tried->sheet.station == master->granted)
        master->granted_before = master->granted;
    master->phase = VCUBE_MASTER_IDLE;
    save(master);
    if (master->settings.entered)
        master->settings.entered(master->settings.context, &master->last);
}

static void enter(struct vcube_master *master, uint8_t kind, uint8_t station)
{
    struct tried tried;

    if (try_entry(master, kind, station, &tried))
        take_entry(master, &tried);
}

/* ---- Boards that do not keep the rules ---- */

/* Names it; then it is entered as crashed, or the master stops, as its maker chose. */
static void name_fault(struct vcube_master *master, const struct vcube_fault *fault)
{
    if (master->settings.fault)
        master->settings.fault(master->settings.context, fault);
    if (master->settings.stops_at_fault || fault->kind == VCUBE_FAULT_AHEAD)
        master->phase = VCUBE_MASTER_STOPPED;
    else if (is_live(master, fault->board))
        enter(master, VCUBE_KIND_CRASH, fault->board);
}

/* A fault of this board; by the table the granted one tests `should_test`, and ends with `should_say`. */
static struct vcube_fault fault_of(const struct vcube_master *master, enum vcube_fault_kind kind, uint8_t board, uint8_t tested)
{
    const struct vcube_fault fault = {kind, open_turn(master), board, tested, master->should_test, master->should_say, master->should_say};

    return fault;
}

/* Whether a packed row is the table's row of the board that sent it. Its own bit and the bits behind that of the last board do not count. */
static bool is_row_of(const struct vcube_master *master, const uint8_t *packed, size_t station)
{
    const uint8_t *row = &line_of(master, station)[VCUBE_HEAD];

    for (size_t k = 0; k < master->settings.n; k++)
        if (k != station && (packed[k / 8] >> k % 8 & 1) != row[k])
            return false;
    return true;
}

/* A test on the cable is heard by all: whom the granted board tests is compared with the table. */
static void hear_test(struct vcube_master *master, uint8_t tester, uint8_t tested)
{
    struct vcube_fault fault = fault_of(master, VCUBE_FAULT_WRONG_TEST, tester, tested);

    if (!is_live(master, tester))
        return;
    if (tester != master->granted || master->phase == VCUBE_MASTER_RESTING) {
        fault.kind = VCUBE_FAULT_NOT_GRANTED;
        fault.should_test = VCUBE_NO_STATION;
        name_fault(master, &fault);
    } else if (tested != master->should_test) {
        name_fault(master, &fault);
    }
}

static void hear_reply(struct vcube_master *master, const struct vcube_frame *frame, uint8_t sender)
{
    struct vcube_fault fault = fault_of(master, VCUBE_FAULT_WRONG_ROW, sender, VCUBE_NO_STATION);

    fault.should_test = VCUBE_NO_STATION;
    if (frame->length != VCUBE_PACKED_LENGTH(master->settings.n))
        return;
    if (is_live(master, sender)) {
        if (!is_row_of(master, frame->data, sender))
            name_fault(master, &fault);
    } else if (!master->is_deceived) {
        master->is_deceived = true;
        fault.kind = VCUBE_FAULT_NOT_LIVE;
        name_fault(master, &fault);
    }
}

/* ---- The end of a turn ---- */

static uint8_t outcome_of(uint32_t kind)
{
    switch (kind) {
    case VCUBE_FRAME_FINISHED:
        return VCUBE_OUTCOME_PASS_FINISHED;
    case VCUBE_FRAME_EXCHANGE:
        return VCUBE_OUTCOME_EXCHANGED;
    case VCUBE_FRAME_LEFT:
        return VCUBE_OUTCOME_TOLD;
    case VCUBE_FRAME_TOLD:
        return VCUBE_OUTCOME_TESTED_TOLD;
    default:
        return VCUBE_OUTCOME_NO_REPLY;
    }
}

/* Rule Entered: an end of the granted board, of the open turn. A board that was reset in its turn makes it again, and may send two ends that differ:
 * the first that is heard is entered. If it is not the one that the board keeps, the outcomes differ, and the board asks for its line. */
static void hear_end(struct vcube_master *master, const struct vcube_frame *frame)
{
    const uint8_t outcome = outcome_of(VCUBE_FRAME_KIND(frame->identifier));
    const uint8_t tested = outcome == VCUBE_OUTCOME_PASS_FINISHED ? VCUBE_NO_STATION : VCUBE_FRAME_RECEIVER(frame->identifier);
    const bool is_exchange = outcome == VCUBE_OUTCOME_EXCHANGED;
    struct vcube_fault fault = fault_of(master, VCUBE_FAULT_WRONG_TEST, master->granted, tested);

    fault.said = outcome;
    if (frame->length != (is_exchange ? VCUBE_PACKED_LENGTH(master->settings.n) : 0))
        return;
    if (tested != master->should_test) {
        name_fault(master, &fault);
    } else if (is_exchange && !is_row_of(master, frame->data, master->granted)) {
        fault.kind = VCUBE_FAULT_WRONG_ROW;
        name_fault(master, &fault);
    } else if (outcome == VCUBE_OUTCOME_NO_REPLY && is_live(master, tested)) {
        enter(master, VCUBE_KIND_LATE_TURN, master->granted);
    } else if (outcome == master->should_say || master->is_deceived) {
        enter(master, VCUBE_KIND_TURN, master->granted);
    } else {
        fault.kind = VCUBE_FAULT_WRONG_END;
        name_fault(master, &fault);
    }
}

/* ---- Probes ---- */

static void hear_here(struct vcube_master *master, const struct vcube_frame *frame, uint8_t sender)
{
    const struct vcube_fault fault = fault_of(master, VCUBE_FAULT_AHEAD, sender, VCUBE_NO_STATION);

    if (master->phase != VCUBE_MASTER_PROBING || frame->length != 5 || frame->data[0] != master->probes)
        return;
    if (is_after(number_in(&frame->data[1]), master->entries)) {
        name_fault(master, &fault);
        return;
    }
    if (sender == master->granted)
        master->has_heard_granted = true;
    else if (is_live(master, sender))
        master->has_heard_other = true;
}

static void tell_silence(struct vcube_master *master, bool is_silent)
{
    if (master->settings.silence && master->is_silent != is_silent)
        master->settings.silence(master->settings.context, is_silent);
    master->is_silent = is_silent;
}

/* What was handed over at this moment has not gone out. If no live board was heard since either, nobody acknowledges it. */
static void look_at_waiting(struct vcube_master *master, uint32_t given, uint32_t now)
{
    const uint32_t longest = master->settings.times.grant + master->settings.times.probe;

    if (is_reached(given + longest, now) && is_reached(master->heard + longest, now))
        tell_silence(master, true);
}

/* The time of the probe is over. If nobody answered, the cable is out: no entry; it grants and probes until somebody is heard. */
static void judge_probe(struct vcube_master *master, const struct vcube_cable *cable)
{
    const struct vcube_fault fault = fault_of(master, VCUBE_FAULT_NO_END, master->granted, VCUBE_NO_STATION);

    master->is_grant_out = false;
    if (master->has_heard_granted && master->longer == MOST_LONGER) {
        name_fault(master, &fault);
    } else if (!master->has_heard_granted && master->has_heard_other) {
        enter(master, VCUBE_KIND_CRASH, master->granted);
    } else {
        if (master->has_heard_granted)
            master->longer++;
        else
            tell_silence(master, true);
        master->phase = VCUBE_MASTER_GRANTED;
        give_grant(master, cable);
    }
}

/* ---- The clock ---- */

static void rest(struct vcube_master *master, uint32_t now)
{
    master->phase = VCUBE_MASTER_RESTING;
    master->granted = VCUBE_NO_STATION;
    master->next_grant = now;
}

/* Grants the next turn, and notes what it is by the table. Nobody live is no fault: the last entry is told again and again. */
static void grant_next(struct vcube_master *master, const struct vcube_cable *cable, uint32_t now)
{
    struct tried tried;
    size_t station;
    const uint8_t refusal = vcube_grant(master->settings.wiring, master->settings.n, table(master), table_length(master),
                                        master->granted_before, &station);

    master->is_over = refusal == VCUBE_REFUSED_NONE_LIVE;
    if (master->is_over || (master->is_to_rest && !refusal)) {
        rest(master, now);
    } else if (refusal) {
        stop_refused(master, refusal);
    } else if (try_entry(master, VCUBE_KIND_TURN, (uint8_t)station, &tried)) {
        master->phase = VCUBE_MASTER_GRANTED;
        master->granted = (uint8_t)station;
        master->should_test = tried.sheet.tested;
        master->should_say = tried.sheet.outcome;
        master->is_deceived = false;
        master->longer = 0;
        master->is_grant_out = false;
        give_grant(master, cable);
    }
}

/* The time of the turn runs from when the grant has gone out. If a repeated grant has to wait, the cable is out, and the time begins anew. */
static void look_at_grant(struct vcube_master *master, const struct vcube_cable *cable, uint32_t now)
{
    if (master->is_grant_waiting && have_gone_out(cable)) {
        const uint32_t moment = cable->now(cable->context);

        if (!master->is_grant_out || (uint32_t)(moment - master->grant_given) >= master->settings.times.repeat)
            master->end = moment + master->settings.times.grant;
        master->is_grant_out = true;
        master->is_grant_waiting = false;
        master->next_grant = moment + master->settings.times.repeat;
    }
    if (master->is_grant_waiting)
        look_at_waiting(master, master->grant_given, now);
    else if (is_reached(master->end, now))
        give_probe(master, cable);
    else if (is_reached(master->next_grant, now))
        give_grant(master, cable);
}

/* The time of the probe runs from when it has gone out. */
static void look_at_probe(struct vcube_master *master, const struct vcube_cable *cable, uint32_t now)
{
    if (master->is_probe_waiting && have_gone_out(cable)) {
        master->is_probe_waiting = false;
        master->end = cable->now(cable->context) + master->settings.times.probe;
    }
    if (master->is_probe_waiting)
        look_at_waiting(master, master->probe_given, now);
    else if (is_reached(master->end, now))
        judge_probe(master, cable);
}

static void look_at_rest(struct vcube_master *master, const struct vcube_cable *cable, uint32_t now)
{
    if (is_reached(master->next_grant, now) && have_gone_out(cable)) {
        master->next_grant = now + master->settings.times.repeat;
        send_note(master, cable, VCUBE_FRAME_ENTERED, 0);
    }
}

static void look_at_clock(struct vcube_master *master, const struct vcube_cable *cable, uint32_t now)
{
    if (master->phase == VCUBE_MASTER_RESTING && !master->is_to_rest && !master->is_over)
        master->phase = VCUBE_MASTER_IDLE;
    if (master->phase == VCUBE_MASTER_PROBING)
        look_at_probe(master, cable, now);
    if (master->phase == VCUBE_MASTER_IDLE)
        grant_next(master, cable, now);
    if (master->phase == VCUBE_MASTER_GRANTED)
        look_at_grant(master, cable, now);
    if (master->phase == VCUBE_MASTER_RESTING)
        look_at_rest(master, cable, now);
}

static uint32_t next_moment(const struct vcube_master *master, uint32_t now)
{
    switch (master->phase) {
    case VCUBE_MASTER_GRANTED:
        return master->is_grant_waiting ? now + 1 : earlier(master->end, master->next_grant);
    case VCUBE_MASTER_PROBING:
        return master->is_probe_waiting ? now + 1 : master->end;
    case VCUBE_MASTER_RESTING:
        return is_reached(master->next_grant, now) ? now + 1 : master->next_grant;
    default:
        return now + IDLE_TIME;
    }
}

/* ---- The calls ---- */

static bool is_of_board(uint32_t kind)
{
    return (kind >= VCUBE_FRAME_FINISHED && kind <= VCUBE_FRAME_REPLY) || kind == VCUBE_FRAME_ASK || kind == VCUBE_FRAME_HERE;
}

static void hear(struct vcube_master *master, const struct vcube_cable *cable, const struct vcube_frame *frame)
{
    const uint8_t sender = VCUBE_FRAME_SENDER(frame->identifier);
    const uint8_t receiver = VCUBE_FRAME_RECEIVER(frame->identifier);
    const uint32_t kind = VCUBE_FRAME_KIND(frame->identifier);

    if (master->phase == VCUBE_MASTER_STOPPED || !is_of_board(kind) || sender >= master->settings.n || receiver >= master->settings.n)
        return;
    if (is_live(master, sender)) {
        master->heard = cable->now(cable->context);
        tell_silence(master, false);
    }
    /* Asking and testing are signs of life too. */
    if (sender == master->granted && (kind == VCUBE_FRAME_ASK || kind == VCUBE_FRAME_TEST))
        master->has_heard_granted = true;
    if (kind == VCUBE_FRAME_ASK) {
        if (frame->length == 0)
            send_line(master, cable, sender);
        return;
    }
    /* A frame of a turn that is over, or is not open yet. */
    if (VCUBE_FRAME_NUMBER(frame->identifier) != (open_turn(master) & 0xfff) || master->phase == VCUBE_MASTER_IDLE)
        return;
    switch (kind) {
    case VCUBE_FRAME_TEST:
        if (frame->length == 0)
            hear_test(master, sender, receiver);
        break;
    case VCUBE_FRAME_REPLY:
        hear_reply(master, frame, sender);
        break;
    case VCUBE_FRAME_HERE:
        hear_here(master, frame, sender);
        break;
    default:
        if (sender == master->granted)
            hear_end(master, frame);
        break;
    }
}

static uint8_t begin(struct vcube_master *master, const struct vcube_master_settings *settings)
{
    memset(master, 0, sizeof *master);
    master->settings = *settings;
    master->granted_before = VCUBE_NO_STATION;
    master->granted = VCUBE_NO_STATION;
    return settings->n <= VCUBE_MOST_STATIONS ? VCUBE_ACCEPTED : VCUBE_REFUSED_SIZE_OUT_OF_RANGE;
}

uint8_t vcube_master_start(struct vcube_master *master, const struct vcube_master_settings *settings)
{
    const uint8_t refusal = begin(master, settings);

    return refusal ? refusal : vcube_fresh_table(settings->wiring, settings->n, table(master), table_length(master));
}

/* Whether the last entry that was saved is one that the master makes, or is none, and all numbers are 0. */
static bool is_last_entry(const struct vcube_master *master)
{
    static const uint8_t none[SAVED_END - SAVED_ENTRIES];
    const struct vcube_entry *last = &master->last;

    if (last->kind == 0)
        return memcmp(&master->saved[SAVED_ENTRIES], none, sizeof none) == 0;
    return is_entry(master->settings.n, last->kind, last->station, last->tested, last->outcome)
           && last->status == line_of(master, last->station)[0] && master->saved[SAVED_LAST + 5] <= 1;
}

uint8_t vcube_master_resume(struct vcube_master *master, const struct vcube_master_settings *settings, const uint8_t *saved, size_t length)
{
    const uint8_t *last = &saved[SAVED_LAST];
    size_t station;
    uint8_t refusal = begin(master, settings);

    if (refusal)
        return refusal;
    if (length != VCUBE_MASTER_SAVED_LENGTH(settings->n))
        return VCUBE_REFUSED_FIELD_PAST_END;
    if (saved[SAVED_EDITION] != EDITION || saved[SAVED_WIRING] != settings->wiring || saved[SAVED_SIZE] != settings->n)
        return VCUBE_REFUSED_SIZE_OR_TALLY_FIELD;
    memcpy(master->saved, saved, length);
    master->granted_before = saved[SAVED_GRANTED_BEFORE];
    master->entries = number_in(&saved[SAVED_ENTRIES]);
    master->rounds = number_in(&saved[SAVED_ROUNDS]);
    master->tests = number_in(&saved[SAVED_TESTS]);
    master->last.number = master->entries;
    master->last.kind = last[0];
    master->last.station = last[1];
    master->last.tested = last[2];
    master->last.outcome = last[3];
    master->last.status = last[4];
    master->last.closed = last[5];
    refusal = vcube_grant(settings->wiring, settings->n, table(master), table_length(master), master->granted_before, &station);
    if (refusal && refusal != VCUBE_REFUSED_NONE_LIVE)
        return refusal;
    return is_last_entry(master) ? VCUBE_ACCEPTED : VCUBE_REFUSED_SIZE_OR_TALLY_FIELD;
}

uint32_t vcube_master_step(struct vcube_master *master, const struct vcube_cable *cable)
{
    struct vcube_frame frame;
    uint32_t now;
    unsigned count = 0;

    if (!master->has_begun) {
        master->wake = cable->now(cable->context);
        master->heard = master->wake;
    }
    master->has_begun = true;
    if (cable->receive(cable->context, &frame, master->wake))
        hear(master, cable, &frame);
    /* All that had come by this moment is handled before the moment counts. */
    now = cable->now(cable->context);
    for (; count < MOST_FRAMES && cable->receive(cable->context, &frame, now); count++)
        hear(master, cable, &frame);
    master->wake = now;
    if (count < MOST_FRAMES) {
        look_at_clock(master, cable, now);
        master->wake = next_moment(master, now);
    }
    return master->wake;
}

void vcube_master_rest(struct vcube_master *master, bool is_to_rest)
{
    master->is_to_rest = is_to_rest;
}

bool vcube_master_is_resting(const struct vcube_master *master)
{
    return master->phase == VCUBE_MASTER_RESTING;
}

bool vcube_master_has_stopped(const struct vcube_master *master)
{
    return master->phase == VCUBE_MASTER_STOPPED;
}

const uint8_t *vcube_master_table(const struct vcube_master *master)
{
    return &master->saved[VCUBE_MASTER_HEAD];
}
