/* A board's firmware (board.c) and that of the bus master (master.c), on the calls of vcube.h: boards that test each other over one cable, whose
 * frames may be lost, doubled or late. C99, without a heap, a thread or an operating system.
 *
 * The maker of a board gives functions (struct vcube_cable): send a frame, receive a frame, the time. The main loop of a board is
 *
 *     struct vcube_node node;
 *     if (vcube_node_start(&node, &settings) == VCUBE_ACCEPTED)
 *         for (;;) {
 *             vcube_node_step(&node, &cable);
 *             set_outputs(vcube_node_outputs_on(&node, cable.now(cable.context)));
 *         }
 *
 * Where `send` may be slow, let a timer set the outputs: vcube_node_outputs_on only reads. A step handles a bounded number of frames, and where
 * frames come faster than it handles them, no time-out is judged until all that had come are handled.
 *
 * What holds: only the bus master's numbered entries are in force (docs/RULES.md, "Entries in force"). Entry e is the e-th of the master's table;
 * the turn that is open has number e + 1. A board makes its turn on a copy of its line, and the copy becomes its line once the master's note says
 * that the turn was entered.
 *
 * Every frame fits CAN 2.0B: a 29 bit identifier (kind 5 bits, sender 6, receiver 6, low bits of the number 12) and at most 8 bytes of data. Numbers
 * in data have four bytes, the high one first. On CAN the lower kind wins.
 *
 *   kind         from -> to       number   data
 *   ENTERED      master -> all    e + 1    as GRANT; nobody has the turn
 *   GRANT        master -> i      e + 1    e + 1 in four bytes; 128 if entry e closed the round, plus 16 * its kind, plus its outcome; its board;
 *                                          the board tested in it, or 255. With e = 0 the last three are 0, 0, 0
 *   FINISHED     i -> all (0)     e + 1    none: i ends its turn, and its pass
 *   LEFT         i -> j           e + 1    none: i ends its turn; j told it to leave
 *   TOLD         i -> j           e + 1    none: i ends its turn; it tells j to leave
 *   EXCHANGE     i -> j           e + 1    i ends its turn: the row of i as it was at the test, packed
 *   NO_REPLY     i -> j           e + 1    none: i ends its turn; j did not reply
 *   TEST         i -> j           e + 1    none
 *   REPLY        j -> i           e + 1    the row of j, packed
 *   PROBE        master -> all    e + 1    count of the probes
 *   ASK          k -> master (0)  e        none: k asks for its line
 *   LINE_HEAD    master -> k      e        e in four bytes; status, plus 4 * tests made; next distance, plus 128 if the pass is finished; told by;
 *                                          rounds ago: the line of k after entry e
 *   LINE_ROW     master -> k      e        its row, packed
 *   HERE         k -> master (0)  e + 1    as PROBE; how many entries are in force at k, in four bytes
 *
 * The sender of the master's kinds is 0: the kind says that they are the master's.
 *
 * Frames are not authenticated: who can send on the cable can have a sound board entered as crashed (one TEST in its name), or stop the master (one
 * HERE with a high number). */
#ifndef VCUBE_NODE_H
#define VCUBE_NODE_H

#include "vcube.h"

#include <stdbool.h>
#include <stddef.h>
#include <stdint.h>

#ifdef __cplusplus
extern "C" {
#endif

#define VCUBE_MOST_STATIONS 64

/* A frame. */
struct vcube_frame {
    uint32_t identifier;
    uint8_t length;
    uint8_t data[8];
};

/* On CAN the lower kind wins: the frames of a turn come before lines, of which many may be asked for at once. */
enum vcube_frame_kind {
    VCUBE_FRAME_ENTERED = 1,
    VCUBE_FRAME_GRANT = 2,
    VCUBE_FRAME_FINISHED = 3,
    VCUBE_FRAME_LEFT = 4,
    VCUBE_FRAME_TOLD = 5,
    VCUBE_FRAME_EXCHANGE = 6,
    VCUBE_FRAME_NO_REPLY = 7,
    VCUBE_FRAME_TEST = 8,
    VCUBE_FRAME_REPLY = 9,
    VCUBE_FRAME_PROBE = 10,
    VCUBE_FRAME_ASK = 11,
    VCUBE_FRAME_LINE_HEAD = 12,
    VCUBE_FRAME_LINE_ROW = 13,
    VCUBE_FRAME_HERE = 14
};

/* The parts of an identifier. */
#define VCUBE_FRAME_IDENTIFIER(kind, sender, receiver, number) \
    ((uint32_t)(kind) << 24 | (uint32_t)(sender) << 18 | (uint32_t)(receiver) << 12 | ((uint32_t)(number) & 0xfff))
#define VCUBE_FRAME_KIND(identifier) ((identifier) >> 24)
#define VCUBE_FRAME_SENDER(identifier) ((uint8_t)((identifier) >> 18 & 63))
#define VCUBE_FRAME_RECEIVER(identifier) ((uint8_t)((identifier) >> 12 & 63))
#define VCUBE_FRAME_NUMBER(identifier) ((uint32_t)((identifier) & 0xfff))

/* What the maker gives. Times are milliseconds of a clock that goes on after 4,294,967,295 with 0. */
struct vcube_cable {
    void *context;
    /* Hands a frame over for sending, and does not wait. A frame for which there is no room may be dropped: then it is a lost one. */
    void (*send)(void *context, const struct vcube_frame *frame);
    /* The next frame that has come, in the order in which they came; waits for one until the moment `until` at most, and gives false if none came. A
     * moment that is over means: do not wait. What has come already is given in any case. It may return earlier than at `until` with false. */
    bool (*receive)(void *context, struct vcube_frame *frame, uint32_t until);
    uint32_t (*now)(void *context);
    /* Whether all that was handed over has gone out (on CAN: was acknowledged by another node), so that nothing is waiting in the controller. NULL
     * if nobody can tell: then what is handed over counts as sent. */
    bool (*sent)(void *context);
};

/* The times of a plant, in milliseconds: the same at the bus master and at all boards. They are not checked: each must be above 0, `repeat` below
 * `reply`, `grant` above twice `reply`; and of 0 the master would never wait. */
struct vcube_times {
    uint32_t reply;                     /* a board waits so long for the reply to its test */
    uint32_t repeat;                    /* grant, test and ask are repeated after so long */
    uint32_t grant;                     /* the master waits so long for the end of a turn; a board keeps half of a line so long */
    uint32_t probe;                     /* the master waits so long for those that answer its probe, from when it has gone out */
};

/* For up to 64 boards on a cable of 1 Mbit/s, on which a frame takes up to 0.16 ms. docs/BOARDS.md says what each time has to cover. */
#define VCUBE_TIMES_USUAL {20, 5, 50, 20}

/* ---- A board ---- */

struct vcube_node_settings {
    size_t wiring;                      /* VCUBE_WIRING_CUBE or VCUBE_WIRING_RING */
    size_t n;                           /* boards of the plant */
    size_t own;                         /* this board's number */
    struct vcube_times times;
    uint32_t quiet;                     /* outputs go off if the board was in step with the master for the last time so many milliseconds ago */
    /* After each entry in force at the board, and each line that the master sent it: the number of entries in force, and the line, which has
     * n + 6 bytes. For the log; may be NULL. */
    void (*in_force)(void *context, uint32_t number, const uint8_t *line, size_t length);
    void *context;
};

/* A board's state. Only board.c writes it. */
struct vcube_node {
    struct vcube_node_settings settings;
    uint8_t line[VCUBE_LINE_LENGTH(VCUBE_MOST_STATIONS)];
    uint32_t entries;                   /* how many entries are in force */
    bool has_line;                      /* a board that starts has none, unless no entry is made yet, until the master sends it */
    bool is_behind;                     /* it missed a note, and asks for its line */
    uint32_t newest;                    /* the newest entry of which it heard a note, while it is behind */
    uint32_t newest_heard;              /* when it heard that note for the last time */
    bool is_needed;                     /* the open turn waits for it: it asks at once */
    uint32_t next_ask;
    /* The turn that is open here, of number entries + 1. */
    enum { VCUBE_NODE_NO_TURN, VCUBE_NODE_TESTING, VCUBE_NODE_ENDED } turn;
    uint8_t tested;
    bool is_test_out;                   /* the test has gone out at least once, so that the time of the reply runs */
    bool is_test_waiting;               /* a test was handed over and has not gone out yet */
    uint32_t test_given;                /* when it was handed over */
    uint32_t next_test;                 /* when it is repeated */
    uint32_t reply_end;                 /* when the time of the reply is over */
    uint8_t aside[VCUBE_LINE_LENGTH(VCUBE_MOST_STATIONS)];
    uint8_t outcome;                    /* of the turn made aside */
    struct vcube_frame end;             /* the end that was sent, to be sent again unchanged */
    /* The last exchange that was sent to this board. */
    bool has_exchange;
    uint8_t exchange_from;
    uint32_t exchange_number;
    uint8_t exchange_row[8];
    /* A test of a later turn, answered once in step. */
    bool has_test;
    uint8_t test_from;
    uint32_t test_number;
    /* The halves of a line that the master sent. */
    bool has_head;
    bool has_row;
    uint32_t head_come;                 /* when they came */
    uint32_t row_come;
    uint32_t head_number;
    uint32_t row_number;                /* low 12 bits */
    uint8_t head[4];
    uint8_t row[8];
    /* Outputs. */
    bool is_confirmed;
    uint32_t confirmed;                 /* when the board was in step for the last time */
    bool has_begun;
    uint32_t wake;                      /* the next moment at which it has something to do */
};

/* Starts a board, or starts it again: it asks the master for its line. Gives 0, or the number of a refusal (24, 1, 9). */
uint8_t vcube_node_start(struct vcube_node *node, const struct vcube_node_settings *settings);

/* Waits for a frame until there is something to do; handles all frames that have come; then looks at the clock. Gives the next moment at which there
 * is something to do, if no frame comes before. (With a `receive` that never waits, call it again at that moment, and whenever a frame has come.) */
uint32_t vcube_node_step(struct vcube_node *node, const struct vcube_cable *cable);

/* Whether the outputs of this board may be on: it is live by its own line, and was in step with the master within the quiet time. */
bool vcube_node_outputs_on(const struct vcube_node *node, uint32_t now);

/* ---- The bus master ---- */

/* An entry that the master made. */
struct vcube_entry {
    uint32_t number;                    /* from 1 */
    uint8_t kind;                       /* enum vcube_kind */
    uint8_t station;
    uint8_t tested;                     /* or VCUBE_NO_STATION */
    uint8_t outcome;                    /* enum vcube_outcome */
    uint8_t status;                     /* of the station after the entry */
    bool closed;                        /* whether it closed the round */
};

enum vcube_fault_kind {
    VCUBE_FAULT_WRONG_TEST = 1,         /* a board tests another board than the table says, or ends its turn so */
    VCUBE_FAULT_WRONG_END = 2,          /* it tests the right board, but the end of its turn has another outcome than the table's */
    VCUBE_FAULT_WRONG_ROW = 3,          /* the row that it sends is not that of the table */
    VCUBE_FAULT_NOT_GRANTED = 4,        /* it tests in the turn of another board */
    VCUBE_FAULT_NOT_LIVE = 5,           /* it replies, and is not live in the table */
    VCUBE_FAULT_NO_END = 6,             /* it answers probes, but does not end its turn */
    VCUBE_FAULT_AHEAD = 7,              /* more entries are in force at it than the master has: the master was started from an old state */
    VCUBE_FAULT_REFUSED = 8             /* a call of the library refused the master's own table */
};

/* A board that does not keep the rules, or a table that is damaged. */
struct vcube_fault {
    enum vcube_fault_kind kind;
    uint32_t number;                    /* of the turn */
    uint8_t board;                      /* which board; VCUBE_NO_STATION with VCUBE_FAULT_REFUSED */
    uint8_t tested;                     /* whom it tested, or VCUBE_NO_STATION */
    uint8_t should_test;                /* whom it should have tested, or VCUBE_NO_STATION */
    uint8_t said;                       /* outcome of its end; number of the refusal with VCUBE_FAULT_REFUSED */
    uint8_t should_say;                 /* the outcome by the table */
};

struct vcube_master_settings {
    size_t wiring;
    size_t n;
    struct vcube_times times;
    bool stops_at_fault;                /* false: a board that does not keep the rules is entered as crashed, and the plant goes on */
    /* Callbacks; each may be NULL. */
    void (*entered)(void *context, const struct vcube_entry *entry);
    void (*fault)(void *context, const struct vcube_fault *fault);
    /* Called after each entry, before any frame tells of it: write this away before you return. */
    void (*save)(void *context, const uint8_t *saved, size_t length);
    /* Nobody answers the probe, or for the times of a turn and a probe nothing goes out and nobody is heard (true): the cable is out, or all boards
     * are dead. A live board is heard again (false). */
    void (*silence)(void *context, bool is_silent);
    void *context;
};

/* What the master saves: this many bytes of numbers, then the table. */
#define VCUBE_MASTER_HEAD 24
#define VCUBE_MASTER_SAVED_LENGTH(n) (VCUBE_MASTER_HEAD + VCUBE_TABLE_LENGTH(n))

/* The master's state. Only master.c writes it. */
struct vcube_master {
    struct vcube_master_settings settings;
    uint8_t saved[VCUBE_MASTER_SAVED_LENGTH(VCUBE_MOST_STATIONS)];
    uint8_t copy[VCUBE_TABLE_LENGTH(VCUBE_MOST_STATIONS)];
    uint32_t entries;                   /* how many it made */
    uint32_t rounds;                    /* rounds closed; both go on after 4,294,967,295 with 0 */
    uint32_t tests;
    struct vcube_entry last;            /* the last entry; kind 0 if there is none */
    uint8_t granted_before;             /* the board granted last, whose turn is over; or VCUBE_NO_STATION */
    enum { VCUBE_MASTER_IDLE, VCUBE_MASTER_GRANTED, VCUBE_MASTER_PROBING, VCUBE_MASTER_RESTING, VCUBE_MASTER_STOPPED } phase;
    bool is_to_rest;
    bool is_over;                       /* nobody is live */
    bool is_deceived;                   /* in this turn a board replied that is not live */
    bool is_silent;
    uint32_t heard;                     /* when a live board was heard for the last time */
    uint8_t granted;                    /* whose turn it is */
    uint8_t should_test;                /* whom it tests by the table */
    uint8_t should_say;                 /* outcome by the table, if the reply comes in time */
    uint8_t probes;
    uint8_t longer;                     /* how many times the turn was given more time */
    bool has_heard_granted;
    bool has_heard_other;
    bool is_grant_out;                  /* the grant has gone out at least once, so that the time of the turn runs */
    bool is_grant_waiting;              /* a grant was handed over and has not gone out yet */
    uint32_t grant_given;               /* when it was handed over */
    bool is_probe_waiting;              /* so the probe */
    uint32_t probe_given;
    uint32_t next_grant;                /* when it is repeated */
    uint32_t end;                       /* when the time of the turn, or of the probe, is over */
    bool has_begun;
    uint32_t wake;
};

/* Starts with a fresh table. Gives 0, or the number of a refusal (24, 1). */
uint8_t vcube_master_start(struct vcube_master *master, const struct vcube_master_settings *settings);

/* Starts from what was saved. Gives 0, or the number of a refusal: 18 if the length is not VCUBE_MASTER_SAVED_LENGTH(n), 19 if wiring or size are
 * not those of the settings or the last entry is none that the master makes, 24, 1, 3, 4, 16. */
uint8_t vcube_master_resume(struct vcube_master *master, const struct vcube_master_settings *settings, const uint8_t *saved, size_t length);

/* As vcube_node_step. */
uint32_t vcube_master_step(struct vcube_master *master, const struct vcube_cable *cable);

/* Whether to rest: once the open turn is over nobody is granted, and the last entry is told again and again. */
void vcube_master_rest(struct vcube_master *master, bool is_to_rest);

/* Whether it rests, or nobody is live; whether it has stopped at a fault. */
bool vcube_master_is_resting(const struct vcube_master *master);
bool vcube_master_has_stopped(const struct vcube_master *master);

/* The table, of VCUBE_TABLE_LENGTH(n) bytes. */
const uint8_t *vcube_master_table(const struct vcube_master *master);

#ifdef __cplusplus
}
#endif

#endif
