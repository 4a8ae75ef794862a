/* What board and bus master need of a computer: a cable, a clock and signals. The firmware (board.c, master.c) needs only the functions of
 * struct vcube_cable; a maker of boards writes these for the board's CAN controller and timer. */
#ifndef VCUBE_HOST_H
#define VCUBE_HOST_H

#include "../node.h"
#include <stdbool.h>
#include <stdint.h>
#include <stdio.h>
#include <sys/socket.h>

/* For telling when the computer did not let the process run, though it could. */
struct host_pauses {
    uint32_t longest;           /* milliseconds that are not told yet; 0: none is told */
    uint64_t ready_at;          /* since when, in microseconds, it could run; 0 at first */
    uint64_t run_time;          /* how long it had run then */
};

struct host {
    int socket;
    bool is_can;                /* SocketCAN, else UDP through the hub */
    void (*before_send)(const struct vcube_frame *frame); /* or NULL */
    struct host_pauses pauses;
};

/* Opens the cable that NAME says: udp:PORT of the hub on this computer, or can:INTERFACE. Where it cannot be opened, it says why and ends the
 * program. */
void host_open(struct host *host, const char *name);

/* The functions that a maker gives, on the host. */
struct vcube_cable host_cable(struct host *host);

/* Milliseconds, wrapping. */
uint32_t host_now(void);

/* Does nothing for so many milliseconds. */
void host_pause(uint32_t milliseconds);

/* Microseconds of the computer's clock. */
uint64_t host_clock(void);

/* When the kernel had the datagram that recvmsg gave, in microseconds of host_clock, for a socket with SO_TIMESTAMPNS; else the present moment. */
uint64_t host_arrival(const struct msghdr *message);

/* Waits until a datagram has come, for so many microseconds at most, or for a signal. Before that it prints "MOMENT paused MS" if since the last wait
 * the process could run for more than `longest` milliseconds longer than it did. */
void host_wait(struct host_pauses *pauses, int socket, uint64_t microseconds);

/* Prints so, before a program ends. */
void host_tell_pause(const struct host_pauses *pauses);

/* Whether SIGTERM has come. */
bool host_is_over(void);

/* Forgets the signal, so that frames are received again. */
void host_forget_signal(void);

/* Ends the program with its parent. SIGTERM ends the loop; SIGINT and SIGHUP are left to the parent, and SIGPIPE to host_write_out. */
void host_signals(void);

/* A number of the command line, or the program ends with status 2. */
uint32_t host_number(const char *text, uint32_t most);

/* The times of a plant in which a board waits `reply` milliseconds for the reply to its test. A quarter of that, the time of repeating, is also how
 * long the computer may let a process wait: three such waits in a row, of cable, tested board and cable, make no reply late. */
struct vcube_times host_times(uint32_t reply);

/* The wiring of that name, or the program ends with status 2. */
size_t host_wiring(const char *name);

/* Bytes as hexadecimal digits, until the next call; as many as a table has at most. */
const char *host_digits(const uint8_t *bytes, size_t length);

/* Prints a line: the present moment, its kind, and words as of printf. */
void host_say(const char *kind, const char *words, ...);

/* Hands over what was written. Where that cannot be done, the program says so and ends with status 1; with 0 where the reader of a pipe is gone. */
void host_write_out(FILE *file, const char *name);

/* Says why the last call of the system failed, and ends the program with status 1. */
void host_fail(const char *what, const char *name);

#endif
