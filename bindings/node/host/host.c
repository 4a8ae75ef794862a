#define _GNU_SOURCE
#include "host.h"
#include <arpa/inet.h>
#include <errno.h>
#include <linux/can.h>
#include <linux/can/raw.h>
#include <net/if.h>
#include <netinet/in.h>
#include <poll.h>
#include <signal.h>
#include <stdarg.h>
#include <stdlib.h>
#include <string.h>
#include <sys/prctl.h>
#include <sys/socket.h>
#include <time.h>
#include <unistd.h>

/* A datagram: the identifier in four bytes, high byte first, the length, and the data. */
#define DATAGRAM_HEAD 5
#define LONGEST (DATAGRAM_HEAD + 8)

static volatile sig_atomic_t is_over;

static void on_signal(int number)
{
    (void)number;
    is_over = 1;
}

bool host_is_over(void)
{
    return is_over != 0;
}

void host_forget_signal(void)
{
    is_over = 0;
}

void host_signals(void)
{
    /* A line that is being printed is printed whole; ppoll is interrupted all the same. */
    const struct sigaction action = {.sa_handler = on_signal, .sa_flags = SA_RESTART};

    sigaction(SIGTERM, &action, NULL);
    signal(SIGINT, SIG_IGN);
    signal(SIGHUP, SIG_IGN);
    signal(SIGPIPE, SIG_IGN);
    prctl(PR_SET_PDEATHSIG, SIGKILL);
}

void host_fail(const char *what, const char *name)
{
    fprintf(stderr, "%s: %s: %s\n", what, name, strerror(errno));
    exit(1);
}

void host_write_out(FILE *file, const char *name)
{
    if (fflush(file) == 0 && !ferror(file))
        return;
    if (errno == EPIPE)
        exit(0);
    host_fail("it cannot be written", name);
}

void host_say(const char *kind, const char *words, ...)
{
    va_list values;

    printf("%lu %s ", (unsigned long)host_now(), kind);
    va_start(values, words);
    vprintf(words, values);
    va_end(values);
    putchar('\n');
    host_write_out(stdout, "standard output");
}

uint32_t host_number(const char *text, uint32_t most)
{
    char *end;
    const unsigned long value = strtoul(text, &end, 10);

    if (*text < '0' || *text > '9' || *end != 0 || value > most) {
        fprintf(stderr, "not a number from 0 to %lu: %s\n", (unsigned long)most, text);
        exit(2);
    }
    return (uint32_t)value;
}

struct vcube_times host_times(uint32_t reply)
{
    return (struct vcube_times){.reply = reply, .repeat = reply / 4 > 0 ? reply / 4 : 1, .grant = 2 * reply + 10, .probe = reply};
}

size_t host_wiring(const char *name)
{
    if (strcmp(name, "cube") == 0)
        return VCUBE_WIRING_CUBE;
    if (strcmp(name, "ring") == 0)
        return VCUBE_WIRING_RING;
    fprintf(stderr, "a wiring is cube or ring, not %s\n", name);
    exit(2);
}

const char *host_digits(const uint8_t *bytes, size_t length)
{
    static char digits[2 * VCUBE_TABLE_LENGTH(VCUBE_MOST_STATIONS) + 1];
    size_t place;

    for (place = 0; place < length; place++)
        sprintf(digits + 2 * place, "%02x", bytes[place]);
    return digits;
}

/* Microseconds for which this process has slept because it was asked to. */
static uint64_t slept;

void host_pause(uint32_t milliseconds)
{
    const struct timespec time = {(time_t)(milliseconds / 1000), (long)(milliseconds % 1000) * 1000000};

    nanosleep(&time, NULL);
    slept += 1000 * (uint64_t)milliseconds;
}

static uint64_t microseconds(clockid_t clock)
{
    struct timespec time;

    clock_gettime(clock, &time);
    return (uint64_t)time.tv_sec * 1000000 + (uint64_t)time.tv_nsec / 1000;
}

uint64_t host_clock(void)
{
    return microseconds(CLOCK_MONOTONIC);
}

uint32_t host_now(void)
{
    return (uint32_t)(host_clock() / 1000);
}

/* How long this process has run, or slept because it was asked to. */
static uint64_t run_time(void)
{
    return microseconds(CLOCK_PROCESS_CPUTIME_ID) + slept;
}

uint64_t host_arrival(const struct msghdr *message)
{
    struct msghdr it = *message;
    struct cmsghdr *part;
    struct timespec then;

    for (part = CMSG_FIRSTHDR(&it); part != NULL; part = CMSG_NXTHDR(&it, part))
        if (part->cmsg_level == SOL_SOCKET && part->cmsg_type == SCM_TIMESTAMPNS) {
            memcpy(&then, CMSG_DATA(part), sizeof then);
            return host_clock() - (microseconds(CLOCK_REALTIME) - ((uint64_t)then.tv_sec * 1000000 + (uint64_t)then.tv_nsec / 1000));
        }
    return host_clock();
}

void host_tell_pause(const struct host_pauses *pauses)
{
    const uint64_t now = host_clock(), should_run = now - pauses->ready_at, ran = run_time() - pauses->run_time;

    if (pauses->longest > 0 && pauses->ready_at > 0 && should_run > ran + 1000 * (uint64_t)pauses->longest)
        host_say("paused", "%lu", (unsigned long)((should_run - ran) / 1000));
}

/* When the datagram had come that will be read next. */
static uint64_t next_arrival(int socket)
{
    union {
        struct cmsghdr head;
        uint8_t bytes[256];
    } control;
    struct msghdr message = {.msg_control = control.bytes, .msg_controllen = sizeof control.bytes};

    return recvmsg(socket, &message, MSG_DONTWAIT | MSG_PEEK) >= 0 ? host_arrival(&message) : host_clock();
}

void host_wait(struct host_pauses *pauses, int socket, uint64_t microseconds)
{
    struct pollfd it = {socket, POLLIN, 0};
    const struct timespec limit = {(time_t)(microseconds / 1000000), (long)(microseconds % 1000000 * 1000)};
    uint64_t begin, ready_at;

    host_tell_pause(pauses);
    begin = host_clock();
    ready_at = ppoll(&it, 1, &limit, NULL) == 0 ? begin + microseconds : next_arrival(socket);
    pauses->ready_at = ready_at > begin ? ready_at : begin;
    pauses->run_time = run_time();
}

static void wait_until(struct host *host, uint32_t until)
{
    const int32_t left = (int32_t)(until - host_now());

    if (left > 0 && !is_over)
        host_wait(&host->pauses, host->socket, 1000 * (uint64_t)left);
}

/* Joins the hub's cable: an empty datagram, until it is answered by one. */
static void open_udp(struct host *host, const char *port)
{
    const struct sockaddr_in hub = {
        .sin_family = AF_INET, .sin_addr.s_addr = htonl(INADDR_LOOPBACK), .sin_port = htons((uint16_t)host_number(port, 65535))};
    const int room = 1 << 20, yes = 1;
    int tries;
    char byte;

    host->socket = socket(AF_INET, SOCK_DGRAM, 0);
    if (host->socket < 0 || connect(host->socket, (const struct sockaddr *)&hub, sizeof hub) != 0)
        host_fail("no cable udp", port);
    setsockopt(host->socket, SOL_SOCKET, SO_RCVBUF, &room, sizeof room);
    setsockopt(host->socket, SOL_SOCKET, SO_TIMESTAMPNS, &yes, sizeof yes);
    for (tries = 0; tries < 100 && !is_over; tries++) {
        struct pollfd it = {host->socket, POLLIN, 0};

        send(host->socket, NULL, 0, 0);
        if (poll(&it, 1, 100) > 0 && recv(host->socket, &byte, 1, MSG_DONTWAIT) >= 0)
            return;
    }
    errno = ETIMEDOUT;
    host_fail("no hub at port", port);
}

static void open_can(struct host *host, const char *interface)
{
    const struct sockaddr_can place = {.can_family = AF_CAN, .can_ifindex = (int)if_nametoindex(interface)};

    host->socket = socket(PF_CAN, SOCK_RAW, CAN_RAW);
    if (host->socket < 0)
        host_fail("no SocketCAN", interface);
    if (place.can_ifindex == 0 || bind(host->socket, (const struct sockaddr *)&place, sizeof place) != 0)
        host_fail("no cable can", interface);
}

void host_open(struct host *host, const char *name)
{
    memset(host, 0, sizeof *host);
    if (strncmp(name, "udp:", 4) == 0) {
        open_udp(host, name + 4);
    } else if (strncmp(name, "can:", 4) == 0) {
        host->is_can = true;
        open_can(host, name + 4);
    } else {
        fprintf(stderr, "a cable is udp:PORT or can:INTERFACE, not %s\n", name);
        exit(2);
    }
}

static void send_frame(void *context, const struct vcube_frame *frame)
{
    struct host *const host = context;

    if (host->before_send != NULL)
        host->before_send(frame);
    if (host->is_can) {
        struct can_frame it = {.can_id = frame->identifier | CAN_EFF_FLAG, .can_dlc = frame->length};

        memcpy(it.data, frame->data, frame->length);
        send(host->socket, &it, sizeof it, 0);
    } else {
        uint8_t bytes[LONGEST];

        bytes[0] = (uint8_t)(frame->identifier >> 24);
        bytes[1] = (uint8_t)(frame->identifier >> 16);
        bytes[2] = (uint8_t)(frame->identifier >> 8);
        bytes[3] = (uint8_t)frame->identifier;
        bytes[4] = frame->length;
        memcpy(bytes + DATAGRAM_HEAD, frame->data, frame->length);
        send(host->socket, bytes, DATAGRAM_HEAD + (size_t)frame->length, 0);
    }
}

/* Whether the bytes that were read are a frame. A CAN controller gives none of more than 8 bytes; the lengths that a kind wants are the firmware's
 * to check. */
static bool is_frame(const struct host *host, const void *bytes, ssize_t length, struct vcube_frame *frame)
{
    memset(frame, 0, sizeof *frame);
    if (host->is_can) {
        struct can_frame it;

        if (length != (ssize_t)sizeof it)
            return false;
        memcpy(&it, bytes, sizeof it);
        if (!(it.can_id & CAN_EFF_FLAG) || (it.can_id & (CAN_RTR_FLAG | CAN_ERR_FLAG)) || it.can_dlc > 8)
            return false;
        frame->identifier = it.can_id & CAN_EFF_MASK;
        frame->length = it.can_dlc;
        memcpy(frame->data, it.data, it.can_dlc);
    } else {
        const uint8_t *const head = bytes;

        if (length < DATAGRAM_HEAD || length > LONGEST || head[4] != length - DATAGRAM_HEAD)
            return false;
        frame->identifier = ((uint32_t)head[0] << 24 | (uint32_t)head[1] << 16 | (uint32_t)head[2] << 8 | head[3]) & 0x1FFFFFFF;
        frame->length = head[4];
        memcpy(frame->data, head + DATAGRAM_HEAD, head[4]);
    }
    return true;
}

static bool receive_frame(void *context, struct vcube_frame *frame, uint32_t until)
{
    struct host *const host = context;

    while (!is_over) {
        uint8_t bytes[64];
        const ssize_t length = recv(host->socket, bytes, sizeof bytes, MSG_DONTWAIT);

        if (length >= 0 && is_frame(host, bytes, length, frame))
            return true;
        if (length < 0 && (int32_t)(until - host_now()) <= 0)
            return false;
        if (length < 0)
            wait_until(host, until);
    }
    return false;
}

static uint32_t now(void *context)
{
    (void)context;
    return host_now();
}

struct vcube_cable host_cable(struct host *host)
{
    return (struct vcube_cable){.context = host, .send = send_frame, .receive = receive_frame, .now = now};
}
