/* The cable of a plant on one computer: each datagram that comes is a frame, and goes to all others that have joined. A datagram without a byte
 * joins its sender, and is answered by one without a byte. All hear the frames in one order, as on a CAN cable, unless jitter is asked for.
 *
 * Usage: hub [--seed N] [--loss P] [--loss-all P] [--twice P] [--delay MS] [--jitter MS] [--hold SENDER:MS] [--log FILE]
 *            [--reply MS]
 *
 *   --seed N       what is lost, doubled and delayed is drawn by N, the frame's number and the receiver's
 *   --loss P       of 1,000 frames each receiver loses P, by itself
 *   --loss-all P   of 1,000 frames P reach nobody
 *   --twice P      of 1,000 frames each receiver gets P twice, by itself
 *   --delay MS     each frame comes so much later
 *   --jitter MS    and up to so much later again, at each receiver by itself, so that frames overtake each other
 *   --log FILE     a line for each frame: when the computer had it, and when it was passed on to all, by the computer's clock in milliseconds; its
 *                  identifier in hexadecimal digits, and its length
 *   --hold S:MS    the end of a turn of board S comes MS milliseconds after its grant, or later
 *   --reply MS     how long the boards wait for a reply to a test: it tells when the computer did not let it run for a quarter of that
 *
 * It prints its port, and then pauses as the boards do. On signal SIGUSR1 the cable is out: what is sent reaches nobody. On SIGUSR2 it is whole
 * again. SIGTERM ends it. */
#define _GNU_SOURCE
#include "host.h"
#include <arpa/inet.h>
#include <netinet/in.h>
#include <signal.h>
#include <stdlib.h>
#include <string.h>
#include <sys/socket.h>
#include <unistd.h>

#define MOST_JOINED 128
#define MOST_WAITING 16384
#define LONGEST 13
#define MOST_NUMBER 1000000000

/* A frame on its way to one receiver. */
struct waiting {
    uint64_t due;
    size_t to;
    size_t length;
    uint8_t bytes[LONGEST];
};

struct settings {
    uint64_t seed;
    uint32_t loss, loss_all, twice, delay, jitter;
    bool holds;
    uint32_t hold_sender, hold_for;
    FILE *log;
    const char *log_name;
    uint32_t longest_wait;
};

static struct sockaddr_in joined[MOST_JOINED];
static size_t joined_count;
static struct waiting waiting[MOST_WAITING];
static size_t first_waiting, waiting_count;
static volatile sig_atomic_t is_out;

static void on_signal(int number)
{
    is_out = number == SIGUSR1;
}

/* A number drawn by three others (splitmix64). */
static uint64_t drawn(uint64_t seed, uint64_t frame, uint64_t use)
{
    uint64_t x = seed * 0x9E3779B97F4A7C15u + frame * 0xD1B54A32D192ED03u + use * 0x8CB92BA72F3D8DD7u;

    x = (x ^ (x >> 30)) * 0xBF58476D1CE4E5B9u;
    x = (x ^ (x >> 27)) * 0x94D049BB133111EBu;
    return x ^ (x >> 31);
}

static bool is_drawn(uint32_t of_1000, uint64_t seed, uint64_t frame, uint64_t use)
{
    return drawn(seed, frame, use) % 1000 < of_1000;
}

/* Behind all that are due before it, or with it. */
static void put(const struct waiting *it)
{
    size_t place;

    if (first_waiting + waiting_count == MOST_WAITING) {
        memmove(waiting, &waiting[first_waiting], waiting_count * sizeof waiting[0]);
        first_waiting = 0;
    }
    if (waiting_count == MOST_WAITING)
        return;
    for (place = first_waiting + waiting_count++; place > first_waiting && waiting[place - 1].due > it->due; place--)
        waiting[place] = waiting[place - 1];
    waiting[place] = *it;
}

static struct waiting take(void)
{
    waiting_count--;
    return waiting[first_waiting++];
}

static void join(int socket_, const struct sockaddr_in *who)
{
    size_t place;

    for (place = 0; place < joined_count; place++)
        if (joined[place].sin_port == who->sin_port)
            break;
    if (place == MOST_JOINED)
        return;
    if (place == joined_count)
        joined[joined_count++] = *who;
    sendto(socket_, NULL, 0, MSG_DONTWAIT, (const struct sockaddr *)who, sizeof *who);
}

/* When a frame that comes now is to go on. */
static uint64_t due_of(const struct settings *settings, const uint8_t *bytes, size_t length)
{
    static uint64_t granted_at;
    static uint32_t granted_number;
    const uint64_t due = host_clock() + 1000 * (uint64_t)settings->delay;
    uint32_t identifier;

    if (!settings->holds || length < 4)
        return due;
    identifier = (uint32_t)bytes[0] << 24 | (uint32_t)bytes[1] << 16 | (uint32_t)bytes[2] << 8 | bytes[3];
    if (VCUBE_FRAME_KIND(identifier) == VCUBE_FRAME_GRANT && VCUBE_FRAME_RECEIVER(identifier) == settings->hold_sender &&
        VCUBE_FRAME_NUMBER(identifier) != granted_number) {
        granted_number = VCUBE_FRAME_NUMBER(identifier);
        granted_at = host_clock();
    }
    if (VCUBE_FRAME_KIND(identifier) >= VCUBE_FRAME_FINISHED && VCUBE_FRAME_KIND(identifier) <= VCUBE_FRAME_NO_REPLY &&
        VCUBE_FRAME_SENDER(identifier) == settings->hold_sender && due < granted_at + 1000 * (uint64_t)settings->hold_for)
        return granted_at + 1000 * (uint64_t)settings->hold_for;
    return due;
}

/* A frame has come: it is put on its way to all but its sender. Gives when it is to go on. */
static uint64_t pass_on(const struct settings *settings, const uint8_t *bytes, size_t length, const struct sockaddr_in *from)
{
    static uint64_t frames;
    const uint64_t frame = frames++;
    const uint64_t due = due_of(settings, bytes, length);
    size_t to;

    if (is_out || is_drawn(settings->loss_all, settings->seed, frame, 0))
        return due;
    for (to = 0; to < joined_count; to++) {
        struct waiting it;
        int copies = is_drawn(settings->twice, settings->seed, frame, 4 * to + 1) ? 2 : 1, copy;

        if (joined[to].sin_port == from->sin_port || is_drawn(settings->loss, settings->seed, frame, 4 * to + 2))
            continue;
        it.to = to;
        it.length = length;
        memcpy(it.bytes, bytes, length);
        for (copy = 0; copy < copies; copy++) {
            it.due = due;
            if (settings->jitter > 0)
                it.due += drawn(settings->seed, frame, 4 * to + 3 + 1000 * (uint64_t)copy) % (1000 * (uint64_t)settings->jitter + 1);
            put(&it);
        }
    }
    return due;
}

static void send_due(int socket_)
{
    while (waiting_count > 0 && waiting[first_waiting].due <= host_clock()) {
        const struct waiting it = take();

        if (is_out)
            continue;
        sendto(socket_, it.bytes, it.length, MSG_DONTWAIT, (const struct sockaddr *)&joined[it.to], sizeof joined[it.to]);
    }
}

/* A datagram; *arrival is when the kernel had it, which may be long before. */
static ssize_t take_datagram(int socket_, uint8_t *bytes, size_t room, struct sockaddr_in *from, uint64_t *arrival)
{
    union {
        struct cmsghdr head;
        uint8_t bytes[256];
    } control;
    struct iovec place = {bytes, room};
    struct msghdr message = {from, sizeof *from, &place, 1, control.bytes, sizeof control.bytes, 0};
    const ssize_t length = recvmsg(socket_, &message, MSG_DONTWAIT);

    *arrival = length < 0 ? host_clock() : host_arrival(&message);
    return length;
}

static void write_log(const struct settings *settings, const uint8_t *bytes, size_t length, uint64_t arrival, uint64_t due)
{
    const uint64_t time = host_clock(), passed = time > due ? time : due;

    if (settings->log == NULL || length < 5)
        return;
    if (fprintf(settings->log, "%lu %lu %s %zu\n", (unsigned long)(arrival / 1000 & UINT32_MAX), (unsigned long)(passed / 1000 & UINT32_MAX),
                host_digits(bytes, 4), length - 5) < 0)
        host_fail("it cannot be written", settings->log_name);
}

static void wait_for_more(struct host_pauses *pauses, int socket_)
{
    const uint64_t time = host_clock();
    uint64_t pause = 1000000;

    if (waiting_count > 0)
        pause = waiting[first_waiting].due > time ? waiting[first_waiting].due - time : 0;
    host_wait(pauses, socket_, pause);
}

static struct settings read_arguments(int count, char **words)
{
    struct settings settings = {0};
    int place;

    for (place = 1; place < count; place += 2) {
        const char *const name = words[place], *const value = place + 1 < count ? words[place + 1] : "";

        if (strcmp(name, "--seed") == 0)
            settings.seed = host_number(value, MOST_NUMBER);
        else if (strcmp(name, "--loss") == 0)
            settings.loss = host_number(value, MOST_NUMBER);
        else if (strcmp(name, "--loss-all") == 0)
            settings.loss_all = host_number(value, MOST_NUMBER);
        else if (strcmp(name, "--twice") == 0)
            settings.twice = host_number(value, MOST_NUMBER);
        else if (strcmp(name, "--delay") == 0)
            settings.delay = host_number(value, MOST_NUMBER);
        else if (strcmp(name, "--jitter") == 0)
            settings.jitter = host_number(value, MOST_NUMBER);
        else if (strcmp(name, "--reply") == 0)
            settings.longest_wait = host_times(host_number(value, MOST_NUMBER)).repeat;
        else if (strcmp(name, "--log") == 0 && (settings.log = fopen(value, "w")) != NULL)
            settings.log_name = value;
        else if (strcmp(name, "--hold") == 0 &&
                 sscanf(value, "%u:%u", &settings.hold_sender, &settings.hold_for) == 2)
            settings.holds = true;
        else {
            fprintf(stderr, "hub: no such argument: %s %s\n", name, value);
            exit(2);
        }
    }
    return settings;
}

int main(int count, char **words)
{
    const struct settings settings = read_arguments(count, words);
    const int socket_ = socket(AF_INET, SOCK_DGRAM | SOCK_CLOEXEC, 0), room = 4 << 20, yes = 1;
    struct sockaddr_in place = {.sin_family = AF_INET, .sin_addr.s_addr = htonl(INADDR_LOOPBACK)};
    socklen_t place_length = sizeof place;
    const struct sigaction action = {.sa_handler = on_signal, .sa_flags = SA_RESTART};
    struct host_pauses pauses = {settings.longest_wait, 0, 0};

    host_signals();
    sigaction(SIGUSR1, &action, NULL);
    sigaction(SIGUSR2, &action, NULL);
    if (socket_ < 0 || bind(socket_, (const struct sockaddr *)&place, sizeof place) != 0 ||
        getsockname(socket_, (struct sockaddr *)&place, &place_length) != 0)
        host_fail("hub", "no socket");
    setsockopt(socket_, SOL_SOCKET, SO_RCVBUF, &room, sizeof room);
    setsockopt(socket_, SOL_SOCKET, SO_TIMESTAMPNS, &yes, sizeof yes);
    printf("%u\n", (unsigned)ntohs(place.sin_port));
    host_write_out(stdout, "standard output");
    while (!host_is_over()) {
        struct sockaddr_in from;
        uint8_t bytes[64];
        uint64_t arrival, due = 0;
        const ssize_t length = take_datagram(socket_, bytes, sizeof bytes, &from, &arrival);
        const bool is_frame = length > 0 && length <= LONGEST;

        if (length == 0)
            join(socket_, &from);
        if (is_frame)
            due = pass_on(&settings, bytes, (size_t)length, &from);
        send_due(socket_);
        if (is_frame)
            write_log(&settings, bytes, (size_t)length, arrival, due);
        if (length < 0)
            wait_for_more(&pauses, socket_);
    }
    host_tell_pause(&pauses);
    if (settings.log != NULL && fclose(settings.log) != 0)
        host_fail("it cannot be written", settings.log_name);
    return 0;
}
