/* A board of a plant on one computer: the firmware (board.c) as a process.
 *
 * Usage: board CABLE WIRING SIZE OWN [--reply MS] [--log FILE] [--pause TURN:MS]
 *
 *   --reply MS       how long it waits for the reply to its test (20)
 *   --log FILE       a line for each entry in force, "board ENTRIES LINE", and one for each time that the outputs go on or off, "outputs on"
 *   --pause TURN:MS  it does nothing for MS milliseconds before it sends the end of its TURN-th turn, which it has judged by then: for tests
 *
 * It prints "ready" once it has joined the cable; after that "MOMENT paused MS" if the computer did not let it run for MS milliseconds, a quarter of
 * the time of a reply or more. SIGTERM ends it. */
#define _GNU_SOURCE
#include "host.h"
#include <getopt.h>
#include <stdlib.h>
#include <string.h>

static uint32_t pause_turn, pause_for;
static const char *log_name;

static void write_line(void *context, uint32_t number, const uint8_t *line, size_t length)
{
    fprintf(context, "board %lu %s\n", (unsigned long)number, host_digits(line, length));
    host_write_out(context, log_name);
}

/* Pauses before the end of a turn is sent for the first time. */
static void pause_at_end(const struct vcube_frame *frame)
{
    static uint32_t turns, last_number = UINT32_MAX;
    const uint32_t kind = VCUBE_FRAME_KIND(frame->identifier), number = VCUBE_FRAME_NUMBER(frame->identifier);

    if (kind < VCUBE_FRAME_FINISHED || kind > VCUBE_FRAME_NO_REPLY || number == last_number)
        return;
    last_number = number;
    turns++;
    if (turns == pause_turn)
        host_pause(pause_for);
}

static void read_options(int count, char **words, struct vcube_node_settings *settings)
{
    static const struct option options[] = {
        {"reply", required_argument, NULL, 'r'}, {"log", required_argument, NULL, 'l'}, {"pause", required_argument, NULL, 'p'}, {0, 0, 0, 0}};
    int option;

    while ((option = getopt_long(count, words, "", options, NULL)) != -1) {
        char *const middle = optarg == NULL ? NULL : strchr(optarg, ':');

        if (option == 'r') {
            settings->times = host_times(host_number(optarg, 1000000));
        } else if (option == 'l' && (settings->context = fopen(optarg, "w")) != NULL) {
            log_name = optarg;
            settings->in_force = write_line;
        } else if (option == 'p' && middle != NULL) {
            *middle = 0;
            pause_turn = host_number(optarg, 1000000);
            pause_for = host_number(middle + 1, 1000000);
        } else {
            exit(2);
        }
    }
    if (count - optind != 4) {
        fputs("Usage: board CABLE WIRING SIZE OWN [--reply MS] [--log FILE] [--pause TURN:MS]\n", stderr);
        exit(2);
    }
    settings->wiring = host_wiring(words[optind + 1]);
    settings->n = host_number(words[optind + 2], 1000);
    settings->own = host_number(words[optind + 3], 1000);
    settings->quiet = 5 * settings->times.grant;
}

int main(int count, char **words)
{
    static struct vcube_node node;
    struct vcube_node_settings settings;
    struct vcube_cable cable;
    struct host host;
    bool were_on = false;
    uint8_t error;

    memset(&settings, 0, sizeof settings);
    settings.times = host_times(20);
    read_options(count, words, &settings);
    host_signals();
    error = vcube_node_start(&node, &settings);
    if (error != VCUBE_ACCEPTED) {
        fprintf(stderr, "board: refusal %u\n", (unsigned)error);
        return 1;
    }
    host_open(&host, words[optind]);
    host.pauses.longest = settings.times.repeat;
    if (pause_turn > 0)
        host.before_send = pause_at_end;
    cable = host_cable(&host);
    puts("ready");
    host_write_out(stdout, "standard output");
    while (!host_is_over()) {
        bool are_on;

        vcube_node_step(&node, &cable);
        are_on = vcube_node_outputs_on(&node, host_now());
        if (are_on != were_on && settings.context != NULL) {
            fprintf(settings.context, "outputs %s\n", are_on ? "on" : "off");
            host_write_out(settings.context, log_name);
        }
        were_on = are_on;
    }
    host_tell_pause(&host.pauses);
    return 0;
}
