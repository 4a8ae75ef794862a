/* The bus master of a plant on one computer: the firmware (master.c) as a process.
 *
 * Usage: master CABLE WIRING SIZE [--reply MS] [--save FILE] [--record FILE] [--no-sync] [--pace MS] [--stop-at-fault] [--again]
 *
 *   --reply MS       how long a board waits for the reply to its test (20)
 *   --save FILE      it keeps what it needs to go on after a crash there, or after a power failure
 *   --record FILE    it writes the run there, as an input of the run program: the first 4,096 entries
 *   --no-sync        neither need be right after a power failure: an entry then waits for no disk
 *   --pace MS        it rests for so long after each entry: it tells the entry again and again, and grants nobody
 *   --stop-at-fault  it stops when a board does not keep the rules; else that board is entered as crashed
 *   --again          it goes on from what it saved, and with what it recorded; if it saved nothing, it begins
 *
 * What it prints, each line with the milliseconds of the computer's clock before it, but the first kind:
 *
 *   outcome NUMBER WORDS          the library's words for outcomes, at the start
 *   entry NUMBER KIND BOARD TESTED OUTCOME CLOSED STATUS BY OF ROUNDS TURNS TURNS-FROM-CRASH TABLE
 *                                 an entry, with the pair of the doubt lamp, three answers of vcube_wait, and the table behind it
 *   fault KIND BOARD TESTED SHOULD-TEST SAID SHOULD-SAY
 *                                 a board does not keep the rules (struct vcube_fault)
 *   stopped 0                     it stops at a fault: nobody is granted any more
 *   again ENTRIES                 it goes on after so many entries; a later one that was printed before is void
 *   say WORDS                     what else happens
 *   paused MS                     the computer did not let it run for MS milliseconds, a quarter of the time of a reply or more
 *
 * SIGTERM: it tells the last entry until all have heard it, and ends. */
#define _GNU_SOURCE
#include "host.h"
#include <errno.h>
#include <fcntl.h>
#include <getopt.h>
#include <libgen.h>
#include <stdlib.h>
#include <string.h>
#include <unistd.h>

#define LONGEST_NAME 4096

/* The run program takes no more entries. */
#define MOST_RECORDED (VCUBE_SCHEDULE_LENGTH / 2)

struct program {
    struct vcube_master master;
    struct vcube_master_settings settings;
    const char *save;
    int save_folder;
    const char *record_name;
    FILE *record;
    uint32_t pace;
    uint32_t pace_begin;
    int again, no_sync;
};

static struct program program;

static void write_entry(const struct vcube_entry *entry)
{
    const size_t n = program.settings.n, wiring = program.settings.wiring;
    const uint8_t *const table = vcube_master_table(&program.master);
    size_t by, of, rounds, per_round, turns, from_crash;

    if (vcube_doubt_lamp(wiring, n, table, VCUBE_TABLE_LENGTH(n), &by, &of) != VCUBE_ACCEPTED ||
        vcube_wait(wiring, n, table, VCUBE_TABLE_LENGTH(n), &rounds, &per_round, &turns, &from_crash) != VCUBE_ACCEPTED) {
        fputs("master: the library refuses the table\n", stderr);
        exit(1);
    }
    host_say("entry", "%lu %u %u %u %u %d %u %zu %zu %zu %zu %zu %s", (unsigned long)entry->number, entry->kind, entry->station, entry->tested,
             entry->outcome, entry->closed, entry->status, by, of, rounds, turns, from_crash, host_digits(table, VCUBE_TABLE_LENGTH(n)));
    if (program.record != NULL && entry->number <= MOST_RECORDED) {
        fprintf(program.record, "%c %u\n", " TLC"[entry->kind], entry->station);
        host_write_out(program.record, program.record_name);
    }
}

static void write_fault(void *context, const struct vcube_fault *fault)
{
    (void)context;
    host_say("fault", "%u %u %u %u %u %u", (unsigned)fault->kind, fault->board, fault->tested, fault->should_test, fault->said,
             fault->should_say);
}

static void write_silence(void *context, bool is_silent)
{
    (void)context;
    host_say("say", is_silent ? "nobody answers the bus master: the cable is out, or all boards are dead" : "boards are heard again");
}

static void begin_pace(void *context, const struct vcube_entry *entry)
{
    (void)context;
    (void)entry;
    program.pace_begin = host_now();
    if (program.pace > 0)
        vcube_master_rest(&program.master, true);
}

/* Until what was written is on the disk. What is no file cannot be synced. */
static int sync_file(int file)
{
    return program.no_sync || fsync(file) == 0 || errno == EINVAL ? 0 : -1;
}

/* What is printed and recorded may be ahead of what is saved, by the last entry, and never behind it. The new file is written aside, and put in the
 * place of the old one: a crash leaves the one or the other, and so does a power failure, as each is synced before what rests on it. */
static void save(void *context, const uint8_t *saved, size_t length)
{
    char aside[LONGEST_NAME];
    FILE *file;

    (void)context;
    if (program.master.last.kind != 0)
        write_entry(&program.master.last);
    if (program.save == NULL)
        return;
    if (program.record != NULL && sync_file(fileno(program.record)) != 0)
        host_fail("master", program.record_name);
    snprintf(aside, sizeof aside, "%s.new", program.save);
    file = fopen(aside, "wb");
    if (file == NULL || fwrite(saved, 1, length, file) != length || fflush(file) != 0 || sync_file(fileno(file)) != 0 || fclose(file) != 0 ||
        rename(aside, program.save) != 0 || sync_file(program.save_folder) != 0)
        host_fail("master", program.save);
}

/* What was saved is in this folder. Without --again it is removed: it is of another run. */
static void open_save(const char *name)
{
    char folder[LONGEST_NAME];

    program.save_folder = open(dirname(strcpy(folder, name)), O_RDONLY | O_DIRECTORY);
    if (program.save_folder < 0 || (!program.again && ((remove(name) != 0 && errno != ENOENT) || sync_file(program.save_folder) != 0)))
        host_fail("master", name);
}

/* The record, with just the lines of the entries that there are. One line more may stand there, of an entry that was not saved. */
static void open_record(uint32_t entries)
{
    uint32_t line;
    int byte = 0;

    program.record = fopen(program.record_name, entries > 0 ? "r+" : "w");
    if (program.record == NULL)
        host_fail("master", program.record_name);
    if (entries == 0) {
        fprintf(program.record, "%zu\n", program.settings.n);
        host_write_out(program.record, program.record_name);
        return;
    }
    for (line = 0; line <= entries && line <= MOST_RECORDED && byte != EOF; line++)
        do
            byte = getc(program.record);
        while (byte != '\n' && byte != EOF);
    errno = ENODATA;
    if (byte == EOF || fseek(program.record, 0, SEEK_CUR) != 0 || ftruncate(fileno(program.record), ftell(program.record)) != 0)
        host_fail("master", program.record_name);
}

/* Goes on from what was saved. Gives whether there is anything: what is not saved was told to nobody. */
static bool resume(void)
{
    static uint8_t saved[VCUBE_MASTER_SAVED_LENGTH(VCUBE_MOST_STATIONS)];
    FILE *const file = fopen(program.save, "rb");
    size_t length;
    uint8_t error;

    if (file == NULL && errno == ENOENT)
        return false;
    if (file == NULL)
        host_fail("master", program.save);
    length = fread(saved, 1, sizeof saved, file);
    fclose(file);
    error = vcube_master_resume(&program.master, &program.settings, saved, length);
    if (error != VCUBE_ACCEPTED) {
        fprintf(stderr, "master: what was saved gets refusal %u\n", (unsigned)error);
        exit(1);
    }
    return true;
}

static void write_words(void)
{
    uint8_t words[VCUBE_WORDS_LENGTH];
    size_t outcome;

    for (outcome = VCUBE_OUTCOME_PASS_FINISHED; outcome <= VCUBE_OUTCOME_TESTED_TOLD; outcome++)
        if (vcube_outcome_words(outcome, words, sizeof words) == VCUBE_ACCEPTED)
            printf("outcome %zu %s\n", outcome, (const char *)words);
    host_write_out(stdout, "standard output");
}

static void read_arguments(int count, char **words)
{
    static int stops;
    static const struct option options[] = {
        {"reply", required_argument, NULL, 'r'}, {"save", required_argument, NULL, 's'}, {"record", required_argument, NULL, 'c'},
        {"pace", required_argument, NULL, 'p'}, {"no-sync", no_argument, &program.no_sync, 1}, {"again", no_argument, &program.again, 1},
        {"stop-at-fault", no_argument, &stops, 1}, {0, 0, 0, 0}};
    int option;

    program.settings.times = host_times(20);
    while ((option = getopt_long(count, words, "", options, NULL)) != -1) {
        if (option == 'r')
            program.settings.times = host_times(host_number(optarg, 1000000));
        else if (option == 's' && strlen(optarg) < LONGEST_NAME - 10)
            program.save = optarg;
        else if (option == 'c')
            program.record_name = optarg;
        else if (option == 'p')
            program.pace = host_number(optarg, 1000000);
        else if (option != 0)
            exit(2);
    }
    if (count - optind != 3) {
        fputs("Usage: master CABLE WIRING SIZE [--reply MS] [--save FILE] [--record FILE] [--no-sync] [--pace MS] [--stop-at-fault] [--again]\n",
              stderr);
        exit(2);
    }
    program.settings.stops_at_fault = stops;
    program.settings.wiring = host_wiring(words[optind + 1]);
    program.settings.n = host_number(words[optind + 2], 1000);
}

/* The last entry is told for as long as a board needs to hear it. */
static void rest(const struct vcube_cable *cable)
{
    const uint32_t begin = host_now(), most = 4 * program.settings.times.grant, told = 8 * program.settings.times.repeat;
    uint32_t since = begin;

    vcube_master_rest(&program.master, true);
    while (!host_is_over() && host_now() - begin < most && !vcube_master_has_stopped(&program.master)) {
        if (!vcube_master_is_resting(&program.master))
            since = host_now();
        if (host_now() - since > told)
            break;
        vcube_master_step(&program.master, cable);
    }
}

int main(int count, char **words)
{
    struct host host;
    struct vcube_cable cable;
    bool has_stopped = false;

    read_arguments(count, words);
    host_signals();
    program.settings.entered = begin_pace;
    program.settings.fault = write_fault;
    program.settings.save = save;
    program.settings.silence = write_silence;
    if (vcube_version() != VCUBE_VERSION_NUMBER) {
        fprintf(stderr, "master: the header is of version %u, the library of %u\n", (unsigned)VCUBE_VERSION_NUMBER, (unsigned)vcube_version());
        return 1;
    }
    if (program.save != NULL)
        open_save(program.save);
    if (!program.again || program.save == NULL || !resume()) {
        const uint8_t error = vcube_master_start(&program.master, &program.settings);

        if (error != VCUBE_ACCEPTED) {
            fprintf(stderr, "master: refusal %u\n", (unsigned)error);
            return 1;
        }
    }
    if (program.record_name != NULL)
        open_record(program.master.entries);
    write_words();
    if (program.again)
        host_say("again", "%lu", (unsigned long)program.master.entries);
    host_open(&host, words[optind]);
    host.pauses.longest = program.settings.times.repeat;
    cable = host_cable(&host);
    while (!host_is_over()) {
        vcube_master_step(&program.master, &cable);
        if (program.pace > 0 && host_now() - program.pace_begin >= program.pace)
            vcube_master_rest(&program.master, false);
        if (vcube_master_has_stopped(&program.master) && !has_stopped) {
            host_say("stopped", "0");
            has_stopped = true;
        }
    }
    host_forget_signal();
    rest(&cable);
    if (program.record != NULL && fclose(program.record) != 0)
        host_fail("master", program.record_name);
    return 0;
}
