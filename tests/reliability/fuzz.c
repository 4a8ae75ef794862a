/* Random bytes for a kind of calls, which KIND of the environment says; for libFuzzer. Every buffer has memory of its own, of exactly its length, so
 * that the sanitizer or valgrind sees what is read or written beside it. What docs/RULES.md claims of the answers is checked. And what the calls give
 * has to be what this file gives compiled with BESIDE: the calls of the portable C, under other names, are held against those of the archive. */
#include "vcube.h"

#include <stdio.h>
#include <stdlib.h>
#include <string.h>

#ifndef MOST
#define MOST 64
#endif
#define MOST_LENT 8192
#define NOTE(...) note((uint64_t[]){__VA_ARGS__}, sizeof((uint64_t[]){__VA_ARGS__}))

static const uint8_t *next;
static size_t left, lent_count;
static uint64_t given; /* all that the calls give, as one number (FNV-1a) */
static struct {
    uint8_t *start;
    size_t length;
} lent[MOST_LENT];

static void check(int is_so, const char *what)
{
    if (is_so)
        return;
    fprintf(stderr, "fuzz: not so: %s\n", what);
    abort();
}

static void note(const void *what, size_t length)
{
    for (size_t k = 0; k < length; k++)
        given = (given ^ ((const uint8_t *)what)[k]) * UINT64_C(0x100000001b3);
}

static int accepts(uint8_t refusal)
{
    NOTE(refusal);
    return refusal == VCUBE_ACCEPTED;
}

static uint8_t byte(void)
{
    return left > 0 ? (left--, *next++) : 0;
}

/* A buffer, until the calls of this input are made. */
static uint8_t *zeros(size_t length)
{
    uint8_t *const start = calloc(length, 1);

    check(start != NULL && lent_count < MOST_LENT, "there is memory");
    lent[lent_count].start = start;
    lent[lent_count++].length = length;
    return start;
}

/* From the input as far as it goes, then zeros. */
static uint8_t *bytes(size_t length)
{
    uint8_t *const start = zeros(length);

    for (size_t k = 0; k < length && left > 0; k++)
        start[k] = byte();
    return start;
}

/* Mostly a size. */
static size_t size(void)
{
    const uint8_t drawn = byte();

    return drawn % 8 == 0 ? drawn : 2 + drawn % 63;
}

static size_t table_length(size_t n)
{
    return n <= MOST ? VCUBE_TABLE_LENGTH(n) : 10;
}

static int is_valid(size_t wiring, size_t n, const uint8_t *table)
{
    size_t by, of;

    return accepts(vcube_doubt_lamp(wiring, n, table, table_length(n), &by, &of));
}

static int is_loaded(const uint8_t *saved, size_t length)
{
    uint8_t *table, *const again = zeros(length);
    uint32_t rounds = 0, tests = 0;
    size_t n = 0, loaded = 0;
    int is_accepted = accepts(vcube_saved_size(saved, length, &n));

    table = zeros(table_length(n));
    is_accepted &= accepts(vcube_load(saved, length, table, table_length(n), &loaded, &rounds, &tests));
    NOTE(n, loaded, rounds, tests);
    if (is_accepted)
        check(accepts(vcube_save(n, table, table_length(n), rounds, tests, again, length)) && loaded == n && memcmp(again, saved, length) == 0,
              "One form");
    return is_accepted;
}

static void load(void)
{
    const size_t length = left;

    is_loaded(bytes(length), length);
}

static void convert(void)
{
    const size_t length = left;
    const uint8_t *const old = bytes(length);
    uint8_t *saved;
    size_t made = 0;

    accepts(vcube_converted_length(old, length, &made));
    saved = zeros(made);
    if (accepts(vcube_convert(old, length, saved, made)))
        check(is_loaded(saved, made), "a converted file is loaded");
}

static void mend(void)
{
    const size_t wiring = byte() % 3, n = size(), length = table_length(n);
    uint8_t *const table = bytes(length), *const report = zeros(4 * length), *const second = zeros(4 * length);
    size_t changes = 0, more = 0;

    if (accepts(vcube_mend(wiring, n, table, length, report, 4 * length, &changes))) {
        check(is_valid(wiring, n, table), "Mended passes");
        check(accepts(vcube_mend(wiring, n, table, length, second, 4 * length, &more)) && more == 0, "Mended once");
    }
    NOTE(changes);
}

static void read_input(void)
{
    const size_t length = left;
    uint8_t *const input = bytes(length), *const schedule = zeros(VCUBE_SCHEDULE_LENGTH), *const words = zeros(VCUBE_WORDS_LENGTH);
    size_t n, entries, line;

    check(accepts(vcube_read_input(input, length, schedule, VCUBE_SCHEDULE_LENGTH, words, VCUBE_WORDS_LENGTH, &n, &entries, &line)) &&
              2 * entries <= VCUBE_SCHEDULE_LENGTH && (line == 0) == (words[0] == 0),
          "words just of a line that cannot be read");
    for (size_t k = 0; k < 2 * entries; k += 2)
        check(schedule[k] >= 1 && schedule[k] <= 3 && schedule[k + 1] <= 99, "an entry that was read");
    NOTE(n, entries, line);
}

/* On a fresh table, or on any; then a drive. */
static void run(void)
{
    const size_t wiring = byte() % 3, n = size(), length = table_length(n);
    const int is_fresh = byte() % 4 != 0;
    uint32_t rounds = byte() % 4 ? 0 : UINT32_MAX - byte(), tests = byte() % 4 ? 0 : UINT32_MAX - byte();
    uint8_t *const table = is_fresh ? zeros(length) : bytes(length), *schedule;
    size_t scheduled, taken = 0, last = VCUBE_NO_STATION, grants = 0;
    int was_valid;

    if (is_fresh)
        accepts(vcube_fresh_table(wiring, n, table, length));
    was_valid = is_valid(wiring, n, table);
    scheduled = left;
    schedule = bytes(scheduled);
    for (size_t k = 0; n > 0 && k + 1 < scheduled; k += 2) { /* mostly entries that there may be */
        schedule[k] = schedule[k] % 16 == 0 ? schedule[k] : schedule[k] % 16 == 1 ? VCUBE_KIND_CRASH : (uint8_t)(1 + schedule[k] % 16 / 12);
        schedule[k + 1] = schedule[k + 1] == 255 ? 255 : (uint8_t)(schedule[k + 1] % n);
    }
    accepts(vcube_run(wiring, n, table, length, &rounds, &tests, schedule, scheduled, zeros(2 * scheduled), 2 * scheduled, &taken));
    accepts(vcube_drive(wiring, n, table, length, &rounds, &tests, &last, &grants));
    check(2 * taken <= scheduled && was_valid == is_valid(wiring, n, table), "a table stays valid");
    NOTE(rounds, tests, taken, last, grants);
}

/* A board that hears anything. */
static void board(void)
{
    const size_t wiring = 1 + byte() % 2, n = 2 + byte() % 63, own = byte() % n, length = VCUBE_LINE_LENGTH(n), packed = VCUBE_PACKED_LENGTH(n);
    uint8_t *const line = zeros(length);
    size_t outcome = 0;

    check(accepts(vcube_board_fresh(wiring, n, own, line, length)), "a fresh line");
    while (left > 0) {
        const uint8_t call = byte() % 6, other = byte();
        uint8_t *const row = bytes(packed), error =
            call == 0   ? vcube_board_replied(wiring, n, own, line, length, row, packed, &outcome)
            : call == 1 ? vcube_board_not_replied(wiring, n, own, line, length, &outcome)
            : call == 2 ? vcube_board_told(wiring, n, own, line, length, other)
            : call == 3 ? vcube_board_exchanged(wiring, n, own, line, length, other, row, packed)
            : call == 4 ? vcube_board_round_closed(wiring, n, own, line, length)
                        : vcube_board_row(wiring, n, own, line, length, row, packed);

        check(error != VCUBE_REFUSED_LINE_LENGTH && error != VCUBE_REFUSED_LINE_RULE, "Line kept");
        NOTE(error, outcome);
        note(line, length);
    }
}

/* What the calls of a kind give. */
static uint64_t give(const char *kind, const uint8_t *data, size_t length)
{
    static const struct {
        const char *name;
        void (*make)(void);
    } kinds[] = {{"load", load}, {"convert", convert}, {"mend", mend}, {"read_input", read_input}, {"run", run}, {"board", board}};

    next = data;
    left = length;
    given = UINT64_C(0xcbf29ce484222325);
    for (size_t k = 0; k < sizeof kinds / sizeof kinds[0]; k++)
        if (strcmp(kind, kinds[k].name) == 0)
            kinds[k].make();
    for (; lent_count > 0; lent_count--) {
        note(lent[lent_count - 1].start, lent[lent_count - 1].length);
        free(lent[lent_count - 1].start);
    }
    return given;
}

uint64_t archive_gives(const char *kind, const uint8_t *data, size_t length);
int LLVMFuzzerTestOneInput(const uint8_t *data, size_t length);

#ifdef BESIDE
uint64_t archive_gives(const char *kind, const uint8_t *data, size_t length)
{
    return give(kind, data, length);
}
#else
int LLVMFuzzerTestOneInput(const uint8_t *data, size_t length)
{
    const char *const kind = getenv("KIND");

    check(give(kind, data, length) == archive_gives(kind, data, length), "the portable C and the archive give the same");
    return 0;
}
#endif
