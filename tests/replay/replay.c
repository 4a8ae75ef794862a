/* Makes the calls of a record (tests/harness/shared/src/record.rs says how they stand there) by whatever is linked behind include/vcube.h, and
 * compares number and buffers with what the record says.
 *
 * Usage: replay FILE [MOST_STATIONS MOST_RESULTS]
 *
 * Compiled with ONLY_BOARD it makes a board's calls alone, and passes over the others.
 *
 * FILE may be -, which is standard input. A call with a number that this processor's size_t cannot hold is left out. With MOST_STATIONS and
 * MOST_RESULTS the library behind the header was built for so many only: calls on more are left out.
 *
 * On x86-64 Linux each buffer stands right before or right behind a page that nobody may touch, by turns, and a buffer that the call may only
 * read cannot be written: whoever does is caught, and call and argument are named. Elsewhere a buffer stands between guard bytes, of every other
 * eight calls at other addresses than multiples of 8: bytes may begin anywhere, results at any even address.
 *
 * Exit status: 0 all calls give what they must; 1 one does not; 2 the record cannot be read. */
#if defined(__x86_64__) && defined(__linux__) && !defined(__SANITIZE_ADDRESS__)
#define PAGES 1
#define _GNU_SOURCE
#else
#define PAGES 0
#endif

#include "vcube.h"

#include <stdio.h>
#include <stdlib.h>
#include <string.h>
#if PAGES
#include <setjmp.h>
#include <signal.h>
#include <sys/mman.h>
#include <ucontext.h>
#include <unistd.h>
#endif

/* Under the address sanitizer a buffer has just its length, so that reads out of it are seen too. */
#if defined(__SANITIZE_ADDRESS__)
#define GUARD 0
#else
#define GUARD 64
#endif
#define GUARD_BYTE 0xA5

enum { MOST_ARGUMENTS = 12, MOST_WRONG = 10, LONGEST_NAME = 64 };

/* Bytes that grow as they are needed. */
struct bytes {
    uint8_t *start;
    size_t room;
};

/* An argument: a number, or what a pointer points at. */
struct argument {
    int form;
    uint64_t number;
    size_t length;                      /* in the record, in bytes */
    int is_changed;
    struct bytes before, after;
    size_t lent_length;                 /* as this processor has them */
    uint8_t *lent;                      /* what the call is handed */
    uint8_t *seen;                      /* the same bytes, where they can be written too */
    size_t guard_before, guard_behind;
};

struct call {
    char function[LONGEST_NAME];
    struct argument arguments[MOST_ARGUMENTS];
    size_t count;
    uint8_t number;
};

static struct call call;
static unsigned long calls;             /* how many were read */
static FILE *record;
static size_t most_stations = 64, most_results = VCUBE_MOST_RESULTS;

static void unreadable(const char *why)
{
    fprintf(stderr, "replay: call %lu: %s\n", calls, why);
    exit(2);
}

/* Says what is wrong with the call. */
static void complain(void)
{
    fprintf(stderr, "replay: call %lu, %s: ", calls, call.function);
}

static uint8_t *grown(struct bytes *bytes, size_t length)
{
    if (length > bytes->room || bytes->start == NULL) {
        bytes->room = 2 * length + 64;
        bytes->start = realloc(bytes->start, bytes->room);
        if (bytes->start == NULL)
            unreadable("no memory");
    }
    return bytes->start;
}

static void take(uint8_t *to, size_t length)
{
    if (fread(to, 1, length, record) != length)
        unreadable("the record is cut off");
}

static int take_byte(void)
{
    uint8_t byte;

    take(&byte, 1);
    return byte;
}

static uint64_t number_of(const uint8_t *bytes, size_t width)
{
    uint64_t number = 0;

    for (size_t k = 0; k < width; k++)
        number |= (uint64_t)bytes[k] << (8 * k);
    return number;
}

static uint64_t take_number(size_t width)
{
    uint8_t bytes[8];

    take(bytes, width);
    return number_of(bytes, width);
}

/* How many bytes an item has in the record, and here. */
static size_t width_in_record(int form)
{
    return form == 'b' || form == 'B' ? 1 : form == 'R' ? 2 : form == 'i' ? 4 : 8;
}

static size_t width_here(int form)
{
    return form == 's' ? sizeof(size_t) : width_in_record(form);
}

/* Puts the items of the record there as this processor has them. */
static void convert(const struct argument *argument, const uint8_t *from, uint8_t *to)
{
    const int form = argument->form;
    const size_t width = width_in_record(form);

    if (width == 1) {
        memcpy(to, from, argument->length);
        return;
    }
    for (size_t k = 0; k < argument->length / width; k++) {
        const uint64_t item = number_of(from + k * width, width);
        const uint16_t result = (uint16_t)item;
        const uint32_t number = (uint32_t)item;
        const size_t size = (size_t)item;
        const void *here = form == 'R' ? (const void *)&result : form == 'i' ? (const void *)&number
                         : form == 's' ? (const void *)&size : (const void *)&item;
        memcpy(to + k * width_here(form), here, width_here(form));
    }
}

#if PAGES
/* The memory that is lent for an argument, twice, with a page that nobody may touch on either side. */
enum { ROOM = 1 << 20 };

static uint8_t *writable[MOST_ARGUMENTS], *readable[MOST_ARGUMENTS];
static size_t page;

static uint8_t *mapped(int memory, int protection)
{
    uint8_t *whole = mmap(NULL, ROOM + 2 * page, PROT_NONE, MAP_PRIVATE | MAP_ANONYMOUS, -1, 0);

    if (whole == MAP_FAILED || mmap(whole + page, ROOM, protection, MAP_SHARED | MAP_FIXED, memory, 0) == MAP_FAILED)
        unreadable("no memory can be lent");
    return whole + page;
}

static void map_memory(void)
{
    page = (size_t)sysconf(_SC_PAGESIZE);
    for (size_t k = 0; k < MOST_ARGUMENTS; k++) {
        const int memory = memfd_create("lent", 0);
        if (memory < 0 || ftruncate(memory, ROOM) != 0)
            unreadable("no memory can be lent");
        writable[k] = mapped(memory, PROT_READ | PROT_WRITE);
        readable[k] = mapped(memory, PROT_READ);
        close(memory);
    }
}

static void lend(size_t k)
{
    struct argument *argument = &call.arguments[k];
    const int is_last = calls % 2 == 0, is_read_only = strchr("BRT", argument->form) != NULL;
    const size_t start = is_last ? ROOM - argument->lent_length : 0;

    if (argument->lent_length > ROOM - GUARD)
        unreadable("a buffer is too long to be lent");
    argument->guard_before = is_last ? GUARD : 0;
    argument->guard_behind = is_last ? 0 : GUARD;
    argument->seen = writable[k] + start;
    argument->lent = (is_read_only ? readable : writable)[k] + start;
}

/* What is lent serves for the next call. */
static void give_back(size_t k) { (void)k; }

/* What a signal said that ended a call. */
static sigjmp_buf ended;
static volatile sig_atomic_t is_in_call, is_write;
static volatile int signal_number;
static uint8_t *volatile address;

static volatile unsigned long alarmed;  /* the call at the alarm before */

enum { MOST_SECONDS = 20 };

static void on_signal(int number, siginfo_t *info, void *context)
{
    if (number == SIGALRM && (!is_in_call || alarmed != calls)) {
        alarmed = calls;
        alarm(MOST_SECONDS);
        return;
    }
    if (!is_in_call)
        _exit(2);
    is_in_call = 0;
    signal_number = number;
    address = info->si_addr;
    is_write = (((ucontext_t *)context)->uc_mcontext.gregs[REG_ERR] & 2) != 0;
    siglongjmp(ended, 1);
}

static void prepare(void)
{
    static const int caught[] = {SIGSEGV, SIGBUS, SIGILL, SIGFPE, SIGABRT, SIGALRM};
    static uint8_t room[1 << 16];
    stack_t stack = {.ss_sp = room, .ss_size = sizeof room};
    struct sigaction action = {.sa_sigaction = on_signal, .sa_flags = SA_SIGINFO | SA_NODEFER | SA_ONSTACK | SA_RESTART};

    map_memory();
    if (sigaltstack(&stack, NULL) != 0)
        unreadable("no stack for signals");
    for (size_t k = 0; k < sizeof caught / sizeof caught[0]; k++)
        if (sigaction(caught[k], &action, NULL) != 0)
            unreadable("a signal cannot be caught");
    alarm(MOST_SECONDS);
}

/* Says which argument was touched where it must not be. */
static void name_touched(void)
{
    const char *touched = is_write ? "written" : "read";

    for (size_t k = 0; k < call.count; k++) {
        const struct argument *argument = &call.arguments[k];
        uint8_t *const start = argument->lent, *const end = start + argument->lent_length;
        if (start == NULL || address < start - page || address >= end + page)
            continue;
        if (address < start)
            fprintf(stderr, "argument %zu: %s %zu bytes before its start\n", k + 1, touched, (size_t)(start - address));
        else if (address >= end)
            fprintf(stderr, "argument %zu: %s %zu bytes behind its last\n", k + 1, touched, (size_t)(address - end) + 1);
        else
            fprintf(stderr, "argument %zu: byte %zu is %s, which is lent to be read only\n", k + 1, (size_t)(address - start), touched);
        return;
    }
    fprintf(stderr, "memory is %s that was not lent\n", touched);
}

static void name_signal(void)
{
    complain();
    if (signal_number == SIGALRM) {
        fprintf(stderr, "has not ended after %d seconds\n", MOST_SECONDS);
        exit(1);
    }
    if (signal_number == SIGSEGV || signal_number == SIGBUS)
        name_touched();
    else
        fprintf(stderr, "ends with signal %d\n", signal_number);
}
#else
static void prepare(void) {}

static void lend(size_t k)
{
    struct argument *argument = &call.arguments[k];
    const size_t width = width_here(argument->form), shift = calls / 8 % 2 && width <= 2 ? calls % 8 / width * width : 0;
    uint8_t *whole = malloc(argument->lent_length + 2 * GUARD + shift + 1);

    if (whole == NULL)
        unreadable("no memory");
    argument->guard_before = GUARD + shift;
    argument->guard_behind = GUARD;
    argument->seen = argument->lent = whole + argument->guard_before;
}

static void give_back(size_t k)
{
    free(call.arguments[k].seen - call.arguments[k].guard_before);
}
#endif

static void read_pointer(struct argument *argument)
{
    argument->length = (size_t)take_number(4);
    take(grown(&argument->before, argument->length), argument->length);
    argument->is_changed = take_byte() == '~';
    if (argument->is_changed)
        take(grown(&argument->after, argument->length), argument->length);
    argument->lent_length = argument->length / width_in_record(argument->form) * width_here(argument->form);
}

/* Whether there is a further call. */
static int read_call(void)
{
    size_t length = 0;
    int byte = getc(record);

    if (byte == EOF)
        return 0;
    calls++;
    for (; byte > 0 && length < sizeof call.function - 1; byte = take_byte())
        call.function[length++] = (char)byte;
    call.function[length] = 0;
    for (call.count = 0;; call.count++) {
        struct argument *argument = &call.arguments[call.count];
        const int form = take_byte();
        if (form == '.')
            break;
        if (call.count == MOST_ARGUMENTS)
            unreadable("too many arguments");
        argument->form = form;
        argument->seen = argument->lent = NULL;
        if (form == 'n' || form == 'w')
            argument->number = take_number(form == 'n' ? 8 : 4);
        else if (strchr("bBRsitT", form) != NULL)
            read_pointer(argument);
        else
            unreadable("an unknown argument");
    }
    call.number = (uint8_t)take_byte();
    return 1;
}

/* Whether it is not a call for this processor, or for what is linked here. What stands at a pointer before the call counts for the last number
 * of a drive only, which is its first size_t: the others are only written. */
static int is_left_out(void)
{
    const int is_on_plant = strstr(call.function, "words") == NULL && strcmp(call.function, "vcube_read_input") != 0;
    const int is_of_few = most_stations < 64 && is_on_plant;
    int is_last = strcmp(call.function, "vcube_drive") == 0;
    size_t results = 0;

    for (size_t k = 0; k < call.count; k++) {
        const struct argument *argument = &call.arguments[k];
        const int is_bytes = argument->form == 'b' || argument->form == 'B';
        if (argument->form == 'n' && argument->number > SIZE_MAX)
            return 1;
        if (argument->form == 's' && is_last) {
            if (number_of(argument->before.start, 8) > SIZE_MAX)
                return 1;
            is_last = 0;
        }
        /* The longest plants: by the length of table or file, or by the size. */
        if (is_of_few && is_bytes && argument->length > VCUBE_TABLE_LENGTH(most_stations))
            return 1;
        if (is_of_few && argument->form == 'n' && argument->number > most_stations && argument->number <= 64)
            return 1;
        if (argument->form == 'R')
            results += argument->length / 2;
    }
    return results > most_results && results <= VCUBE_MOST_RESULTS;
}

/* An argument, which has this form: the record takes it from the header. */
static const struct argument *argument_at(size_t k, int form)
{
    if (k >= call.count || call.arguments[k].form != form)
        unreadable("an argument of another form than the call has");
    return &call.arguments[k];
}

static size_t items(size_t k)
{
    return call.arguments[k].length / width_in_record(call.arguments[k].form);
}

#define N(k) (size_t)argument_at(k, 'n')->number
#define W(k) (uint32_t)argument_at(k, 'w')->number
#define B(k) argument_at(k, 'b')->lent, items(k)
#define CONST_B(k) (const uint8_t *)argument_at(k, 'B')->lent, items(k)
#define CONST_R(k) (const uint16_t *)(const void *)argument_at(k, 'R')->lent, items(k)
#define S(k) (size_t *)(void *)argument_at(k, 's')->lent
#define I(k) (uint32_t *)(void *)argument_at(k, 'i')->lent
#define TOTALS(k) (struct vcube_totals *)(void *)argument_at(k, 't')->lent
#define CONST_TOTALS(k) (const struct vcube_totals *)(const void *)argument_at(k, 'T')->lent
#define FIGURES(k) (struct vcube_figures *)(void *)argument_at(k, 't')->lent

/* Each call, by the header's own types. */
#ifdef ONLY_BOARD
#define CALLS(MAKE) CALLS_OF_BOARD(MAKE)
#else
#define CALLS(MAKE) \
    CALLS_OF_BOARD(MAKE) \
    MAKE(fresh_table, N(0), N(1), B(2)) \
    MAKE(group_list, N(0), N(1), N(2), B(3)) \
    MAKE(assignment, N(0), CONST_B(1), N(2), B(3), S(4)) \
    MAKE(slot, N(0), CONST_B(1), N(2), S(3), S(4)) \
    MAKE(row, N(0), N(1), CONST_B(2), N(3), S(4), S(5)) \
    MAKE(run, N(0), N(1), B(2), I(3), I(4), CONST_B(5), B(6), S(7)) \
    MAKE(grant, N(0), N(1), CONST_B(2), N(3), S(4)) \
    MAKE(drive, N(0), N(1), B(2), I(3), I(4), S(5), S(6)) \
    MAKE(doubt_lamp, N(0), N(1), CONST_B(2), S(3), S(4)) \
    MAKE(wait, N(0), N(1), CONST_B(2), S(3), S(4), S(5), S(6)) \
    MAKE(one_dead, N(0), N(1), S(2), S(3)) \
    MAKE(mend, N(0), N(1), B(2), B(3), S(4)) \
    MAKE(save, N(0), CONST_B(1), W(2), W(3), B(4)) \
    MAKE(load, CONST_B(0), B(1), S(2), I(3), I(4)) \
    MAKE(saved_size, CONST_B(0), S(1)) \
    MAKE(convert, CONST_B(0), B(1)) \
    MAKE(converted_length, CONST_B(0), S(1)) \
    MAKE(figures_of_list, CONST_R(0), FIGURES(1)) \
    MAKE(figures_of_two_lists, CONST_R(0), CONST_R(1), FIGURES(2)) \
    MAKE(totals_of_list, CONST_R(0), TOTALS(1)) \
    MAKE(join_totals, CONST_TOTALS(0), CONST_TOTALS(1), TOTALS(2)) \
    MAKE(figures_of_totals, CONST_TOTALS(0), FIGURES(1)) \
    MAKE(refusal_words, N(0), B(1)) \
    MAKE(status_words, N(0), B(1)) \
    MAKE(outcome_words, N(0), B(1)) \
    MAKE(read_input, CONST_B(0), B(1), B(2), S(3), S(4), S(5))
#endif
#define CALLS_OF_BOARD(MAKE) \
    MAKE(board_fresh, N(0), N(1), N(2), B(3)) \
    MAKE(board_next, N(0), N(1), N(2), CONST_B(3), S(4)) \
    MAKE(board_row, N(0), N(1), N(2), CONST_B(3), B(4)) \
    MAKE(board_replied, N(0), N(1), N(2), B(3), CONST_B(4), S(5)) \
    MAKE(board_not_replied, N(0), N(1), N(2), B(3), S(4)) \
    MAKE(board_told, N(0), N(1), N(2), B(3), N(4)) \
    MAKE(board_exchanged, N(0), N(1), N(2), B(3), N(4), CONST_B(5)) \
    MAKE(board_round_closed, N(0), N(1), N(2), B(3))

#define DEFINE(name, ...) static uint8_t make_##name(void) { return vcube_##name(__VA_ARGS__); }
CALLS(DEFINE)

#define LIST(name, ...) {"vcube_" #name, make_##name},
static const struct {
    const char *function;
    uint8_t (*make)(void);
} functions[] = {CALLS(LIST)};

static uint8_t make(void)
{
    for (size_t k = 0; k < sizeof functions / sizeof functions[0]; k++)
        if (strcmp(functions[k].function, call.function) == 0)
            return functions[k].make();
    unreadable("an unknown function");
    return 0;
}

/* Whether the call is none of those that are made here. */
static int is_passed_over(void)
{
#ifdef ONLY_BOARD
    return strncmp(call.function, "vcube_board_", 12) != 0;
#else
    return 0;
#endif
}

/* Lends what stands before the call. A list of length 0 is now and then handed over as NULL, which the header allows. */
static void lend_all(void)
{
    for (size_t k = 0; k < call.count; k++) {
        struct argument *argument = &call.arguments[k];
        if (argument->form == 'n' || argument->form == 'w')
            continue;
        lend(k);
        memset(argument->seen - argument->guard_before, GUARD_BYTE, argument->guard_before);
        memset(argument->seen + argument->lent_length, GUARD_BYTE, argument->guard_behind);
        convert(argument, argument->before.start, argument->seen);
        if (argument->length == 0 && calls % 4 < 2)
            argument->lent = NULL;
    }
}

static int is_guard(const uint8_t *bytes, size_t length)
{
    for (size_t k = 0; k < length; k++)
        if (bytes[k] != GUARD_BYTE)
            return 0;
    return 1;
}

/* Whether a buffer is after the call what it must be. */
static int is_right(size_t k)
{
    static struct bytes expected;
    const struct argument *argument = &call.arguments[k];
    const uint8_t *right = grown(&expected, argument->lent_length), *seen = argument->seen;
    size_t at = 0;

    convert(argument, argument->is_changed ? argument->after.start : argument->before.start, expected.start);
    if (!is_guard(seen - argument->guard_before, argument->guard_before) || !is_guard(seen + argument->lent_length, argument->guard_behind)) {
        complain();
        fprintf(stderr, "argument %zu: written out of its bounds\n", k + 1);
        return 0;
    }
    if (memcmp(right, seen, argument->lent_length) == 0)
        return 1;
    while (right[at] == seen[at])
        at++;
    complain();
    fprintf(stderr, "argument %zu, byte %zu of %zu: is %02x, not %02x\n", k + 1, at, argument->lent_length, seen[at], right[at]);
    return 0;
}

/* Lends what the call needs and makes it. Gives its number, or -1 where a signal ended it. */
static int number_given(void)
{
    int number;

    lend_all();
#if PAGES
    if (sigsetjmp(ended, 0) != 0) {
        name_signal();
        return -1;
    }
    is_in_call = 1;
    number = make();
    is_in_call = 0;
#else
    number = make();
#endif
    return number;
}

/* Whether the call gives what it must. */
static int replay(void)
{
    const int given = number_given();
    int is_as_recorded = given == call.number;

    if (given >= 0 && !is_as_recorded) {
        complain();
        fprintf(stderr, "gives %d, not %u\n", given, call.number);
    }
    for (size_t k = 0; k < call.count; k++) {
        if (call.arguments[k].seen == NULL)
            continue;
        if (given >= 0)
            is_as_recorded &= is_right(k);
        give_back(k);
    }
    return is_as_recorded;
}

int main(int count, char **words)
{
    unsigned long made = 0, wrong = 0, passed_over = 0;

    if (count != 2 && count != 4)
        unreadable("usage: replay FILE [MOST_STATIONS MOST_RESULTS]");
    record = strcmp(words[1], "-") == 0 ? stdin : fopen(words[1], "rb");
    if (record == NULL || setvbuf(record, NULL, _IOFBF, 1 << 20) != 0)
        unreadable("the record cannot be opened");
    if (count == 4) {
        most_stations = strtoul(words[2], NULL, 10);
        most_results = strtoul(words[3], NULL, 10);
    }
    prepare();
    while (wrong < MOST_WRONG && read_call()) {
        if (is_passed_over())
            passed_over++;
        if (is_passed_over() || is_left_out())
            continue;
        made++;
        wrong += !replay();
    }
    calls -= passed_over;
    printf("replay: %lu calls made, %lu wrong, %lu left out\n", made, wrong, calls - made);
    /* A build for all stations and results whose size_t holds all numbers has to make every call. */
    return wrong > 0 || made == 0 || (calls > made && wrong == 0 && count != 4 && sizeof(size_t) == 8);
}
