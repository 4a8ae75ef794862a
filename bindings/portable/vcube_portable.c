/* The calls of vcube.h in portable C, over the module that wasm2c made of the library (vcube_module.c). This is the one file to compile: it
 * holds the module and all that the module needs of a runtime. docs/BOARDS.md of the repository says what it takes of a processor.
 *
 * The module works on a memory of its own, a static array. A call copies what it is handed into that memory, calls the function there, and
 * copies back what the function wrote: of a refused call the numbers that it gives, and nothing else, as the library changes nothing else.
 * There is no call to begin with, and nothing that can fail: the first call of all lays the memory out. The copying is not proved, and
 * neither is wasm2c; both are tested.
 *
 * One call at a time: two calls at once, in two threads or in an interrupt, need two memories (VCUBE_PORTABLE_LOCAL).
 *
 * What may be defined when this is compiled:
 *
 *   VCUBE_PORTABLE_STATIONS  the most stations of a plant, 2 to 64 (64). A plant of more gets refusal 1, as one of more than 64.
 *   VCUBE_PORTABLE_RESULTS   the most results that figures and totals are taken of, 1 to 4096 (4096). More get refusal 15.
 *   VCUBE_PORTABLE_LOCAL     what stands before the memory, _Thread_local for one in each thread (nothing).
 *   VCUBE_PORTABLE_TRAP      what is done in place of a return if the module leaves its memory, which the proofs rule out: a statement that
 *                            does not end (the compiler's trap, or an endless loop, which a watchdog of the hardware sees).
 */
#include "vcube.h"

#ifndef VCUBE_PORTABLE_RESULTS
#define VCUBE_PORTABLE_RESULTS VCUBE_MOST_RESULTS
#endif
#if VCUBE_PORTABLE_RESULTS < 1 || VCUBE_PORTABLE_RESULTS > 4096
#error "vcube: VCUBE_PORTABLE_RESULTS is 1 to 4096"
#endif

/* A load has a table on the module's stack. */
#define MODULE_STACK 4624
#define HAS_CONSTANTS 1

#define MOST_RESULTS ((size_t)VCUBE_PORTABLE_RESULTS)
#define TABLE_ROOM VCUBE_TABLE_LENGTH(MOST_STATIONS)
#define REPORT_ROOM VCUBE_REPORT_LENGTH(MOST_STATIONS)
#define SAVED_ROOM VCUBE_SAVED_LENGTH(MOST_STATIONS)
#define RESULTS_ROOM (MOST_RESULTS * sizeof(uint16_t))

/* What the numbers of a call take, eight bytes each, or three structs; and what lengths are rounded up by. */
#define NUMBERS_ROOM 192

/* What the reading of an input takes at least: the buffer for words, and a few lines at a time. */
#define LEAST_INPUT_ROOM (VCUBE_WORDS_LENGTH + (size_t)96)

/* What the buffers of any one call take: those of a mending, two saved plants, figures, or the reading of an input. */
#define GREATER(a, b) ((a) > (b) ? (a) : (b))
#define CALL_ROOM GREATER(GREATER(TABLE_ROOM + REPORT_ROOM, SAVED_ROOM + SAVED_ROOM), GREATER(RESULTS_ROOM, LEAST_INPUT_ROOM))

/* How many entries of a run are handed over at a time: those that there is room for beside the table, 6 bytes each. */
#define ENTRIES_AT_ONCE ((CALL_ROOM - TABLE_ROOM) / 6)

/* How many bytes of an input are handed over at a time: those that there is room for beside the words and their entries. An entry, which has
 * 2 bytes, is read from 4 bytes at least, or 3 at the end of an input. */
#define INPUT_AT_ONCE ((CALL_ROOM - VCUBE_WORDS_LENGTH) / 3 * 2)

#include "vcube_portable_module.h"
#include "vcube_portable_board.h"

/* Numbers, low byte first. */

static void put_number(uint32_t at, uint64_t number, uint32_t width)
{
    for (uint32_t k = 0; k < width; k++)
        memory[at + k] = (uint8_t)(number >> (8 * k));
}

static uint32_t number_in(uint64_t number, uint32_t width)
{
    uint32_t at = room_for_number();

    put_number(at, number, width);
    return at;
}

static uint32_t get_u32(uint32_t at)
{
    uint32_t number;

    copy_number(&number, memory + at, sizeof number);
    return number;
}

/* Begins a call on a table. */
static struct lent begin_with_table(const uint8_t *table, size_t table_length)
{
    struct lent lent;

    begin_call();
    lent.length = cut(table_length, TABLE_ROOM);
    lent.at = bytes_in(table, lent.length);
    return lent;
}

uint32_t vcube_version(void)
{
    begin_call();
    return Z_vcube_moduleZ_vcube_version(&module);
}

uint8_t vcube_fresh_table(size_t wiring, size_t n, uint8_t *table, size_t table_length)
{
    size_t length = cut(table_length, TABLE_ROOM);
    uint32_t at;
    uint8_t number;

    begin_call();
    at = room(length);
    number = CALL(vcube_fresh_table, wiring, size_in(n), at, length);
    if (number == VCUBE_ACCEPTED)
        get_bytes(at, table, length);
    return number;
}

uint8_t vcube_group_list(size_t n, size_t station, size_t level, uint8_t *list, size_t list_length)
{
    size_t length = cut(list_length, VCUBE_LONGEST_GROUP);
    uint32_t at;
    uint8_t number;

    begin_call();
    at = room(length);
    number = CALL(vcube_group_list, size_in(n), station, level, at, length);
    if (number == VCUBE_ACCEPTED)
        get_bytes(at, list, length);
    return number;
}

uint8_t vcube_assignment(size_t n, const uint8_t *table, size_t table_length, size_t station, uint8_t *list, size_t list_length,
                         size_t *count)
{
    const struct lent lent = begin_with_table(table, table_length);
    const size_t to_fill = cut(list_length, VCUBE_ASSIGNMENT_LENGTH(MOST_STATIONS));
    const uint32_t list_at = room(to_fill), count_at = room_for_number();
    uint8_t number;

    number = CALL(vcube_assignment, size_in(n), lent.at, lent.length, station, list_at, to_fill, count_at);
    *count = get_size(count_at);
    if (number == VCUBE_ACCEPTED)
        get_bytes(list_at, list, to_fill);
    return number;
}

uint8_t vcube_row(size_t wiring, size_t n, const uint8_t *table, size_t table_length, size_t station, size_t *start, size_t *length)
{
    const struct lent lent = begin_with_table(table, table_length);
    const uint32_t start_at = room_for_number(), length_at = room_for_number();
    uint8_t number;

    number = CALL(vcube_row, wiring, size_in(n), lent.at, lent.length, station, start_at, length_at);
    *start = get_size(start_at);
    *length = get_size(length_at);
    return number;
}

/* The whole schedule need not stand in the memory: a run of it does what runs of its parts do, one after the other, and what its length is
 * refused for is asked first. So the module sees it in parts, and the table stays in the memory meanwhile. */
uint8_t vcube_run(size_t wiring, size_t n, uint8_t *table, size_t table_length, uint32_t *rounds, uint32_t *tests, const uint8_t *schedule,
                  size_t schedule_length, uint8_t *sheet, size_t sheet_length, size_t *taken)
{
    const int is_odd = schedule_length % 2 != 0, is_double = sheet_length % 2 == 0 && sheet_length / 2 == schedule_length;
    const size_t entries = is_odd || !is_double ? 0 : schedule_length / 2;
    const struct lent lent = begin_with_table(table, table_length);
    const uint32_t rounds_at = number_in(*rounds, 4), tests_at = number_in(*tests, 4), taken_at = room_for_number();
    uint32_t schedule_at, sheet_at;
    size_t done = 0, part, part_taken;
    uint8_t number;

    do {
        const uint32_t here = next;
        part = entries - done < ENTRIES_AT_ONCE ? entries - done : ENTRIES_AT_ONCE;
        /* A schedule of one byte is odd as the one handed in is; a sheet of one byte is not twice a schedule of none. */
        schedule_at = part == 0 ? room(1) : bytes_in(schedule + 2 * done, 2 * part);
        sheet_at = room(4 * part + 1);
        number = CALL(vcube_run, wiring, size_in(n), lent.at, lent.length, rounds_at, tests_at, schedule_at, is_odd ? 1 : 2 * part, sheet_at,
                      is_odd || is_double ? 4 * part : 1, taken_at);
        part_taken = get_size(taken_at);
        if (part_taken > 0)
            get_bytes(sheet_at, sheet + 4 * done, 4 * part_taken);
        done += part_taken;
        next = here;
    } while (number == VCUBE_ACCEPTED && done < entries);
    *rounds = get_u32(rounds_at);
    *tests = get_u32(tests_at);
    *taken = done;
    if (done > 0)
        get_bytes(lent.at, table, lent.length);
    return number;
}

uint8_t vcube_grant(size_t wiring, size_t n, const uint8_t *table, size_t table_length, size_t last, size_t *station)
{
    const struct lent lent = begin_with_table(table, table_length);
    const uint32_t station_at = room_for_number();
    uint8_t number;

    number = CALL(vcube_grant, wiring, size_in(n), lent.at, lent.length, last, station_at);
    *station = get_size(station_at);
    return number;
}

uint8_t vcube_drive(size_t wiring, size_t n, uint8_t *table, size_t table_length, uint32_t *rounds, uint32_t *tests, size_t *last,
                    size_t *grants)
{
    const struct lent lent = begin_with_table(table, table_length);
    const uint32_t rounds_at = number_in(*rounds, 4), tests_at = number_in(*tests, 4), last_at = number_in(*last, 8);
    const uint32_t grants_at = room_for_number();
    uint8_t number;

    number = CALL(vcube_drive, wiring, size_in(n), lent.at, lent.length, rounds_at, tests_at, last_at, grants_at);
    *rounds = get_u32(rounds_at);
    *tests = get_u32(tests_at);
    *last = get_size(last_at);
    *grants = get_size(grants_at);
    if (*grants > 0)
        get_bytes(lent.at, table, lent.length);
    return number;
}

uint8_t vcube_doubt_lamp(size_t wiring, size_t n, const uint8_t *table, size_t table_length, size_t *by, size_t *of)
{
    const struct lent lent = begin_with_table(table, table_length);
    const uint32_t by_at = room_for_number(), of_at = room_for_number();
    uint8_t number;

    number = CALL(vcube_doubt_lamp, wiring, size_in(n), lent.at, lent.length, by_at, of_at);
    *by = get_size(by_at);
    *of = get_size(of_at);
    return number;
}

uint8_t vcube_slot(size_t n, const uint8_t *table, size_t table_length, size_t station, size_t *tests, size_t *most)
{
    const struct lent lent = begin_with_table(table, table_length);
    const uint32_t tests_at = room_for_number(), most_at = room_for_number();
    uint8_t number;

    number = CALL(vcube_slot, size_in(n), lent.at, lent.length, station, tests_at, most_at);
    *tests = get_size(tests_at);
    *most = get_size(most_at);
    return number;
}

uint8_t vcube_wait(size_t wiring, size_t n, const uint8_t *table, size_t table_length, size_t *rounds, size_t *turns_per_round,
                   size_t *turns_until_known, size_t *turns_from_crash)
{
    const struct lent lent = begin_with_table(table, table_length);
    const uint32_t rounds_at = room_for_number(), round_at = room_for_number(), known_at = room_for_number(), crash_at = room_for_number();
    uint8_t number;

    number = CALL(vcube_wait, wiring, size_in(n), lent.at, lent.length, rounds_at, round_at, known_at, crash_at);
    *rounds = get_size(rounds_at);
    *turns_per_round = get_size(round_at);
    *turns_until_known = get_size(known_at);
    *turns_from_crash = get_size(crash_at);
    return number;
}

uint8_t vcube_one_dead(size_t wiring, size_t n, size_t *rounds, size_t *grants)
{
    uint32_t rounds_at, grants_at;
    uint8_t number;

    begin_call();
    rounds_at = room_for_number();
    grants_at = room_for_number();
    number = CALL(vcube_one_dead, wiring, size_in(n), rounds_at, grants_at);
    *rounds = get_size(rounds_at);
    *grants = get_size(grants_at);
    return number;
}

/* Of a report longer than any plant needs, only the front is handed over; the rest is cleared here. */
uint8_t vcube_mend(size_t wiring, size_t n, uint8_t *table, size_t table_length, uint8_t *report, size_t report_length, size_t *changes)
{
    const struct lent lent = begin_with_table(table, table_length);
    const size_t front = report_length < REPORT_ROOM ? report_length : REPORT_ROOM;
    const uint32_t report_at = room(front), changes_at = room_for_number();
    uint8_t number;

    number = CALL(vcube_mend, wiring, size_in(n), lent.at, lent.length, report_at, front, changes_at);
    *changes = get_size(changes_at);
    if (number == VCUBE_ACCEPTED) {
        get_bytes(lent.at, table, lent.length);
        get_bytes(report_at, report, front);
        fill(report + front, 0, report_length - front);
    }
    return number;
}

uint8_t vcube_save(size_t n, const uint8_t *table, size_t table_length, uint32_t rounds, uint32_t tests, uint8_t *saved,
                   size_t saved_length)
{
    const struct lent lent = begin_with_table(table, table_length);
    const size_t to_fill = cut(saved_length, SAVED_ROOM);
    const uint32_t saved_at = room(to_fill);
    uint8_t number;

    number = CALL(vcube_save, size_in(n), lent.at, lent.length, rounds, tests, saved_at, to_fill);
    if (number == VCUBE_ACCEPTED)
        get_bytes(saved_at, saved, to_fill);
    return number;
}

/* What a walk through the fields of a file finds, for the refusals that go by the fields alone. */
struct fields {
    int is_cut_off;
    int is_opened;
    int is_out_of_order;                /* behind the first field, by tag and station */
    int is_of_unknown_tag;              /* some field, the first included */
    size_t sizes;
    size_t tallies;
    int is_of_wrong_length;             /* a size or a tally */
    size_t n;
};

static struct fields walk(const uint8_t *file, size_t length)
{
    struct fields found = {0, 0, 0, 0, 0, 0, 0, 0};
    uint8_t tag_before = 0, station_before = 0;
    size_t at = 0;

    while (at < length) {
        const uint8_t *field = file + at;
        size_t contents = 0;
        uint8_t station;
        if (length - at >= 3)
            contents = (size_t)field[1] << 8 | field[2];
        if (length - at < 3 || length - at - 3 < contents) {
            found.is_cut_off = 1;
            return found;
        }
        station = contents > 0 ? field[3] : 0;
        if (at == 0 && field[0] == VCUBE_TAG_OPENING && contents == 1 && field[3] == VCUBE_EDITION) {
            found.is_opened = 1;
            found.is_of_unknown_tag = 1;
        } else {
            int is_known = field[0] >= VCUBE_TAG_SIZE && field[0] <= VCUBE_TAG_LINE;
            int is_below = field[0] < tag_before || (field[0] == VCUBE_TAG_LINE && tag_before == VCUBE_TAG_LINE && station < station_before);
            found.is_of_unknown_tag |= !is_known;
            found.is_out_of_order |= at > 0 && (!is_known || is_below);
            if (field[0] == VCUBE_TAG_SIZE) {
                found.sizes++;
                found.is_of_wrong_length |= contents != 1;
                found.n = station;
            } else if (field[0] == VCUBE_TAG_TALLY) {
                found.tallies++;
                found.is_of_wrong_length |= contents != 8;
            }
            tag_before = field[0];
            station_before = station;
        }
        at += 3 + contents;
    }
    return found;
}

/* The refusal of a file by its fields, those by lines, table and list left out. A file that is longer than the memory has room for is judged
 * by it. As such a file has more bytes than the lines of a plant that there is room for, it gets 20 if it gets none of these. */
static uint8_t refusal_of_long(const uint8_t *file, size_t length, int is_of_edition_1, size_t *n)
{
    struct fields found = walk(file, length);

    *n = 0;
    if (found.is_cut_off)
        return VCUBE_REFUSED_FIELD_PAST_END;
    if (!is_of_edition_1 && !found.is_opened)
        return VCUBE_REFUSED_NO_OPENING;
    if (is_of_edition_1 ? found.is_of_unknown_tag : found.is_out_of_order)
        return VCUBE_REFUSED_FIELD_ORDER;
    if (found.sizes != 1 || found.tallies != 1 || found.is_of_wrong_length)
        return VCUBE_REFUSED_SIZE_OR_TALLY_FIELD;
    if (found.n < 2 || found.n > MOST_STATIONS)
        return VCUBE_REFUSED_SIZE_OUT_OF_RANGE;
    *n = found.n;
    return VCUBE_ACCEPTED;
}

uint8_t vcube_load(const uint8_t *saved, size_t saved_length, uint8_t *table, size_t table_length, size_t *n, uint32_t *rounds,
                   uint32_t *tests)
{
    size_t length = cut(table_length, TABLE_ROOM);
    uint32_t saved_at, table_at, n_at, rounds_at, tests_at;
    uint8_t number;

    if (saved_length > SAVED_ROOM) {
        number = refusal_of_long(saved, saved_length, 0, n);
        *n = 0;
        *rounds = 0;
        *tests = 0;
        return number == VCUBE_ACCEPTED ? VCUBE_REFUSED_LINE_FIELD : number;
    }
    begin_call();
    saved_at = bytes_in(saved, saved_length);
    table_at = room(length);
    n_at = room_for_number();
    rounds_at = room_for_number();
    tests_at = room_for_number();
    number = CALL(vcube_load, saved_at, saved_length, table_at, length, n_at, rounds_at, tests_at);
    *n = get_size(n_at);
    *rounds = get_u32(rounds_at);
    *tests = get_u32(tests_at);
    if (number == VCUBE_ACCEPTED)
        get_bytes(table_at, table, length);
    return number;
}

uint8_t vcube_saved_size(const uint8_t *saved, size_t saved_length, size_t *n)
{
    uint32_t saved_at, n_at;
    uint8_t number;

    if (saved_length > SAVED_ROOM)
        return refusal_of_long(saved, saved_length, 0, n);
    begin_call();
    saved_at = bytes_in(saved, saved_length);
    n_at = room_for_number();
    number = CALL(vcube_saved_size, saved_at, saved_length, n_at);
    *n = get_size(n_at);
    return number;
}

uint8_t vcube_convert(const uint8_t *old, size_t old_length, uint8_t *saved, size_t saved_length)
{
    size_t to_fill = cut(saved_length, SAVED_ROOM), n;
    uint32_t old_at, saved_at;
    uint8_t number;

    if (old_length > SAVED_ROOM) {
        number = refusal_of_long(old, old_length, 1, &n);
        return number == VCUBE_ACCEPTED ? VCUBE_REFUSED_LINE_FIELD : number;
    }
    begin_call();
    old_at = bytes_in(old, old_length);
    saved_at = room(to_fill);
    number = CALL(vcube_convert, old_at, old_length, saved_at, to_fill);
    if (number == VCUBE_ACCEPTED)
        get_bytes(saved_at, saved, to_fill);
    return number;
}

uint8_t vcube_converted_length(const uint8_t *old, size_t old_length, size_t *length)
{
    uint32_t old_at, length_at;
    uint8_t number;

    if (old_length > SAVED_ROOM) {
        number = refusal_of_long(old, old_length, 1, length);
        if (number == VCUBE_ACCEPTED)
            *length = VCUBE_SAVED_LENGTH(*length);
        return number;
    }
    begin_call();
    old_at = bytes_in(old, old_length);
    length_at = room_for_number();
    number = CALL(vcube_converted_length, old_at, old_length, length_at);
    *length = get_size(length_at);
    return number;
}

/* A list of results, of 16 bits with the low byte first; there may be further ones in the call. If they are too many together, just so many are
 * named here that all are refused by their number. */
static struct lent results_in(const uint16_t *results, size_t length, size_t further)
{
    struct lent lent = {next, VCUBE_MOST_RESULTS + 1};

    if (length <= MOST_RESULTS && further <= MOST_RESULTS - length) {
        lent.at = room(2 * length);
        lent.length = length;
        for (size_t k = 0; k < length; k++)
            put_number(lent.at + 2 * (uint32_t)k, results[k], 2);
    }
    return lent;
}

/* The members of the structs, in their order. */

static uint32_t totals_in(const struct vcube_totals *totals)
{
    uint32_t at = room(40);

    put_number(at, totals->count, 8);
    put_number(at + 8, totals->sum, 8);
    put_number(at + 16, totals->squares, 8);
    put_number(at + 24, totals->least, 8);
    put_number(at + 32, totals->greatest, 8);
    return at;
}

static void get_totals(uint32_t at, struct vcube_totals *totals)
{
    totals->count = get_u64(at);
    totals->sum = get_u64(at + 8);
    totals->squares = get_u64(at + 16);
    totals->least = get_u64(at + 24);
    totals->greatest = get_u64(at + 32);
}

static void get_figures(uint32_t at, struct vcube_figures *figures)
{
    figures->count = get_u64(at);
    figures->least = get_u64(at + 8);
    figures->greatest = get_u64(at + 16);
    figures->mean.upper = get_u64(at + 24);
    figures->mean.lower = get_u64(at + 32);
    figures->variance.upper = get_u64(at + 40);
    figures->variance.lower = get_u64(at + 48);
}

uint8_t vcube_figures_of_list(const uint16_t *results, size_t length, struct vcube_figures *figures)
{
    struct lent list;
    uint32_t figures_at;
    uint8_t number;

    begin_call();
    figures_at = room(56);
    list = results_in(results, length, 0);
    number = CALL(vcube_figures_of_list, list.at, list.length, figures_at);
    get_figures(figures_at, figures);
    return number;
}

uint8_t vcube_figures_of_two_lists(const uint16_t *first, size_t first_length, const uint16_t *second, size_t second_length,
                                   struct vcube_figures *figures)
{
    struct lent one, two;
    uint32_t figures_at;
    uint8_t number;

    begin_call();
    figures_at = room(56);
    one = results_in(first, first_length, second_length);
    two = results_in(second, second_length, first_length);
    number = CALL(vcube_figures_of_two_lists, one.at, one.length, two.at, two.length, figures_at);
    get_figures(figures_at, figures);
    return number;
}

uint8_t vcube_totals_of_list(const uint16_t *results, size_t length, struct vcube_totals *totals)
{
    struct lent list;
    uint32_t totals_at;
    uint8_t number;

    begin_call();
    totals_at = room(40);
    list = results_in(results, length, 0);
    number = CALL(vcube_totals_of_list, list.at, list.length, totals_at);
    get_totals(totals_at, totals);
    return number;
}

uint8_t vcube_join_totals(const struct vcube_totals *first, const struct vcube_totals *second, struct vcube_totals *joined)
{
    uint32_t first_at, second_at, joined_at;
    uint8_t number;

    begin_call();
    first_at = totals_in(first);
    second_at = totals_in(second);
    joined_at = room(40);
    number = CALL(vcube_join_totals, first_at, second_at, joined_at);
    get_totals(joined_at, joined);
    return number;
}

uint8_t vcube_figures_of_totals(const struct vcube_totals *totals, struct vcube_figures *figures)
{
    uint32_t totals_at, figures_at;
    uint8_t number;

    begin_call();
    totals_at = totals_in(totals);
    figures_at = room(56);
    number = CALL(vcube_figures_of_totals, totals_at, figures_at);
    get_figures(figures_at, figures);
    return number;
}

/* Begins a call for words, with the buffer that they go into. */
static struct lent begin_with_words(size_t words_length)
{
    struct lent lent;

    begin_call();
    lent.length = cut(words_length, VCUBE_WORDS_LENGTH);
    lent.at = room(lent.length);
    return lent;
}

uint8_t vcube_refusal_words(size_t refusal, uint8_t *words, size_t words_length)
{
    const struct lent lent = begin_with_words(words_length);

    return give_back(CALL(vcube_refusal_words, refusal, lent.at, lent.length), lent, words);
}

uint8_t vcube_status_words(size_t status, uint8_t *words, size_t words_length)
{
    const struct lent lent = begin_with_words(words_length);

    return give_back(CALL(vcube_status_words, status, lent.at, lent.length), lent, words);
}

uint8_t vcube_outcome_words(size_t outcome, uint8_t *words, size_t words_length)
{
    const struct lent lent = begin_with_words(words_length);

    return give_back(CALL(vcube_outcome_words, outcome, lent.at, lent.length), lent, words);
}

#define LINE_FEED 10

/* How much of the rest of an input is handed over: all of it, or whole lines; or the front of a longer line, which is unreadable by that. */
static size_t part_of_input(const uint8_t *rest, size_t left)
{
    size_t part = INPUT_AT_ONCE;

    if (left <= part)
        return left;
    while (part > 0 && rest[part - 1] != LINE_FEED)
        part--;
    return part > 0 ? part : INPUT_AT_ONCE;
}

/* An input goes through in parts, as a schedule does; in front of each part but the first comes the line of a size. Of the module's schedule
 * there is just what the entries of a part take: it stands last, and what is behind them is not touched. No part has more entries than a
 * schedule has room for, so that is found here, and the words for it stand here once more. */
uint8_t vcube_read_input(const uint8_t *input, size_t input_length, uint8_t *schedule, size_t schedule_length, uint8_t *words,
                         size_t words_length, size_t *n, size_t *entries, size_t *line)
{
    static const uint8_t size_line[] = {'2', LINE_FEED};
    static const char one_too_many[] = "a 4,097th entry where the end of the input (4,096 entries at most) is expected";
    const size_t most = VCUBE_SCHEDULE_LENGTH / 2;
    const struct lent lent = begin_with_words(words_length);
    const uint32_t n_at = room_for_number(), entries_at = room_for_number(), line_at = room_for_number(), begin = next;
    const uint8_t *rest = input;
    size_t left = input_length, done = 0, front, part, read, unread;
    uint32_t input_at;
    int is_one_too_many;
    uint8_t number;

    for (;;) {
        front = rest == input ? 0 : sizeof size_line;
        part = part_of_input(rest, left);
        next = begin;
        input_at = room(front + part);
        put_bytes(input_at, size_line, front);
        put_bytes(input_at + (uint32_t)front, rest, part);
        number = CALL(vcube_read_input, input_at, front + part, next, schedule_length, lent.at, lent.length, n_at, entries_at, line_at);
        read = get_size(entries_at);
        unread = get_size(line_at);
        is_one_too_many = read > most - done;
        if (is_one_too_many) {
            read = most - done;
            unread = read + 2;
        }
        if (rest == input)
            *n = get_size(n_at);
        if (read > 0)
            get_bytes(next, schedule + 2 * done, 2 * read);
        done += read;
        if (number != VCUBE_ACCEPTED || unread > 0 || part == left)
            break;
        rest += part;
        left -= part;
    }
    *entries = done;
    *line = unread < 2 ? unread : done + 2;
    if (!is_one_too_many)
        return give_back(number, lent, words);
    fill(words, 0, words_length);
    memcpy(words, one_too_many, sizeof one_too_many);
    return VCUBE_ACCEPTED;
}
