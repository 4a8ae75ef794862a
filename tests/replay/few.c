/* The portable C built for plants of 16 boards and 256 results: what is more is refused by the same numbers as what is more than 64 and 4096,
 * before and behind the same others, and what it takes of memory is less. */
#include "vcube.h"

#include <stdio.h>
#include <string.h>

static int wrong;

static void expect(int is_so, const char *what)
{
    if (!is_so) {
        fprintf(stderr, "few: not so: %s\n", what);
        wrong = 1;
    }
}

/* A saved plant of n fresh boards. */
static size_t save_fresh(size_t n, uint8_t *saved)
{
    uint8_t *at = saved;
    const uint8_t front[] = {VCUBE_TAG_OPENING, 0, 1, VCUBE_EDITION, VCUBE_TAG_SIZE, 0, 1, (uint8_t)n, VCUBE_TAG_TALLY, 0, 8, 0, 0, 0, 0, 0, 0, 0, 0};

    memcpy(at, front, sizeof front);
    at += sizeof front;
    for (size_t k = 0; k < n; k++) {
        const uint8_t head[] = {VCUBE_TAG_LINE, 0, (uint8_t)(n + 7), (uint8_t)k, 0, 1, 0, 0, VCUBE_TOLD_BY_NONE, 0};
        memcpy(at, head, sizeof head);
        memset(at + sizeof head, 0, n);
        at += sizeof head + n;
    }
    return (size_t)(at - saved);
}

int main(void)
{
    static uint8_t table[VCUBE_TABLE_LENGTH(64)], saved[VCUBE_SAVED_LENGTH(64)];
    static uint16_t results[VCUBE_MOST_RESULTS];
    struct vcube_figures figures;
    uint32_t rounds = 5, tests = 5;
    size_t n = 5, length;

    for (size_t size = 2; size <= 64; size++) {
        int is_taken = size <= 16;
        size_t table_length = VCUBE_TABLE_LENGTH(size);
        expect(vcube_fresh_table(VCUBE_WIRING_CUBE, size, table, table_length) == (is_taken ? VCUBE_ACCEPTED : 1), "fresh table: 1");
        expect(vcube_fresh_table(3, size, table, table_length) == VCUBE_REFUSED_NO_SUCH_WIRING, "fresh table: 24 before 1");
        expect(vcube_one_dead(VCUBE_WIRING_RING, size, &n, &length) == (is_taken ? VCUBE_ACCEPTED : 1), "one dead: 1");
        expect(vcube_one_dead(3, size, &n, &length) == VCUBE_REFUSED_NO_SUCH_WIRING && n == 0 && length == 0, "one dead: 24 before 1");
        length = save_fresh(size, saved);
        expect(length == VCUBE_SAVED_LENGTH(size), "the length of a saved plant");
        n = 5;
        expect(vcube_saved_size(saved, length, &n) == (is_taken ? VCUBE_ACCEPTED : 1) && n == (is_taken ? size : 0), "saved size: 1");
        expect(vcube_load(saved, length, table, table_length, &n, &rounds, &tests) == (is_taken ? VCUBE_ACCEPTED : 1), "load: 1");
        expect(n == (is_taken ? size : 0) && rounds == 0 && tests == 0, "load: the numbers");
        expect(vcube_load(saved, length - 1, table, table_length, &n, &rounds, &tests) == VCUBE_REFUSED_FIELD_PAST_END, "load: 18 before 1");
        saved[0] = VCUBE_TAG_SIZE;
        expect(vcube_saved_size(saved, length, &n) == VCUBE_REFUSED_NO_OPENING, "saved size: 21 before 1");
    }
    expect(vcube_figures_of_list(results, 256, &figures) == VCUBE_ACCEPTED && figures.count == 256, "figures of 256 results");
    expect(vcube_figures_of_list(results, 257, &figures) == VCUBE_REFUSED_TOO_MANY_RESULTS && figures.count == 0, "figures: 15");
    expect(vcube_figures_of_two_lists(results, 200, results, 57, &figures) == VCUBE_REFUSED_TOO_MANY_RESULTS, "figures of two lists: 15");
    return wrong;
}
