/* Figures over a season's trials, by the C interface of the library: of each day's list, of two lists
 * together, and of totals that were kept from day to day. */

#include "vcube.h"

#include <inttypes.h>
#include <stdio.h>

#define DAYS 4

/* The rounds that each trial of a day took until all dead boards were known. There was no trial on day 2. */
static const uint16_t day_1[] = {2, 4, 4, 4};
static const uint16_t day_3[] = {5, 5, 7, 9};
static const uint16_t day_4[] = {3, 3, 3};

static const uint16_t *const days[DAYS] = {day_1, NULL, day_3, day_4};
static const size_t trials[DAYS] = {4, 0, 4, 3};

/* Prints the figures, or the number that they were refused with. */
static void print_figures(uint8_t number, const struct vcube_figures *figures)
{
    if (number != VCUBE_ACCEPTED) {
        printf("refused with %d\n", number);
        return;
    }
    printf("%" PRIu64 " trials, least %" PRIu64 ", greatest %" PRIu64, figures->count, figures->least, figures->greatest);
    printf(", mean %" PRIu64 "/%" PRIu64, figures->mean.upper, figures->mean.lower);
    printf(", variance %" PRIu64 "/%" PRIu64 "\n", figures->variance.upper, figures->variance.lower);
}

static void print_day(int day)
{
    struct vcube_figures figures;
    uint8_t number = vcube_figures_of_list(days[day - 1], trials[day - 1], &figures);

    printf("day %d: ", day);
    print_figures(number, &figures);
}

static void print_two_days(int first, int second)
{
    struct vcube_figures figures;
    uint8_t number =
        vcube_figures_of_two_lists(days[first - 1], trials[first - 1], days[second - 1], trials[second - 1], &figures);

    printf("days %d and %d: ", first, second);
    print_figures(number, &figures);
}

/* Adds a day's totals to those of the season. Gives 0 or the refusal. */
static uint8_t add_day(struct vcube_totals *season, int day)
{
    struct vcube_totals of_day, joined;
    uint8_t number = vcube_totals_of_list(days[day - 1], trials[day - 1], &of_day);

    if (number == VCUBE_ACCEPTED)
        number = vcube_join_totals(season, &of_day, &joined);
    if (number == VCUBE_ACCEPTED)
        *season = joined;
    return number;
}

int main(void)
{
    struct vcube_totals season = {0, 0, 0, 0, 0};
    struct vcube_figures figures;
    uint8_t number;

    for (int day = 1; day <= DAYS; day++) {
        print_day(day);
        number = add_day(&season, day);
        if (number != VCUBE_ACCEPTED) {
            printf("totals: refused with %d\n", number);
            return 1;
        }
    }
    print_two_days(1, 3);
    print_two_days(2, 4);
    number = vcube_figures_of_totals(&season, &figures);
    printf("season: ");
    print_figures(number, &figures);
    return fflush(stdout) != 0 || ferror(stdout);
}
