/* Wrong libraries, to show that replay.c notices them: the grant of the library behind it, spoilt as the environment's WRONG says. Linked with
 * --wrap=vcube_grant. */
#include "vcube.h"

#include <stdlib.h>
#include <string.h>

uint8_t __real_vcube_grant(size_t wiring, size_t n, const uint8_t *table, size_t table_length, size_t last, size_t *station);
uint8_t __wrap_vcube_grant(size_t wiring, size_t n, const uint8_t *table, size_t table_length, size_t last, size_t *station);

uint8_t __wrap_vcube_grant(size_t wiring, size_t n, const uint8_t *table, size_t table_length, size_t last, size_t *station)
{
    const char *wrong = getenv("WRONG");
    const uint8_t number = __real_vcube_grant(wiring, n, table, table_length, last, station);
    volatile uint8_t *bytes = (volatile uint8_t *)(size_t)table;
    volatile uint8_t *place = (volatile uint8_t *)station;

    if (wrong == NULL || number != 0)
        return number;
    if (strcmp(wrong, "reads-behind") == 0)
        (void)bytes[table_length];
    if (strcmp(wrong, "reads-before") == 0)
        (void)bytes[-1];
    if (strcmp(wrong, "writes-back") == 0)
        bytes[table_length / 2] = bytes[table_length / 2];
    if (strcmp(wrong, "writes-behind") == 0)
        place[sizeof *station] = 0;
    if (strcmp(wrong, "writes-before") == 0)
        place[-1] = 0;
    if (strcmp(wrong, "reads-elsewhere") == 0)
        (void)*(volatile uint8_t *)(size_t)last;
    if (strcmp(wrong, "gives-another") == 0 && n > 4 && *station == 3)
        *station = 4;
    return number;
}
