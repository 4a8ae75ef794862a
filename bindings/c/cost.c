/* One function twice, by vcube_plant.h and, with PLAIN, by vcube.h alone. The test counts the instructions that the compiler makes of each. */

#include "vcube_plant.h"

size_t drive_and_look(struct vcube_plant *plant, size_t station, size_t k);

size_t drive_and_look(struct vcube_plant *plant, size_t station, size_t k)
{
    size_t grants;

#ifdef PLAIN
    if (vcube_drive(plant->wiring, plant->n, plant->table, plant->table_length, &plant->rounds, &plant->tests, &plant->last, &grants) != 0)
        return 0;
    return plant->table[station * (plant->n + 6) + 6 + k] ? grants : 0;
#else
    if (vcube_plant_drive(plant, &grants) != VCUBE_ACCEPTED)
        return 0;
    return vcube_plant_suspects(plant, station, k) ? grants : 0;
#endif
}
