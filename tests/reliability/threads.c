/* Threads, each with a table of its own: their calls give what the same calls give one behind the other. With -DSHARED the threads have one table,
 * which the tool that watches them must notice. */
#include "vcube_plant.h"

#include <pthread.h>
#include <stdio.h>
#include <string.h>

#define THREADS 4
#ifndef SHARED
#define SHARED 0
#endif

struct work {
    size_t wiring, n;
    uint8_t memory[VCUBE_TABLE_LENGTH(64)], saved[VCUBE_SAVED_LENGTH(64)];
    struct vcube_plant plant;
    unsigned errors;
};

static void *do_work(void *it)
{
    struct work *const work = it;
    struct vcube_plant *const plant = &work->plant, loaded;
    uint8_t room[VCUBE_TABLE_LENGTH(64)], report[VCUBE_REPORT_LENGTH(64)], words[VCUBE_WORDS_LENGTH];
    size_t grants, by, of, changes;

    work->errors += vcube_plant_fresh(plant, work->wiring, work->n, work->memory, sizeof work->memory);
    for (size_t round = 0; round < 30; round++) {
        if (round == 3)
            work->errors += vcube_plant_enter(plant, VCUBE_KIND_CRASH, work->n - 1, NULL);
        work->errors += vcube_plant_drive(plant, &grants);
        work->errors += vcube_plant_doubt_lamp(plant, &by, &of);
        work->errors += vcube_plant_mend(plant, report, VCUBE_REPORT_LENGTH(plant->n), &changes);
        work->errors += vcube_refusal_words(round % 26, words, sizeof words);
        work->errors += vcube_plant_save(plant, work->saved, VCUBE_SAVED_LENGTH(plant->n));
        work->errors += vcube_plant_load(&loaded, work->wiring, room, sizeof room, work->saved, VCUBE_SAVED_LENGTH(plant->n));
    }
    return NULL;
}

int main(void)
{
    static struct work together[THREADS], alone[THREADS];
    pthread_t threads[THREADS];
    int wrong = 0;

    for (size_t k = 0; k < THREADS; k++) {
        together[k].wiring = alone[k].wiring = k % 2 ? VCUBE_WIRING_RING : VCUBE_WIRING_CUBE;
        together[k].n = alone[k].n = 8 + 3 * k;
        do_work(&alone[k]);
    }
    for (size_t k = 0; k < THREADS; k++)
        pthread_create(&threads[k], NULL, do_work, &together[SHARED ? 0 : k]);
    for (size_t k = 0; k < THREADS; k++)
        pthread_join(threads[k], NULL);
    for (size_t k = 0; k < THREADS; k++)
        wrong |= together[k].errors || alone[k].errors || memcmp(together[k].memory, alone[k].memory, sizeof alone[k].memory) != 0 ||
                 memcmp(together[k].saved, alone[k].saved, sizeof alone[k].saved) != 0;
    puts(wrong ? "threads: they do not give what one behind the other gives" : "threads: they give what one behind the other gives");
    return wrong;
}
