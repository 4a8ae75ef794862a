/* Power is lost while a panel saves its plant: after every step of the code on docs/PANEL.md, which tests/reliability/run takes from the page.
 *
 * Usage: power FOLDER KILLS
 *
 * A step is a byte written to a file, or a call that opens, syncs or renames one; in flash a bit erased or written. The process that saves is killed
 * at that step; with files also KILLS times at any moment. The next start has to read the plant as it was before the save or as it is after it, and
 * then to save. */
#define _GNU_SOURCE
#include "vcube_plant.h"

#include <fcntl.h>
#include <limits.h>
#include <signal.h>
#include <stdbool.h>
#include <stdio.h>
#include <stdlib.h>
#include <string.h>
#include <sys/mman.h>
#include <sys/wait.h>
#include <unistd.h>

#define NAME "plant.saved"

static long left = LONG_MAX; /* steps until power is lost */

/* What is there after the process. Of the file beside: how many bytes, and how many for certain; whether the new name may be there, and is. */
static struct {
    uint8_t flash[2][VCUBE_SAVED_LENGTH(8) + 1];
    size_t written, synced;
    bool is_renamed, is_renamed_for_certain;
    int opened;
} *it;
#define flash it->flash

static void require(bool is_so, const char *otherwise, long at)
{
    if (is_so)
        return;
    fprintf(stderr, "power: %s, power lost after step %ld\n", otherwise, at);
    exit(1);
}

static void step(void)
{
    if (left-- == 0)
        raise(SIGKILL);
}

static void erase(int copy)
{
    for (size_t bit = 0; bit < 8 * sizeof flash[copy]; bit++) {
        step();
        flash[copy][bit / 8] |= (uint8_t)(1 << bit % 8);
    }
}

/* Writing flash only clears bits. */
static void program_byte(int copy, size_t at, uint8_t byte)
{
    for (int bit = 0; bit < 8; bit++) {
        step();
        flash[copy][at] &= (uint8_t)(byte | ~(1 << bit));
    }
}

static int stepping_open(int folder, const char *name, int flags, mode_t mode)
{
    step();
    it->written = it->synced = 0;
    it->is_renamed = it->is_renamed_for_certain = false;
    return it->opened = openat(folder, name, flags, mode);
}

static ssize_t stepping_write(int file, const uint8_t *bytes, size_t length)
{
    step();
    it->written++;
    return write(file, bytes, length > 0);
}

static int stepping_sync(int file)
{
    step();
    if (file == it->opened)
        it->synced = it->written;
    else
        it->is_renamed_for_certain = it->is_renamed;
    return 0;
}

static int stepping_rename(int from_folder, const char *from, int folder, const char *name)
{
    step();
    it->is_renamed = true;
    return renameat(from_folder, from, folder, name);
}

#define openat stepping_open
#define write stepping_write
#define fsync stepping_sync
#define renameat stepping_rename
#include "saving.h"
#undef openat

static int folder;
static uint8_t memory[2][VCUBE_TABLE_LENGTH(8)];
static struct vcube_plant plants[2]; /* before the save, and after it */
static uint8_t files[2][LENGTH];     /* both as they are saved */

/* The plant behind so many drives; from the third on board 4 has crashed. */
static void make(int which, int drives)
{
    size_t grants;

    vcube_plant_fresh(&plants[which], VCUBE_WIRING_CUBE, 8, memory[which], sizeof memory[which]);
    for (int k = 0; k < drives; k++) {
        if (k == 2)
            vcube_plant_enter(&plants[which], VCUBE_KIND_CRASH, 4, NULL);
        vcube_plant_drive(&plants[which], &grants);
    }
    require(vcube_plant_save(&plants[which], files[which], LENGTH) == VCUBE_ACCEPTED, "a plant is not saved", -1);
}

/* Which of the two plants the next start reads: 2 for neither. */
static int read_it(bool is_file)
{
    uint8_t bytes[2 * LENGTH], room[VCUBE_TABLE_LENGTH(8)];
    const int copy = is_file ? -1 : newer(), file = is_file ? openat(folder, NAME, O_RDONLY) : -1;
    const ssize_t length = file < 0 ? 0 : read(file, bytes, sizeof bytes);
    const uint8_t *const found = copy < 0 ? bytes : flash[copy];
    struct vcube_plant plant;

    close(file);
    if ((copy < 0 && length != LENGTH) || vcube_plant_load(&plant, VCUBE_WIRING_CUBE, room, sizeof room, found, LENGTH) != VCUBE_ACCEPTED)
        return 2;
    return memcmp(found, files[0], LENGTH) == 0 ? 0 : memcmp(found, files[1], LENGTH) == 0 ? 1 : 2;
}

static int save(bool is_file, int which)
{
    return is_file ? save_to_file(folder, NAME, NAME ".new", files[which], LENGTH) : save_to_flash(&plants[which]);
}

/* The old plant is saved; power is lost at a step of saving the new one. Gives what the next start reads, or 2 if the save came to its end. */
static int lose_power(bool is_file, long at)
{
    int status, found;
    bool is_lost;
    pid_t child;

    require(save(is_file, 0) == 0 && read_it(is_file) == 0, "the old plant is not there", at);
    child = fork();
    if (child == 0) {
        left = at;
        _exit(save(is_file, 1) != 0);
    }
    waitpid(child, &status, 0);
    is_lost = WIFSIGNALED(status);
    require(is_lost || status == 0, "the new plant is not saved", at);
    require(is_lost || !is_file || it->is_renamed_for_certain, "it is saved, but after a power failure the old one may be there", at);
    require(!is_file || !it->is_renamed || it->synced == LENGTH, "the new name may be on the disk before the bytes", at);
    found = read_it(is_file);
    require(found < 2, "the next start reads neither the old plant nor the new one", at);
    require(is_lost || found == 1, "the next start does not read what was saved", at);
    require(save(is_file, 1) == 0 && read_it(is_file) == 1, "the next start cannot save", at);
    return is_lost ? found : 2;
}

static void lose_at_each_step(const char *what, bool is_file)
{
    int read[3] = {0, 0, 0};

    for (int drives = 0; drives < 4; drives++) {
        make(0, drives);
        make(1, drives + 1);
        for (long at = 0, found = 0; found != 2; at++)
            read[found = lose_power(is_file, at)]++;
    }
    printf("power: %s, at each step of %d saves: the old plant is read %d times, the new one %d times\n", what, read[2], read[0], read[1]);
    require(read[0] > 4 * (int)LENGTH, "there are too few steps", -1);
}

/* A process that saves old and new plant in turn is killed at some moment. */
static void kill_at_any_moment(int kills)
{
    int read[3] = {0, 0, 0};

    for (int k = 0; k < kills; k++) {
        const pid_t child = fork();

        for (int which = 0; child == 0; which = !which)
            if (save(true, which) != 0)
                _exit(2);
        usleep((useconds_t)(1000 + k * 7919 % 5000));
        kill(child, SIGKILL);
        waitpid(child, NULL, 0);
        read[read_it(true)]++;
    }
    printf("power: a process that saves is killed %d times: the one plant is read %d times, the other %d times\n", kills, read[0], read[1]);
    require(read[2] == 0, "a process that was killed left neither plant", -1);
}

int main(int count, char **words)
{
    it = mmap(NULL, sizeof *it, PROT_READ | PROT_WRITE, MAP_SHARED | MAP_ANONYMOUS, -1, 0);
    if (count != 3 || (folder = open(words[1], O_RDONLY | O_DIRECTORY)) < 0 || it == MAP_FAILED) {
        fputs("Usage: power FOLDER KILLS\n", stderr);
        return 2;
    }
    setvbuf(stdout, NULL, _IOLBF, 0);
    lose_at_each_step("in flash", false);
    lose_at_each_step("in a file", true);
    kill_at_any_moment(atoi(words[2]));
    return 0;
}
