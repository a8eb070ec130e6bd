/* speed: the milliseconds of some work on a volume of 200 MB, one line for each job. */
#define _POSIX_C_SOURCE 199309L
#include "unixvol.h"

#include <stdio.h>
#include <stdlib.h>
#include <time.h>

enum { BLOCKS = 400000, LIST_BLOCKS = 2000, FILES = 5000, STATS = 10000 };

/* Returns the milliseconds since some fixed time. */
static double now(void)
{
    struct timespec time;
    clock_gettime(CLOCK_MONOTONIC, &time);
    return (double)time.tv_sec * 1e3 + (double)time.tv_nsec / 1e6;
}

/* Prints how long a job took since `begin`, and returns the time at which the next begins; ends the program if the job
 * was refused. */
static double row(const char *job, double begin, int32_t number)
{
    double taken = now() - begin;
    if (number != UNIXVOL_DONE) {
        fprintf(stderr, "speed: %s: %d\n", job, (int)number);
        exit(1);
    }
    printf("%-40s %9.1f\n", job, taken);
    return now();
}

/* Makes the path of a file from its number. */
static size_t path_of(int n, char path[16])
{
    return (size_t)snprintf(path, 16, "/f%d", n % FILES);
}

/* Makes the files, until one is refused. */
static int32_t make_files(unixvol *volume)
{
    int32_t number = UNIXVOL_DONE;
    char path[16];
    uint16_t inode;
    for (int n = 0; n < FILES && number == UNIXVOL_DONE; n++)
        number = unixvol_create(volume, 0, 0, 1, path, path_of(n, path), 0644, &inode);
    return number;
}

/* Reads the attributes of the files, until one is refused. */
static int32_t stat_files(unixvol *volume)
{
    int32_t number = UNIXVOL_DONE;
    char path[16];
    unixvol_node node;
    for (int n = 0; n < STATS && number == UNIXVOL_DONE; n++)
        number = unixvol_stat(volume, 0, 0, path, path_of(n, path), &node);
    return number;
}

int main(void)
{
    unixvol volume = UNIXVOL_CLOSED;
    size_t count = (size_t)BLOCKS * 512;
    uint8_t *bytes = malloc(count);
    if (!bytes)
        return 1;
    double begin = now();
    int32_t number = unixvol_mkfs(&volume, 7, BLOCKS, LIST_BLOCKS, 0, 0, 1);
    begin = row("mkfs of 204,800,000 bytes", begin, number);
    number = unixvol_image(&volume, bytes, count);
    begin = row("image copied out", begin, number);
    number = unixvol_judge(7, bytes, count);
    begin = row("judge", begin, number);
    number = unixvol_open(&volume, 7, bytes, count);
    begin = row("open", begin, number);
    number = make_files(&volume);
    begin = row("5,000 creates", begin, number);
    number = stat_files(&volume);
    row("10,000 stats, among 5,000 names", begin, number);
    unixvol_close(&volume);
    free(bytes);
    return 0;
}
