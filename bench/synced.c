/*
 * What it costs to keep bytes on a disk, with nothing else done.
 *
 *   synced FILE GROUP GROUPS     GROUP records of 128 bytes by one write, and a sync behind it, GROUPS times, over zeros that were
 *                                laid out and synced before. Prints what one record took.
 */
#define _POSIX_C_SOURCE 200809L
#include <fcntl.h>
#include <stdio.h>
#include <stdlib.h>
#include <string.h>
#include <time.h>
#include <unistd.h>

enum { RECORD = 128, MOST_GROUP = 4096 };

static char piece[RECORD * MOST_GROUP];

static double now(void)
{
    struct timespec time;
    clock_gettime(CLOCK_MONOTONIC, &time);
    return time.tv_sec * 1e9 + time.tv_nsec;
}

/* Writes so many groups, each by one write, and syncs behind each where that is asked. */
static int fill(int file, size_t group, long groups, int syncs)
{
    for (long i = 0; i < groups; i++) {
        off_t place = (off_t)i * (off_t)(RECORD * group);
        if (pwrite(file, piece, RECORD * group, place) != (ssize_t)(RECORD * group) || (syncs && fdatasync(file)))
            return -1;
    }
    return fsync(file);
}

int main(int count, char **words)
{
    long group = count == 4 ? atol(words[2]) : 0, groups = count == 4 ? atol(words[3]) : 0;
    if (group < 1 || group > MOST_GROUP || groups < 1) {
        fprintf(stderr, "synced FILE GROUP GROUPS\n");
        return 2;
    }
    int file = open(words[1], O_RDWR | O_CREAT | O_EXCL, 0600);
    if (file < 0 || fill(file, (size_t)group, groups, 0)) {
        perror(words[1]);
        return 1;
    }
    memset(piece, '0', sizeof piece);
    double begun = now();
    if (fill(file, (size_t)group, groups, 1)) {
        perror(words[1]);
        return 1;
    }
    double each = (now() - begun) / ((double)group * (double)groups);
    printf("plain group=%ld nanoseconds=%.0f orders_per_second=%.0f\n", group, each, 1e9 / each);
    return 0;
}
