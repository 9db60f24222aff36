/*
 * A device that takes a while: beside a program (LD_PRELOAD), each fsync and fdatasync of it takes SYNC_MICROS microseconds more.
 */
#define _GNU_SOURCE
#include <stdlib.h>
#include <sys/syscall.h>
#include <time.h>
#include <unistd.h>

static int delayed(long call, int file)
{
    const char *micros = getenv("SYNC_MICROS");
    long wait = micros == NULL ? 0 : atol(micros);
    struct timespec time = {.tv_sec = wait / 1000000, .tv_nsec = wait % 1000000 * 1000};
    int result = (int)syscall(call, file);
    nanosleep(&time, NULL);
    return result;
}

int fdatasync(int file)
{
    return delayed(SYS_fdatasync, file);
}

int fsync(int file)
{
    return delayed(SYS_fsync, file);
}
