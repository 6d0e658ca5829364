/* What both programs of the bench need of the C library, without its headers: reading, printing, and a
 * clock. */
#ifndef TIMING_H
#define TIMING_H

#include "baseline.h"

struct timespec { long tv_sec, tv_nsec; };
int clock_gettime(int clock, struct timespec *now);
long read(int file, void *into, size_t size);
int printf(const char *format, ...);
int dprintf(int file, const char *format, ...);

enum { MONOTONIC = 1 };

static double seconds(void)
{
    struct timespec now;
    clock_gettime(MONOTONIC, &now);
    return now.tv_sec + now.tv_nsec * 1e-9;
}

/* Fills `into` from standard input. Gives how many bytes came. */
static size_t read_full(uint8_t *into, size_t size)
{
    size_t done = 0;
    long got;
    while (done < size && (got = read(0, into + done, size - done)) > 0)
        done += got;
    return done;
}

#endif
