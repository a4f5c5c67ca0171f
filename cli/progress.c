#define _POSIX_C_SOURCE 200809L
#include "progress.h"

#include <inttypes.h>
#include <stdio.h>
#include <unistd.h>

progress progress_start(void)
{
    progress p = {isatty(STDERR_FILENO) && !isatty(STDOUT_FILENO), 0, {0, 0}};
    clock_gettime(CLOCK_MONOTONIC, &p.last);
    return p;
}

static double seconds(struct timespec from, struct timespec to)
{
    return (double)(to.tv_sec - from.tv_sec) + (double)(to.tv_nsec - from.tv_nsec) / 1e9;
}

void progress_tell(progress *p, uint64_t entries)
{
    struct timespec now;
    if (!p->wanted || clock_gettime(CLOCK_MONOTONIC, &now) != 0 || seconds(p->last, now) < 1)
        return;
    fprintf(stderr, "\rmvstore: %" PRIu64 " entries", entries);
    p->last = now;
    p->shown = 1;
}

void progress_end(progress *p)
{
    if (p->shown)
        fputs("\r\033[K", stderr);
}
