/* progress.h - a line on stderr, for a person who waits. */
#ifndef PROGRESS_H
#define PROGRESS_H

#include <stdint.h>
#include <time.h>

typedef struct progress {
    int wanted; /* stderr is a terminal and stdout is none */
    int shown;
    struct timespec last;
} progress;

progress progress_start(void);

/* Says how many entries there were, if a second has passed since it last did. */
void progress_tell(progress *p, uint64_t entries);

/* Wipes the line. */
void progress_end(progress *p);

#endif
