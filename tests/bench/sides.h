/* sides.h - the questions that are timed, each answered by the plain C reader of naive.h and by the
 * exports of mvstore.h, on a store whose map 1 has, for entry i, the key 3i less the number of
 * entries and a value of 24 bytes. */
#ifndef SIDES_H
#define SIDES_H

#include <stdint.h>

#include "mvstore.h"

/* A store, and the edition that it is asked in. */
struct store_asked {
    const uint8_t *image;
    uint64_t bytes, entries, edition;
    mvstore_walk walk; /* as far as our side has walked */
};

/* The one that is asked. */
extern struct store_asked *asked;

/* So many calls of a task, given by its number; a sum over the answers, which must be the other
 * side's. An answer that is wrong by itself ends the program. */
typedef uint64_t side(uint64_t task, uint64_t calls);

/* The newest chunk. */
side plain_open, our_open;
side plain_lookup, our_lookup;
side plain_index, our_index;
/* Tasks in turn; the plain reader has no walk and is asked for the same entries by index. */
side plain_walk, our_walk;
side plain_scan, our_examination;

void must(int holds, const char *what);

#endif
