/* pair.h - images of two chunks, at blocks 2 and 3, that open in both editions.
 *
 * Both begin as the store of small.h, whose chunk is the one at block 2.
 */
#ifndef PAIR_H
#define PAIR_H

#include "lent.h"

#define PAIR_LEN ((size_t)4 * 4096)

/* The first file header and the chunk at block 2, version 1, have the sums of edition 1; the second
 * header and the chunk at block 3, version 2, those of edition 2. The chunk at block 3 is a copy of
 * the other, id and all, but for map 1's value of 0: bd instead of bc. */
lent pair_apart(void);

/* The headers name chunk 2, at block 3, whose lines have even lengths, so that their sums are the
 * same in both editions. Its metadata has map 1, f, whose page is in chunk 1, at block 2: that one
 * stands in this edition only. */
lent pair_alike(uint64_t edition);

#endif
