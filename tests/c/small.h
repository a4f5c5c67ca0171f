/* small.h - the smallest image: 3 blocks, one chunk, with both ends of what a
 * page and an argument may be.
 *
 *   map     kind  name         holds
 *   1       0     f            INT64_MIN: nothing, -1: a, 0: bc, INT64_MAX: def
 *   2       1     1,000 x      "": a, " ": nothing, 1,024 ~: def
 *   3       0                  5: yes, by 01's rule for pages whose keys don't rise
 *   4       0                  1: a in a leaf, 2: b and 3: c in the next
 *   2^31-1        g            nothing: it has no root
 *   5 to 11, 14                refused with this number
 *
 * The names h and i have the ids 2^31 and 0. The names 5 to 9, `:` and `;` lead
 * to pages of the metadata that are refused with 5 to 11.
 */
#ifndef SMALL_H
#define SMALL_H

#include "lent.h"

#define SMALL_LEN ((size_t)3 * 4096)
#define SMALL_PAGES 256 /* where in the chunk the pages begin; the first is map 1's */

/* The metadata: the root's children, the last one's entries, and by the counts all of them. */
#define SMALL_CHILDREN 10
#define SMALL_NAMES 17
#define SMALL_COUNT (SMALL_CHILDREN - 1 + SMALL_NAMES)

/* With the sums of this edition. Sealed: a write to it faults. */
lent small_store(uint64_t edition);

/* A line with its sum of this edition, and a newline. */
void small_line(uint8_t *at, const char *text, uint64_t edition);

#endif
