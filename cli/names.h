/* names.h - the names of a file's maps, from its metadata. */
#ifndef NAMES_H
#define NAMES_H

#include <stddef.h>
#include <stdint.h>

#include "image.h"

typedef struct map_name {
    const uint8_t *at;
    size_t len;
} map_name;

/* A walk over the names; all zeros is its beginning. */
typedef struct names {
    mvstore_walk walk;
    uint32_t refusal; /* what ended it: 0 for the last name */
} names;

/* The next name, in the order of the metadata; gives 0 where there is none. */
int names_next(image file, names *n, map_name *name);

/* Calls `each` for every name; gives the exit status: 1 if `each` gave 1 or if the metadata is
 * refused, which is said on stderr. */
int names_each(image file, int (*each)(image file, map_name name));

#endif
