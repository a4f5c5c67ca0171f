/* image.h - the file as it stands on disk, lent to the library, and the view to ask it with. */
#ifndef IMAGE_H
#define IMAGE_H

#include <stddef.h>
#include <stdint.h>

#include "mvstore.h"

typedef struct image {
    const uint8_t *at;
    size_t len;
    mvstore_view view; /* edition.h chooses it */
} image;

/* Maps the whole file, read only; says on stderr why it can't and gives 0. */
int image_open(const char *path, image *file);

#endif
