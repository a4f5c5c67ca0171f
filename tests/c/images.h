/* images.h - what an image's length and its headers decide. */
#ifndef IMAGES_H
#define IMAGES_H

#include "dump.h"
#include "lent.h"

/* Over the small store. */
void images_check(lent image);

/* The chunk that a store of H2 opens at, against its own lines and the dumped metadata. */
void images_check_newest(lent image, const dump *d);

#endif
