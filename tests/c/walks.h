/* walks.h - the walk and the examination. */
#ifndef WALKS_H
#define WALKS_H

#include "dump.h"
#include "lent.h"

/* Every map of a store, against what it truly holds. */
void walks_check(lent image, const dump *d);

/* States, arguments and damage, over the small store. */
void walks_check_small(lent image);

#endif
