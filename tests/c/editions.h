/* editions.h - what the edition decides. */
#ifndef EDITIONS_H
#define EDITIONS_H

#include "lent.h"

/* Every call at both ends of the edition, and images that open in both. */
void editions_check(void);

/* An image whose sums are of the edition that is asked in: the other one finds no header. */
void editions_check_other(lent image);

#endif
