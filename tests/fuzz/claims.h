/* claims.h - what must hold between the answers to one question. */
#ifndef CLAIMS_H
#define CLAIMS_H

#include "answers.h"

#define STEPS 24 /* of a walk: in a damaged image it may go on for very long */

/* Where the other edition opens the image at the same chunk: it is asked too, and agrees. */
void claims_other_edition(lent image, const question *q, const answers *a);

/* On any image: arguments, then opening, then the map; copy beside lookup; a
 * name and a root as the metadata's lookup gives them; a walk to its end. */
void claims_any(lent image, const question *q, const answers *a);

/* Where the examination passed: lookup, index, count and walk agree. */
void claims_passed(lent image, const question *q, const answers *a);

#endif
