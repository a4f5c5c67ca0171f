/* answers.h - every export asked the question of an input. */
#ifndef ANSWERS_H
#define ANSWERS_H

#include "ask.h"
#include "question.h"

typedef struct answers {
    mvstore_chunk newest;
    mvstore_id id;
    mvstore_value value, copied;
    mvstore_entry entry;
    mvstore_count_of count;
    mvstore_step fresh, step; /* from the fresh state, and from the question's */
    mvstore_report report;
} answers;

/* Each by its function of ask.h, which claims what holds of the answer by itself; what is asked
 * after it is asked in the question's edition too. */
answers answers_to(lent image, const question *q);

int answers_same(const answers *a, const answers *b);

/* Each is the same, or one of the two could not locate a chunk. */
int answers_agree(const answers *a, const answers *b);

int steps_same(const mvstore_step *a, const mvstore_step *b);

#endif
