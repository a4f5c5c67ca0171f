/* question.h - what an input of the fuzz target asks.
 *
 * The first QUESTION bytes of an input say it, the rest is the image. Shorter
 * inputs read as if zeros followed, and have no image.
 *
 *   at  bytes
 *    0  1      what is made right in the image before it is asked: MEND_...
 *    1  2      kind, as a byte and how far it is shifted to the left
 *    3  2      map id, likewise
 *    5  2      index, likewise
 *    7  2      length of the key, high byte first; more than KEYS is taken modulo
 *    9  2      length of the map name, likewise
 *   11  2      size of the copy area, high byte first
 *   13  1      the walk's depth
 *   14  1      the walk's last answer
 *   15  5      the walk's places 0 to 3, and 15
 *   20  21     the key's bytes, again and again
 *   41  21     the name's bytes, likewise
 *   62  2      edition, as a byte and how far it is shifted to the left
 */
#ifndef QUESTION_H
#define QUESTION_H

#include "mvstore.h"

#define QUESTION ((size_t)64)
#define KEYS 1100 /* above 1,024, the longest key */
#define WORD 21   /* bytes of a key or a name */

#define MEND_SUMS 1
#define MEND_PAGES 2
#define MEND_LINES 4

/* The places of what the seeds set. */
enum {
    at_mend = 0,
    at_kind = 1,
    at_map = 3,
    at_index = 5,
    at_key_len = 7,
    at_name_len = 9,
    at_room = 11,
    at_depth = 13,
    at_last = 14,
    at_places = 15,
    at_key = 20,
    at_name = 41,
    at_edition = 62
};

typedef struct question {
    unsigned mend;
    uint64_t edition, kind, map, index;
    size_t key_len, name_len, room;
    uint8_t key[KEYS], name[KEYS];
    mvstore_walk walk;
} question;

/* The question of an input. */
void question_read(const uint8_t *data, size_t size, question *q);

/* Whether the edition is one. */
int question_edition_good(const question *q);

/* Whether the key is well formed for the kind that is asked. */
int question_key_good(const question *q);

#endif
