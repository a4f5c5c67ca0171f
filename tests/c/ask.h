/* ask.h - the exports, asked with fenced arguments.
 *
 * Each claims what holds of every answer: a refusal is one that the call can
 * give and has zeros everywhere else, Absent too; places lie inside the image;
 * a copy writes the value and leaves every other byte of its area; an edition
 * that is none is refused with 1.
 */
#ifndef ASK_H
#define ASK_H

#include "lent.h"
#include "mvstore.h"

typedef struct asked_map {
    uint64_t id;
    uint64_t kind;
} asked_map;

/* The edition that is asked in from here on; at first it is 1. */
void ask_in(uint64_t edition);
mvstore_view ask_view(void);

mvstore_chunk ask_newest(lent image);
mvstore_id ask_map(lent image, const void *name, size_t len);
mvstore_value ask_lookup(lent image, asked_map m, const void *key, size_t len);
mvstore_value ask_copy(lent image, asked_map m, const void *key, size_t len, size_t room);
mvstore_entry ask_index(lent image, asked_map m, uint64_t index);
mvstore_count_of ask_count(lent image, asked_map m);
mvstore_step ask_next(lent image, asked_map m, mvstore_walk walk);
mvstore_report ask_examine(lent image, asked_map m);

/* Number keys. */
mvstore_value ask_number(lent image, asked_map m, int64_t number);

/* Claims that every call that takes a map refuses with this number. */
void ask_refused(lent image, asked_map m, uint32_t refusal);

/* Whether these are the bytes at a place that was answered. */
int at_place(lent image, uint64_t at, uint64_t len, const void *bytes, size_t due);

#endif
