/* command.h - the five questions. Each prints the answer and gives the exit status. */
#ifndef COMMAND_H
#define COMMAND_H

#include <stdint.h>

#include "image.h"
#include "word.h"

typedef struct asked {
    const char *word; /* MAP as it was given */
    uint64_t map;
    uint64_t kind;
} asked;

int command_info(image file);
int command_maps(image file);
int command_check_all(image file);
int command_check(image file, asked m);
int command_get(image file, asked m, const word_key *key);
int command_list(image file, asked m, int csv);

#endif
