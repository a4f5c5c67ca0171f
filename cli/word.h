/* word.h - the words of a command line: KIND, KEY and #ID. Each gives 0 for a word that is none. */
#ifndef WORD_H
#define WORD_H

#include <stddef.h>
#include <stdint.h>

/* number or 0, text or 1. */
int word_kind(const char *word, uint64_t *kind);

/* The kind's name. */
const char *word_of_kind(uint64_t kind);

/* '#' and a decimal number. */
int word_id(const char *word, uint64_t *id);

/* A key as the library takes it: text is the word itself, a number is 8 bytes. */
typedef struct word_key {
    const uint8_t *at;
    size_t len;
    uint8_t number[8];
} word_key;

int word_to_key(const char *word, uint64_t kind, word_key *key);

#endif
