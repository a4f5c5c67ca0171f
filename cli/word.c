#include "word.h"

#include <errno.h>
#include <stdlib.h>
#include <string.h>

#include "mvstore.h"

int word_kind(const char *word, uint64_t *kind)
{
    if (strcmp(word, "number") == 0 || strcmp(word, "0") == 0)
        *kind = MVSTORE_NUMBER;
    else if (strcmp(word, "text") == 0 || strcmp(word, "1") == 0)
        *kind = MVSTORE_TEXT;
    else
        return 0;
    return 1;
}

const char *word_of_kind(uint64_t kind)
{
    return kind == MVSTORE_NUMBER ? "number" : "text";
}

/* strtoll and strtoull take spaces, a plus sign and more: only digits are left to them. */
static int all_digits(const char *word)
{
    return *word != '\0' && word[strspn(word, "0123456789")] == '\0';
}

int word_id(const char *word, uint64_t *id)
{
    if (word[0] != '#' || !all_digits(word + 1))
        return 0;
    errno = 0;
    *id = strtoull(word + 1, NULL, 10);
    return errno == 0;
}

static int to_number(const char *word, uint8_t number[8])
{
    if (!all_digits(word + (*word == '-')))
        return 0;
    errno = 0;
    uint64_t bits = (uint64_t)strtoll(word, NULL, 10);
    for (int i = 0; i < 8; i++)
        number[i] = (uint8_t)(bits >> (56 - 8 * i));
    return errno == 0;
}

int word_to_key(const char *word, uint64_t kind, word_key *key)
{
    if (kind == MVSTORE_NUMBER) {
        key->at = key->number;
        key->len = sizeof key->number;
        return to_number(word, key->number);
    }
    key->at = (const uint8_t *)word;
    key->len = strlen(word);
    return 1;
}
