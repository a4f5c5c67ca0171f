#include "question.h"

#include <string.h>

static uint64_t shifted(const uint8_t *at)
{
    return (uint64_t)at[0] << at[1] % 64;
}

static size_t pair(const uint8_t *at)
{
    return (size_t)at[0] << 8 | at[1];
}

static void repeat(uint8_t to[KEYS], size_t len, const uint8_t *word)
{
    for (size_t i = 0; i < len; i++)
        to[i] = word[i % WORD];
}

static mvstore_walk walk_of(const uint8_t *head)
{
    mvstore_walk w = {.depth = head[at_depth], .last = head[at_last]};
    for (size_t i = 0; i < 4; i++)
        w.places[i] = head[at_places + i];
    w.places[15] = head[at_places + 4];
    return w;
}

void question_read(const uint8_t *data, size_t size, question *q)
{
    uint8_t head[QUESTION] = {0};
    if (size != 0)
        memcpy(head, data, size < QUESTION ? size : QUESTION);
    q->mend = head[at_mend];
    q->edition = shifted(head + at_edition);
    q->kind = shifted(head + at_kind);
    q->map = shifted(head + at_map);
    q->index = shifted(head + at_index);
    q->key_len = pair(head + at_key_len) % (KEYS + 1);
    q->name_len = pair(head + at_name_len) % (KEYS + 1);
    q->room = pair(head + at_room);
    repeat(q->key, q->key_len, head + at_key);
    repeat(q->name, q->name_len, head + at_name);
    q->walk = walk_of(head);
}

int question_edition_good(const question *q)
{
    return q->edition == MVSTORE_EDITION_1 || q->edition == MVSTORE_EDITION_2;
}

int question_key_good(const question *q)
{
    if (q->kind == MVSTORE_NUMBER)
        return q->key_len == 8;
    for (size_t i = 0; i < q->key_len; i++)
        if (q->key[i] < 32 || q->key[i] > 126)
            return 0;
    return q->key_len <= 1024;
}
