#include "answers.h"

#include <string.h>

answers answers_to(lent image, const question *q)
{
    const asked_map m = {q->map, q->kind};
    const mvstore_walk fresh = {0};
    answers a;
    ask_in(q->edition);
    a.newest = ask_newest(image);
    a.id = ask_map(image, q->name, q->name_len);
    a.value = ask_lookup(image, m, q->key, q->key_len);
    a.copied = ask_copy(image, m, q->key, q->key_len, q->room);
    a.entry = ask_index(image, m, q->index);
    a.count = ask_count(image, m);
    a.fresh = ask_next(image, m, fresh);
    a.step = ask_next(image, m, q->walk);
    a.report = ask_examine(image, m);
    return a;
}

static int chunks_same(const mvstore_chunk *a, const mvstore_chunk *b)
{
    return a->refusal == b->refusal && a->chunk == b->chunk && a->block == b->block
           && a->blocks == b->blocks && a->version == b->version;
}

static int values_same(const mvstore_value *a, const mvstore_value *b)
{
    return a->refusal == b->refusal && a->found == b->found && a->at == b->at && a->len == b->len;
}

static int entries_same(const mvstore_entry *a, const mvstore_entry *b)
{
    return a->refusal == b->refusal && a->number == b->number && a->key_at == b->key_at
           && a->key_len == b->key_len && a->at == b->at && a->len == b->len;
}

int steps_same(const mvstore_step *a, const mvstore_step *b)
{
    return a->refusal == b->refusal && a->done == b->done && a->number == b->number
           && a->key_at == b->key_at && a->key_len == b->key_len && a->at == b->at
           && a->len == b->len && memcmp(&a->walk, &b->walk, sizeof a->walk) == 0;
}

static int ids_same(const mvstore_id *a, const mvstore_id *b)
{
    return a->refusal == b->refusal && a->id == b->id;
}

static int counts_same(const mvstore_count_of *a, const mvstore_count_of *b)
{
    return a->refusal == b->refusal && a->count == b->count;
}

static int reports_same(const mvstore_report *a, const mvstore_report *b)
{
    return a->refusal == b->refusal && a->depth == b->depth && a->entries == b->entries
           && a->pages == b->pages;
}

int answers_same(const answers *a, const answers *b)
{
    return chunks_same(&a->newest, &b->newest) && ids_same(&a->id, &b->id)
           && values_same(&a->value, &b->value) && values_same(&a->copied, &b->copied)
           && entries_same(&a->entry, &b->entry) && counts_same(&a->count, &b->count)
           && steps_same(&a->fresh, &b->fresh) && steps_same(&a->step, &b->step)
           && reports_same(&a->report, &b->report);
}

static int lost(uint32_t a, uint32_t b)
{
    return a == MVSTORE_NOT_LOCATED || b == MVSTORE_NOT_LOCATED;
}

#define AGREE(kind, member) \
    (kind##_same(&a->member, &b->member) || lost(a->member.refusal, b->member.refusal))

int answers_agree(const answers *a, const answers *b)
{
    return chunks_same(&a->newest, &b->newest) && AGREE(ids, id) && AGREE(values, value)
           && AGREE(values, copied) && AGREE(entries, entry) && AGREE(counts, count)
           && AGREE(steps, fresh) && AGREE(steps, step) && AGREE(reports, report);
}
