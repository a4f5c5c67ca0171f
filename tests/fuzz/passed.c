#include <string.h>

#include "check.h"
#include "claims.h"
#include "number.h"

typedef struct key {
    const uint8_t *at;
    size_t len;
    uint8_t number[8];
} key;

/* An entry's key as it is asked for. */
static void key_of(lent image, asked_map m, const mvstore_entry *e, key *k)
{
    number_key(e->number, k->number);
    k->at = m.kind == MVSTORE_NUMBER ? k->number : image.bytes + e->key_at;
    k->len = m.kind == MVSTORE_NUMBER ? sizeof k->number : (size_t)e->key_len;
}

/* Number keys as signed numbers, texts by byte, a beginning before its extension. */
static int rises(asked_map m, const mvstore_entry *a, const mvstore_entry *b, lent image)
{
    if (m.kind == MVSTORE_NUMBER)
        return a->number < b->number;
    size_t shorter = (size_t)(a->key_len < b->key_len ? a->key_len : b->key_len);
    int order = memcmp(image.bytes + a->key_at, image.bytes + b->key_at, shorter);
    return order < 0 || (order == 0 && a->key_len < b->key_len);
}

/* The entry of an index, found by its key too. */
static mvstore_entry claim_entry(lent image, asked_map m, uint64_t index)
{
    key k;
    mvstore_entry e = ask_index(image, m, index);
    CHECK(e.refusal == 0);
    key_of(image, m, &e, &k);
    mvstore_value v = ask_lookup(image, m, k.at, k.len);
    CHECK(v.refusal == 0 && v.found == 1 && v.at == e.at && v.len == e.len);
    return e;
}

static void claim_step(const mvstore_step *s, const mvstore_entry *e)
{
    CHECK(s->refusal == 0 && s->done == 0 && s->number == e->number && s->key_at == e->key_at);
    CHECK(s->key_len == e->key_len && s->at == e->at && s->len == e->len);
}

static int has_key(lent image, asked_map m, const mvstore_entry *e, const question *q)
{
    key k;
    key_of(image, m, e, &k);
    return k.len == q->key_len && memcmp(k.at, q->key, k.len) == 0;
}

/* From the fresh state: the entries of all indexes in turn, then Done, again and again. */
static void claim_walk(lent image, asked_map m, const question *q, const answers *a)
{
    mvstore_step s = a->fresh;
    mvstore_entry e, before = {0};
    uint32_t met = 0;
    uint64_t i = 0;
    for (; i < a->report.entries && i < STEPS; i++) {
        e = claim_entry(image, m, i);
        claim_step(&s, &e);
        CHECK(i == 0 || rises(m, &before, &e, image));
        met |= (uint32_t)has_key(image, m, &e, q);
        before = e;
        s = ask_next(image, m, s.walk);
    }
    if (i < a->report.entries)
        return;
    CHECK(s.done == 1 && ask_next(image, m, s.walk).done == 1);
    CHECK(a->value.found == met);
}

void claims_passed(lent image, const question *q, const answers *a)
{
    const asked_map m = {q->map, q->kind};
    const uint64_t entries = a->report.entries;
    CHECK(a->count.refusal == 0 && a->count.count == entries);
    CHECK((entries == 0) == (a->fresh.done == 1));
    CHECK(a->value.refusal == 0 || !question_key_good(q));
    CHECK(a->entry.refusal == (q->index < entries ? 0 : MVSTORE_BAD_INDEX));
    CHECK(ask_index(image, m, entries).refusal == MVSTORE_BAD_INDEX);
    if (entries != 0) {
        claim_entry(image, m, entries - 1);
        claim_entry(image, m, q->index % entries);
    }
    claim_walk(image, m, q, a);
}
