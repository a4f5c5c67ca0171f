#include "contents.h"

#include <stdlib.h>
#include <string.h>

#include "ask.h"
#include "check.h"

static int same_key(const mvstore_entry *e, lent image, uint64_t kind, bytes key)
{
    uint64_t number = 0;
    if (kind == MVSTORE_TEXT)
        return at_place(image, e->key_at, e->key_len, key.at, key.len);
    for (size_t i = 0; i < key.len; i++)
        number = number << 8 | key.at[i];
    return (uint64_t)e->number == number;
}

int contents_same(lent image, uint64_t kind, const mvstore_entry *e, const dumped_entry *due)
{
    return e->refusal == 0 && same_key(e, image, kind, due->key)
           && at_place(image, e->at, e->len, due->value.at, due->value.len);
}

/* By its index, by its key, and copied into areas around its length. */
static void check_entry(lent image, asked_map m, size_t index, const dumped_entry *due)
{
    const bytes key = due->key, value = due->value;
    mvstore_entry e = ask_index(image, m, index);
    CHECK(contents_same(image, m.kind, &e, due));

    mvstore_value v = ask_lookup(image, m, key.at, key.len);
    CHECK(v.refusal == 0 && v.found == 1 && v.at == e.at && v.len == e.len);

    for (size_t room = value.len; room <= value.len + 1; room++) {
        mvstore_value c = ask_copy(image, m, key.at, key.len, room);
        CHECK(c.refusal == 0 && c.found == 1 && c.at == v.at && c.len == v.len);
    }
    if (value.len != 0) {
        CHECK(ask_copy(image, m, key.at, key.len, value.len - 1).refusal == MVSTORE_AREA_TOO_SMALL);
        CHECK(ask_copy(image, m, key.at, key.len, 0).refusal == MVSTORE_AREA_TOO_SMALL);
    }
}

static int has(const dumped_map *m, const uint8_t *key, size_t len)
{
    for (size_t i = 0; i < m->count; i++)
        if (m->entries[i].key.len == len && memcmp(m->entries[i].key.at, key, len) == 0)
            return 1;
    return 0;
}

/* The key, its last byte changed, where that is a key that the map lacks. */
static void check_beside(lent image, const dumped_map *due, asked_map m, bytes key, int change)
{
    uint8_t other[1024];
    memcpy(other, key.at, key.len);
    other[key.len - 1] = (uint8_t)(other[key.len - 1] + change);
    uint8_t last = other[key.len - 1];
    if (has(due, other, key.len) || (m.kind == MVSTORE_TEXT && (last < 32 || last > 126)))
        return;
    mvstore_value v = ask_lookup(image, m, other, key.len);
    CHECK(v.refusal == 0 && v.found == 0);
    v = ask_copy(image, m, other, key.len, 9);
    CHECK(v.refusal == 0 && v.found == 0);
}

static void check_map(lent image, const dumped_map *due)
{
    const asked_map m = {due->id, due->kind};
    if (m.id != 0) {
        mvstore_id id = ask_map(image, due->name.at, due->name.len);
        CHECK(id.refusal == 0 && id.id == m.id);
    }
    mvstore_count_of c = ask_count(image, m);
    CHECK(c.refusal == 0 && c.count == due->count);
    for (size_t i = 0; i < due->count; i++) {
        bytes key = due->entries[i].key;
        check_entry(image, m, i, &due->entries[i]);
        if (key.len != 0) {
            check_beside(image, due, m, key, 1);
            check_beside(image, due, m, key, -1);
        }
    }
    CHECK(ask_index(image, m, due->count).refusal == MVSTORE_BAD_INDEX);
    CHECK(ask_index(image, m, (uint64_t)due->count + 1).refusal == MVSTORE_BAD_INDEX);
    CHECK(ask_index(image, m, UINT64_MAX).refusal == MVSTORE_BAD_INDEX);
}

void contents_check(lent image, const dump *d)
{
    CHECK(d->count != 0);
    for (size_t i = 0; i < d->count; i++)
        check_map(image, &d->maps[i]);
}
