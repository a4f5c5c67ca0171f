#include "sides.h"

#include <stdio.h>
#include <stdlib.h>

#include "naive.h"

enum { MAP = 1 };

struct store_asked *asked;
static uint64_t drawn;

void must(int holds, const char *what)
{
    if (!holds) {
        fprintf(stderr, "paired: %s\n", what);
        exit(1);
    }
}

static uint64_t some_entry(void)
{
    drawn = drawn * 6364136223846793005u + 1442695040888963407u;
    return (drawn >> 32) % asked->entries;
}

static int64_t key_of(uint64_t i)
{
    return 3 * (int64_t)i - (int64_t)asked->entries;
}

static mvstore_view view(void)
{
    return mvstore_view_of(asked->edition);
}

static void plain_opened(struct store *s)
{
    const struct rules rules = {.edition = (int)asked->edition, .fold = 1};
    must(!naive_open(s, asked->image, asked->bytes, rules), "plain open");
}

uint64_t plain_open(uint64_t task, uint64_t calls)
{
    uint64_t sum = task;
    for (; calls; calls--) {
        struct store s;
        plain_opened(&s);
        sum += s.newest.id + s.newest.block + s.newest.len + s.newest.version;
    }
    return sum;
}

uint64_t our_open(uint64_t task, uint64_t calls)
{
    uint64_t sum = task;
    for (; calls; calls--) {
        mvstore_chunk c = mvstore_newest(asked->image, asked->bytes, view());
        must(!c.refusal, "open");
        sum += c.chunk + c.block + c.blocks + c.version;
    }
    return sum;
}

static uint64_t plain_root(struct store *s)
{
    uint64_t root;
    plain_opened(s);
    must(!naive_root(s, MAP, &root), "plain root");
    return root;
}

uint64_t plain_lookup(uint64_t task, uint64_t calls)
{
    uint64_t sum = 0;
    for (drawn = task; calls; calls--) {
        struct store s;
        struct place v;
        uint64_t root = plain_root(&s);
        must(!naive_get(&s, MAP, root, key_of(some_entry()), &v) && v.found, "plain lookup");
        sum += v.at + v.len;
    }
    return sum;
}

uint64_t our_lookup(uint64_t task, uint64_t calls)
{
    uint64_t sum = 0;
    for (drawn = task; calls; calls--) {
        uint64_t key = (uint64_t)key_of(some_entry());
        uint8_t given[8];
        for (int i = 0; i < 8; i++)
            given[i] = (uint8_t)(key >> (56 - 8 * i));
        mvstore_value v = mvstore_lookup(asked->image, asked->bytes, view(), MAP, MVSTORE_NUMBER,
                                         given, sizeof given);
        must(!v.refusal && v.found, "lookup");
        sum += v.at + v.len;
    }
    return sum;
}

static uint64_t plain_entry(uint64_t i)
{
    struct store s;
    struct place v;
    int64_t key;
    uint64_t root = plain_root(&s);
    must(!naive_at(&s, MAP, root, i, &key, &v) && key == key_of(i), "plain index");
    return v.at + v.len;
}

uint64_t plain_index(uint64_t task, uint64_t calls)
{
    uint64_t sum = 0;
    for (drawn = task; calls; calls--)
        sum += plain_entry(some_entry());
    return sum;
}

uint64_t our_index(uint64_t task, uint64_t calls)
{
    uint64_t sum = 0;
    for (drawn = task; calls; calls--) {
        uint64_t i = some_entry();
        mvstore_entry e = mvstore_index(asked->image, asked->bytes, view(), MAP, MVSTORE_NUMBER, i);
        must(!e.refusal && e.number == key_of(i), "index");
        sum += e.at + e.len;
    }
    return sum;
}

uint64_t plain_walk(uint64_t task, uint64_t calls)
{
    uint64_t sum = 0;
    for (uint64_t i = 0; i < calls; i++)
        sum += plain_entry((task * calls + i) % asked->entries);
    return sum;
}

uint64_t our_walk(uint64_t task, uint64_t calls)
{
    uint64_t sum = 0;
    for (uint64_t i = 0; i < calls; i++) {
        uint64_t due = (task * calls + i) % asked->entries;
        if (due == 0)
            asked->walk = (mvstore_walk){0};
        mvstore_step e =
            mvstore_next(asked->image, asked->bytes, view(), MAP, MVSTORE_NUMBER, asked->walk);
        must(!e.refusal && !e.done && e.number == key_of(due), "walk");
        asked->walk = e.walk;
        sum += e.at + e.len;
    }
    return sum;
}

uint64_t plain_scan(uint64_t task, uint64_t calls)
{
    uint64_t entries = 0, sum = task;
    for (; calls; calls--) {
        struct store s;
        uint64_t root = plain_root(&s);
        must(!naive_scan(&s, MAP, root, 1, &entries, &sum), "plain scan");
    }
    return entries;
}

uint64_t our_examination(uint64_t task, uint64_t calls)
{
    uint64_t entries = 0;
    for (task = 0; task < calls; task++) {
        mvstore_report r = mvstore_examine(asked->image, asked->bytes, view(), MAP, MVSTORE_NUMBER);
        must(!r.refusal, "examination");
        entries += r.entries;
    }
    return entries;
}
