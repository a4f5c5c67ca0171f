/* stack.c - how much stack each export takes.
 *
 *   stack LIMIT IMAGE...
 *
 * An export answers all questions in a thread that is made with 128 KiB of
 * stack, which is painted before: questions about seven maps of each image, as
 * either kind, and about every map of the small store, in each edition that the
 * image opens in. The use is how far below
 * the thread's first frame the paint is gone; `nothing` shows what of it is the
 * thread's own. The exit status is 1 if a use is not below LIMIT bytes. What
 * takes more than the thread has faults.
 */
#define _GNU_SOURCE
#include <pthread.h>
#include <stdio.h>
#include <stdlib.h>
#include <string.h>

#include "lent.h"
#include "mvstore.h"
#include "number.h"
#include "small.h"

#define ROOM ((size_t)131072)
#define PAINT 0xa5
#define ENTRIES 8 /* of a map that are asked for, at most */
#define STEPS 64  /* of the walk of a map, at most */

typedef struct question {
    lent image;
    mvstore_view view;
    uint64_t map;
    uint64_t kind;
    uint64_t index;
    uint8_t key[1024];
    size_t len;
    int first; /* about this map: those that ask for no entry are asked once */
} question;

typedef struct list {
    question *questions;
    size_t count;
} list;

static volatile uint64_t sink; /* so that no call is left out */

static void ask_nothing(const question *q)
{
    sink = q->map;
}

static void ask_newest(const question *q)
{
    if (q->first)
        sink = mvstore_newest(q->image.bytes, q->image.len, q->view).version;
}

static void ask_lookup(const question *q)
{
    sink = mvstore_lookup(q->image.bytes, q->image.len, q->view, q->map, q->kind, q->key,
                          q->len).at;
}

static void ask_copy(const question *q)
{
    static uint8_t area[65535];
    sink = mvstore_copy(q->image.bytes, q->image.len, q->view, q->map, q->kind, q->key, q->len,
                        area, sizeof area).at;
}

static void ask_index(const question *q)
{
    sink = mvstore_index(q->image.bytes, q->image.len, q->view, q->map, q->kind, q->index).at;
}

static void ask_count(const question *q)
{
    if (q->first)
        sink = mvstore_count(q->image.bytes, q->image.len, q->view, q->map, q->kind).count;
}

static void ask_next(const question *q)
{
    mvstore_walk walk = {0};
    for (int i = 0; q->first && i < STEPS && walk.last == 0; i++)
        walk = mvstore_next(q->image.bytes, q->image.len, q->view, q->map, q->kind, walk).walk;
    sink = walk.depth;
}

static void ask_examine(const question *q)
{
    if (q->first)
        sink = mvstore_examine(q->image.bytes, q->image.len, q->view, q->map, q->kind).entries;
}

/* A name of the stores and of the family, one of the small store, and one as long as may be. */
static void ask_map(const question *q)
{
    static uint8_t longest[1000];
    if (!q->first)
        return;
    memset(longest, 'x', sizeof longest);
    sink = mvstore_map(q->image.bytes, q->image.len, q->view, (const uint8_t *)"forces", 6).id;
    sink = mvstore_map(q->image.bytes, q->image.len, q->view, (const uint8_t *)"6", 1).id;
    sink = mvstore_map(q->image.bytes, q->image.len, q->view, longest, sizeof longest).id;
}

static void add(list *l, question q)
{
    l->questions = realloc(l->questions, (l->count + 1) * sizeof q);
    if (l->questions == NULL)
        abort();
    l->questions[l->count++] = q;
}

/* Entries from the first to the last, and a key as long as may be. */
static void add_map(list *l, lent image, mvstore_view view, uint64_t map, uint64_t kind)
{
    question q = {.image = image, .view = view, .map = map, .kind = kind, .first = 1};
    uint64_t count = mvstore_count(image.bytes, image.len, view, map, kind).count;
    uint64_t step = count / ENTRIES + 1;
    memset(q.key, '~', sizeof q.key);
    q.len = kind == MVSTORE_NUMBER ? 8 : sizeof q.key;
    add(l, q);
    q.first = 0;
    for (q.index = 0; q.index < count; q.index += step) {
        mvstore_entry e = mvstore_index(image.bytes, image.len, view, map, kind, q.index);
        number_key(e.number, q.key);
        if (kind == MVSTORE_TEXT) {
            q.len = (size_t)e.key_len;
            memcpy(q.key, image.bytes + e.key_at, q.len);
        }
        add(l, q);
    }
}

/* The maps with these ids, as both kinds; the metadata as text, and a chunk looked up in it. */
static void add_maps(list *l, lent image, mvstore_view view, uint64_t last)
{
    for (uint64_t map = 0; map <= last; map++)
        for (uint64_t kind = map == 0; kind <= 1; kind++)
            add_map(l, image, view, map, kind);
    add(l, (question){image, view, 0, MVSTORE_TEXT, 0, "chunk.2", 7, 0});
}

/* One that opens in neither edition is asked in edition 1. */
static void add_image(list *l, lent image, uint64_t last)
{
    const mvstore_view first = {MVSTORE_EDITION_1}, second = {MVSTORE_EDITION_2};
    int opens = mvstore_newest(image.bytes, image.len, second).refusal == 0;
    if (!opens || mvstore_newest(image.bytes, image.len, first).refusal == 0)
        add_maps(l, image, first, last);
    if (opens)
        add_maps(l, image, second, last);
}

typedef struct run {
    void (*ask)(const question *q);
    const list *asked;
    const uint8_t *top;
} run;

static void *answer_all(void *given)
{
    run *r = given;
    r->top = __builtin_frame_address(0);
    for (size_t i = 0; i < r->asked->count; i++)
        r->ask(&r->asked->questions[i]);
    return NULL;
}

/* The bytes of stack between the thread's first frame and the lowest that was written. */
static size_t use_of(run *r)
{
    lent stack = lent_zeros(ROOM);
    pthread_attr_t attributes;
    pthread_t thread;
    size_t low = 0;
    memset(stack.bytes, PAINT, ROOM);
    if (pthread_attr_init(&attributes) != 0
        || pthread_attr_setstack(&attributes, stack.bytes, ROOM) != 0
        || pthread_create(&thread, &attributes, answer_all, r) != 0
        || pthread_join(thread, NULL) != 0)
        abort();
    while (stack.bytes[low] == PAINT)
        low++;
    size_t use = (size_t)(r->top - (stack.bytes + low));
    pthread_attr_destroy(&attributes);
    lent_free(&stack);
    return use;
}

static int report(const list *l, size_t limit)
{
    const struct {
        const char *name;
        void (*ask)(const question *q);
    } exports[] = {
        {"nothing", ask_nothing}, {"newest", ask_newest}, {"lookup", ask_lookup},
        {"copy", ask_copy},       {"index", ask_index},   {"count", ask_count},
        {"map", ask_map},         {"next", ask_next},     {"examine", ask_examine},
    };
    int above = 0;
    printf("%zu questions", l->count);
    for (size_t i = 0; i < sizeof exports / sizeof *exports; i++) {
        run r = {exports[i].ask, l, NULL};
        size_t use = use_of(&r);
        printf(", %s %zu", exports[i].name, use);
        above |= use >= limit;
    }
    printf(" bytes\n");
    return above;
}

int main(int argc, char **argv)
{
    list l = {NULL, 0};
    if (argc < 2)
        return fprintf(stderr, "usage: stack LIMIT IMAGE...\n"), 2;
    add_image(&l, small_store(MVSTORE_EDITION_1), 14);
    add_image(&l, small_store(MVSTORE_EDITION_2), 14);
    for (int i = 2; i < argc; i++)
        add_image(&l, lent_file(argv[i]), 6);
    int above = report(&l, (size_t)strtoull(argv[1], NULL, 10));
    free(l.questions);
    return above;
}
