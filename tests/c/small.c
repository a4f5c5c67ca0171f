#include "small.h"

#include <inttypes.h>
#include <stdio.h>
#include <string.h>

#include "check_value.h"
#include "fields.h"
#include "fletcher.h"

#define BLOCK 4096
#define CHUNK ((size_t)2 * BLOCK) /* where the chunk begins */

void small_line(uint8_t *at, const char *text, uint64_t edition)
{
    char line[256];
    int len = snprintf(line, sizeof line, "%s,fletcher:%" PRIx32 "\n", text,
                       fletcher((const uint8_t *)text, strlen(text), edition));
    memcpy(at, line, (size_t)len);
}

/* Chunk id, offset, code 31 (no bound), type. */
static int64_t position(uint64_t chunk, const uint8_t *image, const uint8_t *start, int type)
{
    uint64_t offset = start != NULL ? (uint64_t)(start - image) - CHUNK : 0;
    return (int64_t)(chunk << 38 | offset << 6 | 31 << 1 | (unsigned)type);
}

/* Length and check value, then where the next page begins. */
static uint8_t *page_end(page *p, const uint8_t *image)
{
    uint32_t len = (uint32_t)(p->at - p->start);
    uint16_t check = check_value(1, (uint32_t)(p->start - image - (ptrdiff_t)CHUNK), len);
    uint8_t head[6] = {0, 0, (uint8_t)(len >> 8), (uint8_t)len,
                       (uint8_t)(check >> 8), (uint8_t)check};
    memcpy(p->start, head, sizeof head);
    return p->at;
}

static uint8_t *put_numbers(uint8_t *at, const uint8_t *image, uint32_t map)
{
    page p = page_begin(at, map, 4, 0);
    put_number(&p, INT64_MIN);
    put_number(&p, -1);
    put_number(&p, 0);
    put_number(&p, INT64_MAX);
    put_text(&p, "");
    put_text(&p, "a");
    put_text(&p, "bc");
    put_text(&p, "def");
    return page_end(&p, image);
}

static uint8_t *put_texts(uint8_t *at, const uint8_t *image)
{
    char longest[1025];
    memset(longest, '~', 1024);
    longest[1024] = '\0';
    page p = page_begin(at, 2, 3, 0);
    put_text(&p, "");
    put_text(&p, " ");
    put_text(&p, longest);
    put_text(&p, "a");
    put_text(&p, "");
    put_text(&p, "def");
    return page_end(&p, image);
}

/* An inner page of map 11 whose two children are itself. */
static uint8_t *put_endless(uint8_t *at, const uint8_t *image)
{
    page p = page_begin(at, 11, 1, 1);
    put_number(&p, position(1, image, at, 1));
    put_number(&p, position(1, image, at, 1));
    put_var(&p, 1);
    put_var(&p, 1);
    put_text(&p, "m");
    return page_end(&p, image);
}

/* A leaf of map 3 whose keys don't rise: two are equal, the last stands behind a greater one. */
static uint8_t *put_unsorted_leaf(uint8_t *at, const uint8_t *image)
{
    page p = page_begin(at, 3, 4, 0);
    put_number(&p, 5);
    put_number(&p, 5);
    put_number(&p, 9);
    put_number(&p, 7);
    put_text(&p, "yes");
    put_text(&p, "no");
    put_text(&p, "no");
    put_text(&p, "no");
    return page_end(&p, image);
}

/* Map 3's root: separators 1, 9, 2, that leaf behind the first, the other children out of place. */
static uint8_t *put_unsorted(uint8_t *at, const uint8_t *image, const uint8_t *leaf)
{
    page p = page_begin(at, 3, 3, 1);
    for (int i = 0; i < 4; i++)
        put_number(&p, position(1, image, i == 1 ? leaf : NULL, 0));
    for (int i = 0; i < 4; i++)
        put_var(&p, 4);
    put_number(&p, 1);
    put_number(&p, 9);
    put_number(&p, 2);
    return page_end(&p, image);
}

/* A leaf of map 4: these keys, with values from `a` on. */
static uint8_t *put_risen(uint8_t *at, const uint8_t *image, int64_t first, int64_t last)
{
    page p = page_begin(at, 4, (uint32_t)(last - first + 1), 0);
    for (int64_t key = first; key <= last; key++)
        put_number(&p, key);
    for (int64_t key = first; key <= last; key++)
        put_text(&p, (const char[]){(char)('a' - 1 + key), '\0'});
    return page_end(&p, image);
}

/* Map 4's root, over a leaf of one key and one of two. */
static uint8_t *put_two_leaves(uint8_t *at, const uint8_t *image, const uint8_t *left,
                               const uint8_t *right)
{
    page p = page_begin(at, 4, 1, 1);
    put_number(&p, position(1, image, left, 0));
    put_number(&p, position(1, image, right, 0));
    put_var(&p, 1);
    put_var(&p, 2);
    put_number(&p, 2);
    return page_end(&p, image);
}

static uint8_t *put_leftover(uint8_t *at, const uint8_t *image, uint32_t map)
{
    page p = page_begin(at, map, 0, 0);
    *p.at++ = 0;
    return page_end(&p, image);
}

/* An entry of the metadata: a number in hex, or a text. */
typedef struct entry {
    const char *key;
    int64_t number;
    const char *text;
} entry;

static uint8_t *put_entries(uint8_t *at, const uint8_t *image, const entry *entries, uint32_t count)
{
    page p = page_begin(at, 0, count, 0);
    for (uint32_t i = 0; i < count; i++)
        put_text(&p, entries[i].key);
    for (uint32_t i = 0; i < count; i++) {
        char hex[20];
        snprintf(hex, sizeof hex, "%" PRIx64, (uint64_t)entries[i].number);
        put_text(&p, entries[i].text != NULL ? entries[i].text : hex);
    }
    return page_end(&p, image);
}

/* A child of the metadata's root, and the separator in front of it. */
typedef struct child {
    const char *separator;
    int64_t position;
    uint32_t count;
} child;

static uint8_t *put_root(uint8_t *at, const uint8_t *image, const child *children, uint32_t count)
{
    page p = page_begin(at, 0, count - 1, 1);
    for (uint32_t i = 0; i < count; i++)
        put_number(&p, children[i].position);
    for (uint32_t i = 0; i < count; i++)
        put_var(&p, children[i].count);
    for (uint32_t i = 1; i < count; i++)
        put_text(&p, children[i].separator);
    return page_end(&p, image);
}

/* Where the pages stand. */
typedef struct pages {
    uint8_t *numbers, *texts, *leaf, *unsorted, *wrong, *left, *left_of_0, *endless;
    uint8_t *first, *second, *two_leaves; /* map 4's */
    uint8_t *chunks, *names, *root; /* the metadata's */
} pages;

static uint8_t *put_names(const pages *p, const uint8_t *image)
{
    char longest[1006] = "name.";
    memset(longest + 5, 'x', 1000);
    const entry entries[SMALL_NAMES] = {
        {"name.f", 1, NULL},
        {"name.g", 0x7fffffff, NULL},
        {"name.h", 0x80000000, NULL},
        {"name.i", 0, NULL},
        {longest, 2, NULL},
        {"root.1", position(1, image, p->numbers, 0), NULL},
        {"root.2", position(1, image, p->texts, 0), NULL},
        {"root.3", position(1, image, p->unsorted, 1), NULL},
        {"root.4", position(1, image, p->two_leaves, 1), NULL},
        {"root.5", position(3, image, p->numbers, 0), NULL},
        {"root.6", position(2, image, p->numbers, 0), NULL},
        {"root.7", position(1, image, NULL, 0), NULL},
        {"root.8", position(1, image, p->wrong, 0), NULL},
        {"root.9", position(1, image, p->numbers, 0), NULL},
        {"root.a", position(1, image, p->left, 0), NULL},
        {"root.b", position(1, image, p->endless, 1), NULL},
        {"root.e", 0, "x"},
    };
    return put_entries(p->names, image, entries, SMALL_NAMES);
}

/* Chunk 2 is asked for in chunk 2 itself, and chunk 3 has no entry. */
static void put_metadata(pages *p, const uint8_t *image)
{
    const entry chunks[] = {{"chunk.4", 0, "?"}};
    p->names = put_entries(p->chunks, image, chunks, 1);
    p->root = put_names(p, image);
    const child children[SMALL_CHILDREN] = {
        {NULL, position(2, image, p->chunks, 0), 1},
        {"chunk.3", position(1, image, p->chunks, 0), 1},
        {"name.5", position(3, image, p->names, 0), 1},
        {"name.6", position(2, image, p->names, 0), 1},
        {"name.7", position(1, image, NULL, 0), 1},
        {"name.8", position(1, image, p->wrong, 0), 1},
        {"name.9", position(1, image, p->numbers, 0), 1},
        {"name.:", position(1, image, p->left_of_0, 0), 1},
        {"name.;", position(1, image, p->root, 1), 1},
        {"name.<", position(1, image, p->names, 0), SMALL_NAMES},
    };
    put_root(p->root, image, children, SMALL_CHILDREN);
}

/* All pages from `at` on: the metadata's root. */
static const uint8_t *put_pages(uint8_t *at, const uint8_t *image)
{
    pages p = {.numbers = at};
    p.texts = put_numbers(p.numbers, image, 1);
    p.leaf = put_texts(p.texts, image);
    p.unsorted = put_unsorted_leaf(p.leaf, image);
    p.wrong = put_unsorted(p.unsorted, image, p.leaf);
    p.left = put_numbers(p.wrong, image, 8);
    p.wrong[5] ^= 1;
    p.left_of_0 = put_leftover(p.left, image, 10);
    p.endless = put_leftover(p.left_of_0, image, 0);
    p.first = put_endless(p.endless, image);
    p.second = put_risen(p.first, image, 1, 1);
    p.two_leaves = put_risen(p.second, image, 2, 3);
    p.chunks = put_two_leaves(p.two_leaves, image, p.first, p.second);
    put_metadata(&p, image);
    return p.root;
}

lent small_store(uint64_t edition)
{
    lent l = lent_zeros(SMALL_LEN);
    const uint8_t *root = put_pages(l.bytes + CHUNK + SMALL_PAGES, l.bytes);
    const char *header = "H:2,block:2,blockSize:1000,chunk:1,format:1,version:1";
    small_line(l.bytes, header, edition);
    small_line(l.bytes + BLOCK, header, edition);
    sprintf((char *)l.bytes + CHUNK, "chunk:1,block:2,len:1,next:3,pages:e,root:%" PRIx64
            ",version:1\n", (uint64_t)position(1, l.bytes, root, 1));
    small_line(l.bytes + SMALL_LEN - 128, "chunk:1,block:2,version:1", edition);
    lent_seal(&l);
    return l;
}
