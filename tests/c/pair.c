#include "pair.h"

#include <inttypes.h>
#include <stdio.h>
#include <string.h>

#include "check_value.h"
#include "fields.h"
#include "mvstore.h"
#include "small.h"

#define BLOCK ((size_t)4096)
#define FIRST (2 * BLOCK)
#define SECOND (3 * BLOCK)
#define FOOTER ((size_t)128)

static lent longer(uint64_t edition)
{
    lent small = small_store(edition), l = lent_zeros(PAIR_LEN);
    memcpy(l.bytes, small.bytes, SMALL_LEN);
    lent_free(&small);
    return l;
}

/* Wherever the old bytes stand, the new ones, which are as many. */
static void exchange(uint8_t *from, size_t len, const char *old, const char *new)
{
    size_t due = strlen(old);
    for (size_t i = 0; i + due <= len; i++)
        if (memcmp(from + i, old, due) == 0)
            memcpy(from + i, new, due);
}

lent pair_apart(void)
{
    lent l = longer(MVSTORE_EDITION_1);
    uint8_t *chunk = l.bytes + SECOND;
    memcpy(chunk, l.bytes + FIRST, BLOCK);
    exchange(chunk, SMALL_PAGES, "chunk:1,block:2,len:1,next:3", "chunk:1,block:3,len:1,next:4");
    exchange(chunk, SMALL_PAGES, "version:1", "version:2");
    exchange(chunk, BLOCK, "\2bc\3def", "\2bd\3def");
    small_line(chunk + BLOCK - FOOTER, "chunk:1,block:3,version:2", MVSTORE_EDITION_2);
    small_line(l.bytes + BLOCK, "H:2,block:3,blockSize:1000,chunk:1,format:1,version:2",
               MVSTORE_EDITION_2);
    lent_seal(&l);
    return l;
}

/* A leaf at the beginning of a chunk's pages, of whatever length. */
static uint64_t first_page(uint64_t chunk)
{
    return chunk << 38 | SMALL_PAGES << 6 | 31 << 1;
}

/* The metadata of chunk 2, a leaf of three entries. */
static void put_metadata(uint8_t *chunk)
{
    char root[17];
    page p = page_begin(chunk + SMALL_PAGES, 0, 3, 0);
    snprintf(root, sizeof root, "%" PRIx64, first_page(1));
    put_text(&p, "chunk.1");
    put_text(&p, "name.f");
    put_text(&p, "root.1");
    put_text(&p, "chunk:1,block:2");
    put_text(&p, "1");
    put_text(&p, root);
    uint32_t len = (uint32_t)(p.at - p.start);
    uint16_t check = check_value(2, SMALL_PAGES, len);
    const uint8_t head[6] = {0, 0, (uint8_t)(len >> 8), (uint8_t)len, (uint8_t)(check >> 8),
                             (uint8_t)check};
    memcpy(p.start, head, sizeof head);
}

lent pair_alike(uint64_t edition)
{
    char line[128];
    lent l = longer(edition);
    uint8_t *chunk = l.bytes + SECOND;
    const char *header = "H:2,block:3,blockSize:1000,chunk:2,format:1,version:10";
    int len = snprintf(line, sizeof line, "chunk:2,block:3,len:1,next:4,pages:1,root:%" PRIx64
                       ",version:10\n", first_page(2));
    memcpy(chunk, line, (size_t)len);
    put_metadata(chunk);
    small_line(chunk + BLOCK - FOOTER, "chunk:2,block:3,version:10", edition);
    small_line(l.bytes, header, edition);
    small_line(l.bytes + BLOCK, header, edition);
    lent_seal(&l);
    return l;
}
