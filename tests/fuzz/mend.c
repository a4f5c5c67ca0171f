#include "mend.h"

#include <inttypes.h>
#include <stdio.h>
#include <stdlib.h>
#include <string.h>

#include "check_value.h"
#include "fletcher.h"

#define BLOCK ((size_t)4096)
#define FOOTER ((size_t)128)
#define CHUNK_HEADER ((size_t)1024)
#define PAGES 200  /* no more of them are mended */
#define CHUNKS 64  /* nor are more chunks known */
#define DEEPEST 16

static const char sum_name[] = ",fletcher:";
enum { sum_name_len = sizeof sum_name - 1 };

/* Where the last ,fletcher: begins, or NULL. */
static uint8_t *sum_of(uint8_t *line, size_t len)
{
    for (size_t i = len; i >= sum_name_len; i--)
        if (memcmp(line + i - sum_name_len, sum_name, sum_name_len) == 0)
            return line + i - sum_name_len;
    return NULL;
}

/* The sum may take more digits than it took: then the newline moves. */
static void mend_line(uint8_t *area, size_t room, uint64_t edition)
{
    char digits[16];
    uint8_t *newline = memchr(area, '\n', room);
    uint8_t *comma = newline == NULL ? NULL : sum_of(area, (size_t)(newline - area));
    if (comma == NULL)
        return;
    uint32_t sum = fletcher(area, (size_t)(comma - area), edition);
    size_t len = (size_t)snprintf(digits, sizeof digits, "%" PRIx32 "\n", sum);
    if (len <= room - (size_t)(comma - area) - sum_name_len)
        memcpy(comma + sum_name_len, digits, len);
}

void mend_sums(uint8_t *image, size_t len, uint64_t edition)
{
    for (size_t block = 0; block < len / BLOCK; block++) {
        if (block < 2)
            mend_line(image + block * BLOCK, BLOCK, edition);
        else
            mend_line(image + (block + 1) * BLOCK - FOOTER, FOOTER, edition);
    }
}

typedef struct chunk {
    uint64_t id, root, block, len, version;
    size_t at;
} chunk;

typedef struct mending {
    uint8_t *image;
    size_t len;
    chunk chunks[CHUNKS];
    size_t chunk_count;
    unsigned left; /* pages that may still be mended */
} mending;

/* A field's number; 0 where the line lacks it. */
static uint64_t field(const char *line, const char *name)
{
    for (const char *at = strstr(line, name); at != NULL; at = strstr(at + 1, name))
        if (at == line || at[-1] == ',')
            return strtoull(at + strlen(name), NULL, 16);
    return 0;
}

static void know_chunk(mending *m, size_t at)
{
    char line[CHUNK_HEADER + 1];
    memcpy(line, m->image + at, CHUNK_HEADER);
    line[CHUNK_HEADER] = '\0';
    line[strcspn(line, "\n")] = '\0';
    chunk c = {field(line, "chunk:"), field(line, "root:"),    field(line, "block:"),
               field(line, "len:"),   field(line, "version:"), at};
    if (c.id != 0 && m->chunk_count < CHUNKS)
        m->chunks[m->chunk_count++] = c;
}

static void know_chunks(mending *m, uint8_t *image, size_t len)
{
    *m = (mending){.image = image, .len = len, .left = PAGES};
    for (size_t block = 2; block < len / BLOCK; block++)
        know_chunk(m, block * BLOCK);
}

/* With its sum and a newline. */
static void put_line(uint8_t *area, const char *text, uint64_t edition)
{
    char line[FOOTER + 1];
    uint32_t sum = fletcher((const uint8_t *)text, strlen(text), edition);
    int len = snprintf(line, sizeof line, "%s%s%" PRIx32 "\n", text, sum_name, sum);
    if (len > 0 && (size_t)len < sizeof line)
        memcpy(area, line, (size_t)len);
}

static void put_footer(const mending *m, const chunk *c, uint64_t edition)
{
    char text[FOOTER];
    size_t blocks = (m->len - c->at) / BLOCK;
    if (c->len < 1 || c->len > blocks)
        return;
    snprintf(text, sizeof text, "chunk:%" PRIx64 ",block:%" PRIx64 ",version:%" PRIx64, c->id,
             c->block, c->version);
    put_line(m->image + c->at + (size_t)c->len * BLOCK - FOOTER, text, edition);
}

void mend_lines(uint8_t *image, size_t len, uint64_t edition)
{
    mending m;
    char text[FOOTER];
    chunk newest = {0};
    know_chunks(&m, image, len);
    for (size_t i = 0; i < m.chunk_count; i++) {
        put_footer(&m, &m.chunks[i], edition);
        if (m.chunks[i].version >= newest.version)
            newest = m.chunks[i];
    }
    if (m.chunk_count == 0)
        return;
    snprintf(text, sizeof text, "H:2,block:%" PRIx64 ",blockSize:1000,chunk:%" PRIx64
             ",format:1,version:%" PRIx64, newest.block, newest.id, newest.version);
    put_line(image, text, edition);
    put_line(image + BLOCK, text, edition);
}

/* What is left of a page, or of the image. */
typedef struct rest {
    const uint8_t *at;
    size_t len;
} rest;

static int skip(rest *r, uint64_t len)
{
    if (len > r->len)
        return 0;
    r->at += len;
    r->len -= (size_t)len;
    return 1;
}

static int take_var(rest *r, uint64_t *number)
{
    *number = 0;
    for (unsigned shift = 0; shift < 35 && r->len != 0; shift += 7) {
        uint8_t byte = *r->at;
        *number |= (uint64_t)(byte & 127) << shift;
        skip(r, 1);
        if (byte < 128)
            return 1;
    }
    return 0;
}

static uint64_t big_endian(const uint8_t *at, size_t len)
{
    uint64_t number = 0;
    for (size_t i = 0; i < len; i++)
        number = number << 8 | at[i];
    return number;
}

static void mend_page(mending *m, uint64_t position, int depth);

static void mend_children(mending *m, rest r, uint64_t n, int depth)
{
    for (uint64_t i = 0; i <= n && r.len >= 8; i++) {
        mend_page(m, big_endian(r.at, 8), depth + 1);
        skip(&r, 8);
    }
}

/* Every value of the metadata that could be a root is followed. */
static void mend_roots(mending *m, rest r, uint64_t n)
{
    char digits[17];
    uint64_t len;
    for (uint64_t i = 0; i < n; i++)
        if (!take_var(&r, &len) || !skip(&r, len))
            return;
    for (uint64_t i = 0; i < n && take_var(&r, &len) && len <= r.len; i++) {
        if (len < sizeof digits) {
            memcpy(digits, r.at, (size_t)len);
            digits[len] = '\0';
            mend_page(m, strtoull(digits, NULL, 16), 1);
        }
        skip(&r, len);
    }
}

static void mend_below(mending *m, rest r, int depth)
{
    uint64_t map, n;
    if (!take_var(&r, &map) || !take_var(&r, &n) || r.len == 0)
        return;
    uint8_t type = *r.at;
    skip(&r, 1);
    if (type == 1)
        mend_children(m, r, n, depth);
    else if (type == 0 && map == 0)
        mend_roots(m, r, n);
}

/* A position: 26 bits chunk id, 32 bits offset, 5 bits length code, 1 bit type. */
static void mend_page(mending *m, uint64_t position, int depth)
{
    uint64_t id = position >> 38, offset = position >> 6 & 0xffffffff;
    size_t i = 0;
    while (i < m->chunk_count && m->chunks[i].id != id)
        i++;
    if (i == m->chunk_count || depth > DEEPEST || m->left == 0)
        return;
    size_t room = m->len - m->chunks[i].at;
    if (offset > room || room - offset < 9)
        return;
    m->left--;
    uint8_t *page = m->image + m->chunks[i].at + offset;
    uint16_t check = check_value((uint32_t)id, (uint32_t)offset, (uint32_t)big_endian(page, 4));
    page[4] = (uint8_t)(check >> 8);
    page[5] = (uint8_t)check;
    mend_below(m, (rest){page + 6, room - (size_t)offset - 6}, depth);
}

void mend_pages(uint8_t *image, size_t len)
{
    mending m;
    know_chunks(&m, image, len);
    for (size_t i = m.chunk_count; i > 0; i--)
        mend_page(&m, m.chunks[i - 1].root, 1);
}
