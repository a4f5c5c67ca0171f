#define _DEFAULT_SOURCE
#include "images.h"

#include <inttypes.h>
#include <stdio.h>
#include <stdlib.h>
#include <string.h>
#include <sys/mman.h>

#include "ask.h"
#include "check.h"
#include "small.h"

#define BLOCK ((size_t)4096)
#define LARGEST ((size_t)1 << 40)

static const asked_map numbers = {1, MVSTORE_NUMBER};
static const asked_map texts = {2, MVSTORE_TEXT};
static const asked_map metadata = {0, MVSTORE_TEXT};

static void claim_image(lent image, uint32_t refusal)
{
    ask_refused(image, numbers, refusal);
    ask_refused(image, texts, refusal);
    ask_refused(image, metadata, refusal);
    CHECK(ask_newest(image).refusal == refusal);
    CHECK(ask_map(image, "f", 1).refusal == refusal);
    ask_refused(image, (asked_map){1, 2}, MVSTORE_BAD_ARGUMENT); /* arguments come first */
    CHECK(ask_map(image, "", 0).refusal == MVSTORE_BAD_ARGUMENT);
    CHECK(ask_lookup(image, numbers, "", 0).refusal == MVSTORE_BAD_ARGUMENT);
}

/* However long the image is, it has one chunk. */
static void claim_newest(lent image)
{
    mvstore_chunk c = ask_newest(image);
    CHECK(c.refusal == 0 && c.chunk == 1 && c.version == 1);
    CHECK(c.block == 2 && c.blocks == 1);
}

static void check_lengths(lent image)
{
    const size_t cut[] = {0, 1, BLOCK, SMALL_LEN - BLOCK, SMALL_LEN - 1};
    claim_image((lent){.bytes = NULL, .len = 0}, MVSTORE_BAD_IMAGE_SIZE);
    for (size_t i = 0; i < sizeof cut / sizeof *cut; i++) {
        lent part = lent_copy(image.bytes, cut[i]);
        claim_image(part, MVSTORE_BAD_IMAGE_SIZE);
        lent_free(&part);
    }
    for (size_t more = 1; more < 2 * BLOCK; more += BLOCK - 2) { /* part blocks, a whole one */
        lent longer = lent_zeros(SMALL_LEN + more);
        memcpy(longer.bytes, image.bytes, SMALL_LEN);
        claim_newest(longer);
        CHECK(ask_number(longer, numbers, 0).len == 2);
        CHECK(ask_map(longer, "f", 1).id == 1);
        lent_free(&longer);
    }
}

/* The footer, then the first file header, then the second too. */
static void check_headers(lent image)
{
    lent damaged = lent_copy(image.bytes, SMALL_LEN);
    damaged.bytes[SMALL_LEN - 128] ^= 1;
    claim_image(damaged, MVSTORE_NO_START);
    damaged.bytes[0] ^= 1;
    claim_image(damaged, MVSTORE_NO_START);
    damaged.bytes[BLOCK] ^= 1;
    claim_image(damaged, MVSTORE_NO_HEADER);
    lent_free(&damaged);
}

/* 01: "3 to 268,435,456 blocks"; the rest of the blocks were never written. */
static void check_largest(lent image)
{
    const int flags = MAP_PRIVATE | MAP_ANONYMOUS | MAP_NORESERVE;
    uint8_t *whole = mmap(NULL, LARGEST + BLOCK, PROT_READ | PROT_WRITE, flags, -1, 0);
    if (whole == MAP_FAILED) {
        printf("exports: no address space for 2^40 bytes: skipped\n");
        return;
    }
    memcpy(whole, image.bytes, SMALL_LEN);
    lent largest = {.bytes = whole, .len = LARGEST};
    for (; largest.len < LARGEST + BLOCK; largest.len += BLOCK - 1) {
        claim_newest(largest);
        CHECK(ask_number(largest, numbers, 0).len == 2);
        CHECK(ask_count(largest, texts).count == 3);
    }
    largest.len = LARGEST + BLOCK;
    claim_image(largest, MVSTORE_BAD_IMAGE_SIZE);
    munmap(whole, LARGEST + BLOCK);
}

static void check_null(lent image)
{
    mvstore_value v = mvstore_lookup(image.bytes, image.len, ask_view(), 2, MVSTORE_TEXT, NULL, 0);
    CHECK(v.refusal == 0 && v.found == 1 && v.len == 1);
    v = mvstore_lookup(image.bytes, image.len, ask_view(), 1, MVSTORE_NUMBER, NULL, 0);
    CHECK(v.refusal == MVSTORE_BAD_ARGUMENT);
    mvstore_id id = mvstore_map(image.bytes, image.len, ask_view(), NULL, 0);
    CHECK(id.refusal == MVSTORE_BAD_ARGUMENT);
    v = mvstore_copy(NULL, 0, ask_view(), 2, MVSTORE_TEXT, NULL, 0, NULL, 0);
    CHECK(v.refusal == MVSTORE_BAD_IMAGE_SIZE);
    CHECK(mvstore_newest(NULL, 0, ask_view()).refusal == MVSTORE_BAD_IMAGE_SIZE);
}

void images_check(lent image)
{
    claim_newest(image);
    check_null(image);
    check_lengths(image);
    check_headers(image);
    check_largest(image);
}

static int begins(lent image, uint64_t at, const char *text)
{
    return at_place(image, at, strlen(text), text, strlen(text));
}

/* The N of a key chunk.N, or 0. */
static unsigned long chunk_of(bytes key)
{
    char text[32] = "";
    if (key.len >= sizeof text || key.len < 6 || memcmp(key.at, "chunk.", 6) != 0)
        return 0;
    memcpy(text, key.at, key.len);
    return strtoul(text + 6, NULL, 16);
}

/* H2 counts its chunks up, and the metadata has an entry for those before the newest. */
void images_check_newest(lent image, const dump *d)
{
    char header[64], footer[64];
    mvstore_chunk c = ask_newest(image);
    uint64_t at = (uint64_t)c.block * BLOCK;
    CHECK(c.refusal == 0);
    snprintf(header, sizeof header, "chunk:%" PRIx32 ",block:%" PRIx32 ",len:%" PRIx32 ",",
             c.chunk, c.block, c.blocks);
    CHECK(begins(image, at, header));
    snprintf(footer, sizeof footer, "chunk:%" PRIx32 ",block:%" PRIx32 ",version:%" PRIx64 ",",
             c.chunk, c.block, c.version);
    CHECK(begins(image, at + c.blocks * BLOCK - 128, footer));
    for (size_t i = 0; i < d->count; i++)
        for (size_t k = 0; d->maps[i].id == 0 && k < d->maps[i].count; k++)
            CHECK(chunk_of(d->maps[i].entries[k].key) < c.chunk);
}
