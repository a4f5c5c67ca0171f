#include "editions.h"

#include <string.h>

#include "ask.h"
#include "check.h"
#include "pair.h"
#include "small.h"

#define BLOCK ((size_t)4096)

static const asked_map numbers = {1, MVSTORE_NUMBER};
static const asked_map texts = {2, MVSTORE_TEXT};
static const asked_map metadata = {0, MVSTORE_TEXT};
static const asked_map nonsense = {UINT64_MAX, 7};

/* Good ones, were they cut to 8, 16 or 32 bits, too. */
static const uint64_t bad[] = {
    0, 3, 4, 255, 256, 257, 258, 0x10001, 0x10002, 0xffffffff,
    0x100000000, 0x100000001, 0x100000002, (uint64_t)1 << 63, ((uint64_t)1 << 63) + 1, UINT64_MAX,
};
enum { bad_count = sizeof bad / sizeof *bad };

static void claim_refused(lent image, uint32_t refusal)
{
    ask_refused(image, numbers, refusal);
    ask_refused(image, texts, refusal);
    ask_refused(image, metadata, refusal);
    CHECK(ask_newest(image).refusal == refusal);
    CHECK(ask_map(image, "f", 1).refusal == refusal);
}

/* 01: "given again at each later step before anything is judged", the edition too. */
static void claim_recorded(lent image)
{
    mvstore_walk w = {.places = {7, 0, 9}, .depth = 99};
    for (w.last = 1; w.last <= MVSTORE_AREA_TOO_SMALL; w.last++) {
        CHECK(ask_next(image, numbers, w).refusal == w.last);
        CHECK(ask_next(image, nonsense, w).refusal == w.last);
    }
    w.last = MVSTORE_DONE;
    CHECK(ask_next(image, numbers, w).done == 1);
    CHECK(ask_next(image, nonsense, w).done == 1);
}

/* A walk under way records the refusal, and its places and depth stay. */
static void claim_recording(lent image)
{
    const mvstore_walk under_way = {.places = {2}, .depth = 1}, unfit = {.depth = 17, .last = 17};
    mvstore_step s = ask_next(image, numbers, under_way);
    CHECK(s.refusal == MVSTORE_BAD_ARGUMENT && s.walk.last == MVSTORE_BAD_ARGUMENT);
    CHECK(s.walk.depth == 1 && memcmp(s.walk.places, under_way.places, sizeof s.walk.places) == 0);
    s = ask_next(image, numbers, unfit);
    CHECK(s.walk.last == MVSTORE_BAD_ARGUMENT && s.walk.depth == 17);
    ask_in(MVSTORE_EDITION_1);
    CHECK(ask_next(image, numbers, s.walk).refusal == MVSTORE_BAD_ARGUMENT);
}

/* No image, one that is too short, one without a header, one that opens: 1 comes before 2, 3, 4. */
static void check_bad(lent image)
{
    lent damaged = lent_copy(image.bytes, image.len);
    lent cut = lent_copy(image.bytes, SMALL_LEN - 1);
    const lent none = {.bytes = NULL, .len = 0}, images[] = {image, damaged, cut, none};
    memset(damaged.bytes, 'x', 2 * BLOCK);
    for (size_t i = 0; i < 4 * bad_count; i++) {
        ask_in(bad[i % bad_count]);
        claim_refused(images[i / bad_count], MVSTORE_BAD_ARGUMENT);
        claim_recorded(images[i / bad_count]);
        claim_recording(images[i / bad_count]);
    }
    for (uint64_t edition = MVSTORE_EDITION_1; edition <= MVSTORE_EDITION_2; edition++) {
        ask_in(edition);
        claim_refused(none, MVSTORE_BAD_IMAGE_SIZE);
        claim_refused(cut, MVSTORE_BAD_IMAGE_SIZE);
        claim_refused(damaged, MVSTORE_NO_HEADER);
    }
    lent_free(&damaged);
    lent_free(&cut);
}

/* Headers of one edition, footers of the other: neither start stands. */
static void check_parted(uint64_t edition)
{
    lent image = small_store(edition), other = small_store(3 - edition);
    lent both = lent_copy(other.bytes, SMALL_LEN);
    memcpy(both.bytes, image.bytes, 2 * BLOCK);
    ask_in(edition);
    claim_refused(both, MVSTORE_NO_START);
    ask_in(3 - edition);
    claim_refused(both, MVSTORE_NO_HEADER);
    memcpy(both.bytes + BLOCK, other.bytes + BLOCK, BLOCK); /* now one header of each */
    CHECK(ask_newest(both).refusal == 0 && ask_number(both, numbers, 0).len == 2);
    ask_in(edition);
    claim_refused(both, MVSTORE_NO_START);
    lent_free(&image);
    lent_free(&other);
    lent_free(&both);
}

static void check_apart(void)
{
    lent image = pair_apart();
    for (uint64_t edition = MVSTORE_EDITION_1; edition <= MVSTORE_EDITION_2; edition++) {
        ask_in(edition);
        mvstore_chunk c = ask_newest(image);
        CHECK(c.refusal == 0 && c.chunk == 1 && c.version == edition && c.block == edition + 1);
        mvstore_value v = ask_number(image, numbers, 0);
        CHECK(at_place(image, v.at, v.len, edition == MVSTORE_EDITION_1 ? "bc" : "bd", 2));
    }
    lent_free(&image);
}

/* A chunk that is located later is judged by the edition too. */
static void check_alike(uint64_t edition)
{
    lent image = pair_alike(edition);
    ask_in(3 - edition);
    mvstore_chunk c = ask_newest(image);
    CHECK(c.refusal == 0 && c.chunk == 2 && c.block == 3 && c.version == 16);
    ask_refused(image, numbers, MVSTORE_NOT_LOCATED);
    CHECK(ask_map(image, "f", 1).id == 1 && ask_count(image, metadata).count == 3);
    ask_in(edition);
    c = ask_newest(image);
    CHECK(c.refusal == 0 && c.chunk == 2 && c.block == 3 && c.version == 16);
    CHECK(ask_examine(image, numbers).entries == 4 && ask_examine(image, metadata).entries == 3);
    lent_free(&image);
}

void editions_check(void)
{
    lent image = small_store(MVSTORE_EDITION_1);
    check_about("the editions");
    check_bad(image);
    check_parted(MVSTORE_EDITION_1);
    check_parted(MVSTORE_EDITION_2);
    check_apart();
    check_alike(MVSTORE_EDITION_1);
    check_alike(MVSTORE_EDITION_2);
    lent_free(&image);
}

void editions_check_other(lent image)
{
    uint64_t edition = ask_view().edition;
    ask_in(3 - edition);
    claim_refused(image, MVSTORE_NO_HEADER);
    ask_in(edition);
}
