#include "walks.h"

#include <stdlib.h>
#include <string.h>

#include "ask.h"
#include "check.h"
#include "contents.h"

static const asked_map numbers = {1, MVSTORE_NUMBER};
static const asked_map texts = {2, MVSTORE_TEXT};
static const asked_map two_leaves = {4, MVSTORE_NUMBER};
static const asked_map metadata = {0, MVSTORE_TEXT};
static const asked_map nonsense = {UINT64_MAX, 7};

static int same_state(mvstore_walk a, mvstore_walk b)
{
    return memcmp(a.places, b.places, sizeof a.places) == 0 && a.depth == b.depth
           && a.last == b.last;
}

/* What is recorded is given again, the state unchanged, whatever else is passed. */
static void claim_again(lent image, asked_map m, mvstore_walk w)
{
    const lent none = {.bytes = NULL, .len = 0};
    const lent images[] = {image, none};
    const asked_map maps[] = {m, metadata, nonsense};
    for (size_t i = 0; i < 6; i++) {
        mvstore_step s = ask_next(images[i % 2], maps[i / 2], w);
        CHECK(w.last == MVSTORE_DONE ? s.done == 1 : s.refusal == w.last);
        CHECK(same_state(s.walk, w));
    }
}

/* Refused with this number, which is recorded; places and depth are kept. */
static void claim_refused(lent image, asked_map m, mvstore_walk w, uint32_t refusal)
{
    mvstore_step s = ask_next(image, m, w);
    CHECK(s.refusal == refusal);
    w.last = refusal;
    CHECK(same_state(s.walk, w));
    claim_again(image, m, s.walk);
}

static void check_map(lent image, const dumped_map *due)
{
    const asked_map m = {due->id, due->kind};
    mvstore_walk w = {0};
    for (size_t i = 0; i < due->count; i++) {
        mvstore_step s = ask_next(image, m, w);
        const mvstore_entry e = {s.refusal, s.number, s.key_at, s.key_len, s.at, s.len};
        CHECK(s.done == 0 && contents_same(image, m.kind, &e, &due->entries[i]));
        w = s.walk;
    }
    mvstore_step last = ask_next(image, m, w);
    w.last = MVSTORE_DONE;
    CHECK(last.done == 1 && same_state(last.walk, w));
    claim_again(image, m, w);

    mvstore_report r = ask_examine(image, m);
    CHECK(r.refusal == 0 && r.entries == due->count);
    CHECK(due->count == 0 || (r.depth >= 1 && r.pages >= r.depth));
}

void walks_check(lent image, const dump *d)
{
    for (size_t i = 0; i < d->count; i++)
        check_map(image, &d->maps[i]);
}

/* 01: "the last answer: going on, Done or a table number". */
static void check_recorded(lent image)
{
    mvstore_walk w = {.places = {7, 0, 9}, .depth = 99};
    for (w.last = 1; w.last <= MVSTORE_AREA_TOO_SMALL; w.last++)
        claim_again(image, numbers, w);
    w.last = MVSTORE_DONE;
    claim_again(image, numbers, w);
}

/* 01: "a state not so formed", and "a number or depth that doesn't fit the map or the page". */
static void check_states(lent image)
{
    const mvstore_walk unfit[] = {
        {.depth = 17},
        {.depth = 0xffffffff},
        {.places = {1}, .depth = 0},
        {.places = {[15] = 1}, .depth = 0},
        {.places = {0, 1}, .depth = 1},
        {.places = {[15] = 1}, .depth = 15},
        {.last = 17},
        {.last = 254},
        {.last = 256},
        {.last = 0xffffffff},
        {.depth = 1, .last = 17},
    };
    const mvstore_walk misplaced[] = {
        {.depth = 2}, {.depth = 16}, {.places = {4}, .depth = 1}, {.places = {0xffffffff}, .depth = 1},
    };
    for (size_t i = 0; i < sizeof unfit / sizeof *unfit; i++) {
        claim_refused(image, numbers, unfit[i], MVSTORE_UNSOUND);
        claim_refused(image, texts, unfit[i], MVSTORE_UNSOUND);
        claim_refused(image, metadata, unfit[i], MVSTORE_UNSOUND);
        claim_refused(image, (asked_map){1, 2}, unfit[i], MVSTORE_BAD_ARGUMENT);
    }
    for (size_t i = 0; i < sizeof misplaced / sizeof *misplaced; i++)
        claim_refused(image, numbers, misplaced[i], MVSTORE_UNSOUND);
    CHECK(ask_next(image, numbers, (mvstore_walk){.places = {2}, .depth = 1}).number == INT64_MAX);
    CHECK(ask_next(image, numbers, (mvstore_walk){.places = {3}, .depth = 1}).done == 1);
}

/* The maps of small.h that have entries, and those that are refused on the way. */
static void check_maps(lent image)
{
    mvstore_report r = ask_examine(image, numbers);
    CHECK(r.refusal == 0 && r.entries == 4 && r.pages == 1 && r.depth == 1);
    r = ask_examine(image, texts);
    CHECK(r.refusal == 0 && r.entries == 3 && r.pages == 1 && r.depth == 1);
    r = ask_examine(image, two_leaves);
    CHECK(r.refusal == 0 && r.entries == 3 && r.pages == 3 && r.depth == 2);
    CHECK(ask_examine(image, metadata).refusal == MVSTORE_NINTH_QUESTION);
    claim_refused(image, metadata, (mvstore_walk){0}, MVSTORE_NINTH_QUESTION);
    CHECK(ask_examine(image, (asked_map){3, MVSTORE_NUMBER}).refusal == MVSTORE_UNSOUND);
    claim_refused(image, (asked_map){3, MVSTORE_NUMBER}, (mvstore_walk){0}, MVSTORE_OUT_OF_PLACE);
    CHECK(ask_examine(image, (asked_map){11, MVSTORE_TEXT}).refusal == MVSTORE_UNSOUND);
    claim_refused(image, (asked_map){11, MVSTORE_TEXT}, (mvstore_walk){0}, MVSTORE_TOO_DEEP);
}

/* The walk of map 4 gives these numbers and no more. */
static void claim_walk(lent image, const int64_t due[3])
{
    mvstore_walk w = {0};
    for (int i = 0; i < 3; i++) {
        mvstore_step s = ask_next(image, two_leaves, w);
        CHECK(s.refusal == 0 && s.done == 0 && s.number == due[i]);
        w = s.walk;
    }
    CHECK(ask_next(image, two_leaves, w).done == 1);
}

/* Where the fields of a page begin whose position is given: length, check value, id, n and type
 * are before them. */
static size_t fields_at(uint64_t position)
{
    return (size_t)2 * 4096 + (size_t)(position >> 6 & 0xffffffff) + 9;
}

static size_t root_at(lent image)
{
    char hex[17] = {0};
    mvstore_value v = ask_lookup(image, metadata, "root.4", 6);
    CHECK(v.found == 1 && v.len < sizeof hex);
    memcpy(hex, image.bytes + v.at, v.len < sizeof hex ? v.len : 0);
    return fields_at(strtoull(hex, NULL, 16));
}

static size_t child_at(lent image, size_t at)
{
    uint64_t position = 0;
    for (size_t i = 0; i < 8; i++)
        position = position << 8 | image.bytes[at + i];
    return fields_at(position);
}

/* Two parts of the image exchanged: the examination refuses map 4, and the walk gives these. */
static void claim_exchanged(lent image, size_t a, size_t b, size_t len, const int64_t due[3])
{
    lent damaged = lent_copy(image.bytes, image.len);
    memcpy(damaged.bytes + a, image.bytes + b, len);
    memcpy(damaged.bytes + b, image.bytes + a, len);
    CHECK(ask_examine(damaged, two_leaves).refusal == MVSTORE_UNSOUND);
    claim_walk(damaged, due);
    lent_free(&damaged);
}

/* Faults of map 4 that leave every page readable: children, counts and keys that changed places. */
static void check_damage(lent image)
{
    const size_t children = root_at(image), counts = children + 16, separator = counts + 2;
    const size_t left = child_at(image, children), right = child_at(image, children + 8);
    claim_walk(image, (int64_t[]){1, 2, 3});
    claim_exchanged(image, children, children + 8, 8, (int64_t[]){2, 3, 1});
    claim_exchanged(image, counts, counts + 1, 1, (int64_t[]){1, 2, 3});
    claim_exchanged(image, right, right + 8, 8, (int64_t[]){1, 3, 2});
    claim_exchanged(image, separator, right + 8, 8, (int64_t[]){1, 2, 2});
    claim_exchanged(image, separator, left, 8, (int64_t[]){2, 2, 3});
}

void walks_check_small(lent image)
{
    check_recorded(image);
    check_states(image);
    check_maps(image);
    check_damage(image);
}
