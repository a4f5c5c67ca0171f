/* exports.c - every export of mvstore.h, at both ends of every argument.
 *
 *   exports [EDITION STORE DUMP]...
 *
 * First on the small store of small.h, in both editions, then on stores that H2
 * wrote, in the edition of their sums, against what they truly hold.
 */
#include <stdio.h>
#include <stdlib.h>
#include <string.h>

#include "ask.h"
#include "check.h"
#include "contents.h"
#include "dump.h"
#include "editions.h"
#include "images.h"
#include "number.h"
#include "small.h"
#include "walks.h"

#define LARGEST_ID ((uint64_t)0x7fffffff)

static const asked_map numbers = {1, MVSTORE_NUMBER};
static const asked_map texts = {2, MVSTORE_TEXT};
static const asked_map metadata = {0, MVSTORE_TEXT};

static void claim_empty(lent image, asked_map m)
{
    uint8_t key[8] = {0};
    mvstore_value v = ask_lookup(image, m, key, m.kind == 0 ? 8 : 0);
    CHECK(v.refusal == 0 && v.found == 0);
    v = ask_copy(image, m, key, m.kind == 0 ? 8 : 0, 16);
    CHECK(v.refusal == 0 && v.found == 0);
    CHECK(ask_index(image, m, 0).refusal == MVSTORE_BAD_INDEX);
    CHECK(ask_index(image, m, UINT64_MAX).refusal == MVSTORE_BAD_INDEX);
    mvstore_count_of c = ask_count(image, m);
    CHECK(c.refusal == 0 && c.count == 0);
    CHECK(ask_next(image, m, (mvstore_walk){0}).done == 1);
    mvstore_report r = ask_examine(image, m);
    CHECK(r.refusal == 0 && r.entries == 0 && r.pages == 0);
}

/* 01: "kind not 0 or 1; map 0 with kind 0; map id above 2^31-1". */
static void check_map_and_kind(lent image)
{
    const uint64_t bad_id[] = {LARGEST_ID + 1, 0xffffffff, 0x100000000, 0x100000001, UINT64_MAX};
    const uint64_t bad_kind[] = {2, 255, 256, 0x100000000, 0x100000001, UINT64_MAX};
    const uint64_t good_id[] = {0, 1, 2, LARGEST_ID};
    for (size_t i = 0; i < sizeof bad_id / sizeof *bad_id; i++)
        for (uint64_t kind = 0; kind <= 2; kind++)
            ask_refused(image, (asked_map){bad_id[i], kind}, MVSTORE_BAD_ARGUMENT);
    for (size_t i = 0; i < sizeof bad_kind / sizeof *bad_kind; i++)
        for (size_t k = 0; k < sizeof good_id / sizeof *good_id; k++)
            ask_refused(image, (asked_map){good_id[k], bad_kind[i]}, MVSTORE_BAD_ARGUMENT);
    ask_refused(image, (asked_map){0, MVSTORE_NUMBER}, MVSTORE_BAD_ARGUMENT);
    claim_empty(image, (asked_map){LARGEST_ID, MVSTORE_NUMBER});
    claim_empty(image, (asked_map){LARGEST_ID, MVSTORE_TEXT});
    CHECK(ask_count(image, metadata).count == SMALL_COUNT);
    CHECK(ask_count(image, numbers).count == 4);
    CHECK(ask_count(image, texts).count == 3);
}

static void check_number_keys(lent image)
{
    uint8_t key[16] = {0};
    for (size_t len = 0; len <= sizeof key; len++) {
        uint32_t due = len == 8 ? 0 : MVSTORE_BAD_ARGUMENT;
        CHECK(ask_lookup(image, numbers, key, len).refusal == due);
        CHECK(ask_copy(image, numbers, key, len, 16).refusal == due);
    }
    mvstore_value v = ask_number(image, numbers, INT64_MIN); /* empty, not Absent */
    CHECK(v.found == 1 && v.len == 0 && v.at != 0);
    v = ask_number(image, numbers, -1);
    CHECK(v.found == 1 && at_place(image, v.at, v.len, "a", 1));
    v = ask_number(image, numbers, 0);
    CHECK(v.found == 1 && at_place(image, v.at, v.len, "bc", 2));
    v = ask_number(image, numbers, INT64_MAX);
    CHECK(v.found == 1 && at_place(image, v.at, v.len, "def", 3));
    v = ask_number(image, numbers, INT64_MIN + 1); /* Absent, not empty */
    CHECK(v.refusal == 0 && v.found == 0);
    v = ask_number(image, numbers, INT64_MAX - 1);
    CHECK(v.refusal == 0 && v.found == 0);
}

/* 01: "up to 1,024 and bytes 32 to 126". */
static void check_text_keys(lent image)
{
    uint8_t key[1025];
    memset(key, '~', sizeof key);
    mvstore_value v = ask_lookup(image, texts, "", 0);
    CHECK(v.found == 1 && at_place(image, v.at, v.len, "a", 1));
    v = ask_lookup(image, texts, " ", 1);
    CHECK(v.found == 1 && v.len == 0);
    v = ask_lookup(image, texts, key, 1);
    CHECK(v.refusal == 0 && v.found == 0);
    v = ask_lookup(image, texts, key, 1024);
    CHECK(v.found == 1 && at_place(image, v.at, v.len, "def", 3));
    CHECK(ask_lookup(image, texts, key, 1025).refusal == MVSTORE_BAD_ARGUMENT);
    CHECK(ask_copy(image, texts, key, 1025, 16).refusal == MVSTORE_BAD_ARGUMENT);
    for (int byte = 0; byte < 256; byte++)
        for (size_t at = 0; at < 1024; at += 1023) { /* in front, and last */
            key[at] = (uint8_t)byte;
            uint32_t due = byte >= 32 && byte <= 126 ? 0 : MVSTORE_BAD_ARGUMENT;
            CHECK(ask_lookup(image, texts, key, at + 1).refusal == due);
            CHECK(ask_copy(image, texts, key, at + 1, 16).refusal == due);
            CHECK(ask_lookup(image, texts, key, 1024).refusal == due);
            key[at] = '~';
        }
}

/* What a name of 1,000 x is refused with, one byte changed. */
static uint32_t name_due(size_t at, int byte)
{
    if (byte < 32 || byte > 126)
        return MVSTORE_BAD_ARGUMENT;
    if (at == 0 && byte >= '5' && byte <= ';')
        return (uint32_t)(byte - '0');
    return byte == 'x' ? 0 : MVSTORE_NO_SUCH_NAME;
}

/* 01: "map name not 1 to 1,000 bytes of 32 to 126". */
static void check_names(lent image)
{
    uint8_t name[1001];
    memset(name, 'x', sizeof name);
    CHECK(ask_map(image, "f", 1).id == 1);
    CHECK(ask_map(image, name, 1000).id == 2);
    CHECK(ask_map(image, "g", 1).id == LARGEST_ID);
    CHECK(ask_map(image, "h", 1).refusal == MVSTORE_NOT_A_NUMBER);
    CHECK(ask_map(image, "i", 1).refusal == MVSTORE_NOT_A_NUMBER);
    CHECK(ask_map(image, "", 0).refusal == MVSTORE_BAD_ARGUMENT);
    CHECK(ask_map(image, name, 1).refusal == MVSTORE_NO_SUCH_NAME);
    CHECK(ask_map(image, name, 999).refusal == MVSTORE_NO_SUCH_NAME);
    CHECK(ask_map(image, name, 1001).refusal == MVSTORE_BAD_ARGUMENT);
    for (int byte = 0; byte < 256; byte++)
        for (size_t at = 0; at < 1000; at += 999) {
            name[at] = (uint8_t)byte;
            CHECK(ask_map(image, name, 1000).refusal == name_due(at, byte));
            name[at] = 'x';
        }
}

static void check_indexes(lent image)
{
    char longest[1024];
    memset(longest, '~', sizeof longest);
    const int64_t due[] = {INT64_MIN, -1, 0, INT64_MAX};
    for (uint64_t i = 0; i < 4; i++) {
        mvstore_entry e = ask_index(image, numbers, i);
        CHECK(e.refusal == 0 && e.number == due[i] && e.len == i && e.at != 0);
    }
    mvstore_entry e = ask_index(image, texts, 0);
    CHECK(e.refusal == 0 && e.key_len == 0 && e.key_at != 0 && e.len == 1);
    e = ask_index(image, texts, 2);
    CHECK(e.refusal == 0 && at_place(image, e.key_at, e.key_len, longest, sizeof longest));
    e = ask_index(image, metadata, 1); /* entry 0 stands in chunk 2 */
    CHECK(e.refusal == 0 && at_place(image, e.key_at, e.key_len, "chunk.4", 7));
    CHECK(ask_index(image, metadata, 0).refusal == MVSTORE_NINTH_QUESTION);
    e = ask_index(image, metadata, SMALL_COUNT - 1);
    CHECK(e.refusal == 0 && at_place(image, e.key_at, e.key_len, "root.e", 6));
    CHECK(ask_index(image, metadata, SMALL_COUNT).refusal == MVSTORE_BAD_INDEX);
    const uint64_t past[] = {4, 0x100000000, (uint64_t)1 << 63, UINT64_MAX};
    for (size_t i = 0; i < 4; i++) {
        CHECK(ask_index(image, numbers, past[i]).refusal == MVSTORE_BAD_INDEX);
        CHECK(ask_index(image, texts, past[i]).refusal == MVSTORE_BAD_INDEX);
    }
}

/* Areas of 0 to 4 bytes for a value of 3, and an empty value into no area. */
static void check_areas(lent image)
{
    uint8_t key[8];
    number_key(INT64_MAX, key);
    for (size_t room = 0; room <= 4; room++) {
        mvstore_value v = ask_copy(image, numbers, key, 8, room);
        CHECK(room < 3 ? v.refusal == MVSTORE_AREA_TOO_SMALL : v.found == 1 && v.len == 3);
    }
    number_key(INT64_MIN, key);
    mvstore_value v = ask_copy(image, numbers, key, 8, 0);
    CHECK(v.refusal == 0 && v.found == 1 && v.len == 0);
    v = mvstore_copy(image.bytes, image.len, ask_view(), 1, MVSTORE_NUMBER, key, 8, NULL, 0);
    CHECK(v.refusal == 0 && v.found == 1 && v.len == 0);
    number_key(5, key);
    v = mvstore_copy(image.bytes, image.len, ask_view(), 1, MVSTORE_NUMBER, key, 8, NULL, 0);
    CHECK(v.refusal == 0 && v.found == 0);
    number_key(0, key);
    v = mvstore_copy(image.bytes, image.len, ask_view(), 1, MVSTORE_NUMBER, key, 8, NULL, 0);
    CHECK(v.refusal == MVSTORE_AREA_TOO_SMALL);
}

/* The maps and names of small.h that are refused with their own number. */
static void check_own_numbers(lent image)
{
    for (uint32_t n = MVSTORE_NOT_LOCATED; n <= MVSTORE_TOO_DEEP; n++) {
        char name = (char)('0' + n);
        CHECK(ask_map(image, &name, 1).refusal == n);
        for (uint64_t kind = 0; kind <= 1 && n < MVSTORE_TOO_DEEP; kind++)
            ask_refused(image, (asked_map){n, kind}, n);
    }
    ask_refused(image, (asked_map){MVSTORE_NOT_A_NUMBER, MVSTORE_NUMBER}, MVSTORE_NOT_A_NUMBER);
    ask_refused(image, (asked_map){MVSTORE_NOT_A_NUMBER, MVSTORE_TEXT}, MVSTORE_NOT_A_NUMBER);
}

/* 01: "the child numbered by how many leading keys, up to the first greater one, are not greater",
 * and at a leaf "the first equal key that comes before any greater one". */
static void check_unsorted(lent image)
{
    const asked_map unsorted = {3, MVSTORE_NUMBER};
    mvstore_value v = ask_number(image, unsorted, 5);
    CHECK(v.found == 1 && at_place(image, v.at, v.len, "yes", 3));
    v = ask_number(image, unsorted, 7);
    CHECK(v.refusal == 0 && v.found == 0);
    CHECK(ask_number(image, unsorted, 0).refusal == MVSTORE_OUT_OF_PLACE);
    CHECK(ask_number(image, unsorted, 9).refusal == MVSTORE_OUT_OF_PLACE);
    CHECK(ask_index(image, unsorted, 7).number == 7);
    CHECK(ask_count(image, unsorted).count == 16);
}

/* Map 11 is one page, its own child: only its count is not 17 pages down. */
static void check_depth(lent image)
{
    const asked_map endless = {MVSTORE_TOO_DEEP, MVSTORE_TEXT};
    CHECK(ask_lookup(image, endless, "", 0).refusal == MVSTORE_TOO_DEEP);
    CHECK(ask_lookup(image, endless, "z", 1).refusal == MVSTORE_TOO_DEEP);
    CHECK(ask_copy(image, endless, "", 0, 16).refusal == MVSTORE_TOO_DEEP);
    CHECK(ask_index(image, endless, 0).refusal == MVSTORE_TOO_DEEP);
    CHECK(ask_index(image, endless, 2).refusal == MVSTORE_BAD_INDEX);
    CHECK(ask_count(image, endless).count == 2);
}

static void check_texts_of_refusals(void)
{
    CHECK(strcmp(mvstore_refusal_text(0), "an answer") == 0);
    CHECK(strcmp(mvstore_refusal_text(17), "an unknown refusal") == 0);
    CHECK(strcmp(mvstore_refusal_text(UINT32_MAX), "an unknown refusal") == 0);
    for (uint32_t i = 0; i <= MVSTORE_AREA_TOO_SMALL; i++)
        for (uint32_t k = i + 1; k <= MVSTORE_AREA_TOO_SMALL + 1; k++)
            CHECK(strcmp(mvstore_refusal_text(i), mvstore_refusal_text(k)) != 0);
}

static void check_small(uint64_t edition, const char *about)
{
    lent image = small_store(edition);
    check_about(about);
    ask_in(edition);
    check_map_and_kind(image);
    check_number_keys(image);
    check_text_keys(image);
    check_names(image);
    check_indexes(image);
    check_areas(image);
    check_own_numbers(image);
    check_unsorted(image);
    check_depth(image);
    walks_check_small(image);
    images_check(image);
    editions_check_other(image);
    lent_free(&image);
}

static void check_store(uint64_t edition, const char *store, const char *dumped)
{
    lent image = lent_file(store);
    dump d = dump_read(dumped);
    lent_seal(&image);
    check_about(store);
    ask_in(edition);
    editions_check_other(image);
    images_check_newest(image, &d);
    contents_check(image, &d);
    walks_check(image, &d);
    dump_free(&d);
    lent_free(&image);
}

int main(int argc, char **argv)
{
    if (argc % 3 != 1)
        return fprintf(stderr, "usage: exports [EDITION STORE DUMP]...\n"), 2;
    check_about("the header");
    check_texts_of_refusals();
    check_small(MVSTORE_EDITION_1, "the small store, edition 1");
    check_small(MVSTORE_EDITION_2, "the small store, edition 2");
    editions_check();
    for (int i = 1; i < argc; i += 3)
        check_store(strtoull(argv[i], NULL, 10), argv[i + 1], argv[i + 2]);
    return check_status("exports");
}
