/* mvstore.h - reads H2 MVStore files, format 1. Version 0.2.0.
 *
 * A structural engineer signs what is drawn from these answers, so the library
 * behind this header is proved: every call ends, for whatever bytes the file
 * holds and whatever is asked, with the answer that the scope document defines
 * or with one numbered refusal, and it only reads.
 *
 * CONVENTIONS
 *
 * 1. The image. The caller lends the whole file as it stands on disk, as a
 *    pointer and a length in bytes: mapped with mmap(2), or read into memory.
 *    It is lent for the call alone and only read. It must not change while a
 *    call runs. A last part block (fewer than 4,096 bytes) is ignored.
 *
 * 2. No state. Nothing is allocated, kept or global; there is no handle and
 *    nothing to close. Each call opens the image itself, so what it answers
 *    depends on its arguments alone, and calls may run at the same time in
 *    several threads, on the same image too. A call uses less than 96 KiB
 *    of stack and no heap, so a thread that is made with 128 KiB can make it.
 *    Every call ends, but an image that was made for it can hold one up for
 *    minutes: who takes files from strangers asks under a time limit.
 *
 * 3. Answers come back by value. `refusal` is 0 where there is an answer; then
 *    the other members hold it. Otherwise `refusal` is one of the numbers below
 *    and every other member is 0, but for a step's `walk`, which keeps its
 *    places and depth and records the refusal.
 *
 * 4. Places are byte offsets from the image's first byte. A place and a length
 *    stay valid as long as the image itself: `image + answer.at` is the value.
 *    They always lie inside the image.
 *
 * 5. Arguments are judged, whatever they are. Numbers are 64 bits wide, so
 *    nothing is cut on the way in. A null pointer may be passed with length 0.
 *    A pointer with a length that is not 0 must point to that many bytes.
 *
 * 6. Keys. Kind 0 (MVSTORE_NUMBER) is a signed 64-bit number, given as its 8
 *    bytes, high byte first, and handed back as a number. Kind 1 (MVSTORE_TEXT)
 *    is up to 1,024 bytes of 32 to 126, handed back by place and length.
 *
 * 7. The view. Every call that opens the image takes, right after it, how to
 *    open it: in which of two editions the sums in the file's lines were
 *    written. Files as H2 1.4.197 writes them are edition 2. A view that was
 *    forgotten is all zeros and refused with 1: no edition is guessed. A text
 *    of even length has one sum in both, so an image can open in either, even
 *    at different chunks: who doesn't know asks mvstore_newest in both.
 *
 * 8. Names. Only names that begin with mvstore_ or MVSTORE_ are defined. Later
 *    versions may add members at the end of a struct: compile against the
 *    header of the archive that you link. A view made by mvstore_view_of keeps
 *    its meaning then.
 */
#ifndef MVSTORE_H
#define MVSTORE_H

#include <stddef.h>
#include <stdint.h>

#ifdef __cplusplus
extern "C" {
#endif

/* The version of this header, as text and for #if. */
#define MVSTORE_VERSION "0.2.0"
#define MVSTORE_VERSION_MAJOR 0
#define MVSTORE_VERSION_MINOR 2
#define MVSTORE_VERSION_PATCH 0

/* The two kinds of key. */
#define MVSTORE_NUMBER 0
#define MVSTORE_TEXT 1

/* The two editions. A sum takes a text's bytes in words of two; where a text
 * has an odd last byte, edition 1 doesn't count it, and edition 2 takes it as
 * the high half of a word whose low half is 0. Every line with a sum, in file
 * headers and footers, is judged by the one edition that is named. */
#define MVSTORE_EDITION_1 1
#define MVSTORE_EDITION_2 2

/* How an image is opened. */
typedef struct mvstore_view {
    uint64_t edition; /* MVSTORE_EDITION_1 or MVSTORE_EDITION_2 */
} mvstore_view;

/* mvstore_view_of: the view of an edition, in C and in C++. */
static inline mvstore_view mvstore_view_of(uint64_t edition)
{
    mvstore_view view = {edition};
    return view;
}

/* REFUSALS. Each in its stated case and in no other; arguments are judged
 * first, then the image is opened, then the map is asked. */

/* An edition other than 1 or 2, a kind other than 0 or 1, map 0 with kind 0, a
 * map id above 2^31-1, a badly formed key, or a map name that is not 1 to 1,000
 * bytes of 32 to 126. */
#define MVSTORE_BAD_ARGUMENT 1
/* The image has fewer than 3 blocks of 4,096 bytes, or more than 268,435,456. */
#define MVSTORE_BAD_IMAGE_SIZE 2
/* Neither file header is good in the view's edition. */
#define MVSTORE_NO_HEADER 3
/* Neither the chunk that the file header names, with its id, stands, nor the
 * one that the image's last footer names, ending where the image ends. */
#define MVSTORE_NO_START 4
/* A chunk that is needed has no metadata entry, an unusable one, or does not
 * stand where it says. */
#define MVSTORE_NOT_LOCATED 5
/* Locating a chunk would take a ninth question while eight are open. */
#define MVSTORE_NINTH_QUESTION 6
/* A child at position 0, or a page whose offset or length is out of place. */
#define MVSTORE_OUT_OF_PLACE 7
/* A page's check value is wrong. */
#define MVSTORE_BAD_CHECK_VALUE 8
/* A page of another map or type than the one due. */
#define MVSTORE_OTHER_MAP_OR_TYPE 9
/* A page's contents cannot be read. */
#define MVSTORE_BAD_CONTENTS 10
/* A page at depth 17, the root being at 1. */
#define MVSTORE_TOO_DEEP 11
/* The map is unsound (examination, walk). */
#define MVSTORE_UNSOUND 12
/* There is no map of this name. */
#define MVSTORE_NO_SUCH_NAME 13
/* The metadata's id or root is not a number as it must be. */
#define MVSTORE_NOT_A_NUMBER 14
/* The index is not below the root's count, or what is left of it on the way
 * down not below that of a page there. An inner page's count is the sum of the
 * counts that it records, whatever entries there are. */
#define MVSTORE_BAD_INDEX 15
/* The copy area is smaller than the value. */
#define MVSTORE_AREA_TOO_SMALL 16

/* The newest chunk: its id and version, its first block and how many blocks of
 * 4,096 bytes it has. */
typedef struct mvstore_chunk {
    uint32_t refusal;
    uint32_t chunk;
    uint32_t block;
    uint32_t blocks;
    uint64_t version;
} mvstore_chunk;

/* A value. `found` is 1 for a value, which may be empty, and 0 where the map
 * has no such key (Absent): three different things, with a refusal. */
typedef struct mvstore_value {
    uint32_t refusal;
    uint32_t found;
    uint64_t at;  /* where the value begins */
    uint64_t len; /* its length in bytes */
} mvstore_value;

/* An entry. A number key is `number`, and key_at and key_len are 0; a text key
 * is key_len bytes at key_at, and `number` is 0. */
typedef struct mvstore_entry {
    uint32_t refusal;
    int64_t number;
    uint64_t key_at;
    uint64_t key_len;
    uint64_t at;
    uint64_t len;
} mvstore_entry;

typedef struct mvstore_count_of {
    uint32_t refusal;
    uint64_t count;
} mvstore_count_of;

typedef struct mvstore_id {
    uint32_t refusal;
    uint64_t id;
} mvstore_id;

/* The state of a walk. All zeros is the fresh state (`mvstore_walk w = {0};`):
 * its first step goes to the leftmost entry. Afterwards it is what the last
 * step handed back; any other state has an answer too. `last` is 0 while the
 * walk goes on, MVSTORE_DONE after the last entry, or a refusal's number. */
typedef struct mvstore_walk {
    uint32_t places[16];
    uint32_t depth;
    uint32_t last;
} mvstore_walk;

#define MVSTORE_DONE 255

/* A step of the walk: an entry as in mvstore_entry, or `done` is 1. `walk` is
 * the state to hand to the next step, after a refusal too. */
typedef struct mvstore_step {
    uint32_t refusal;
    uint32_t done;
    int64_t number;
    uint64_t key_at;
    uint64_t key_len;
    uint64_t at;
    uint64_t len;
    mvstore_walk walk;
} mvstore_step;

/* What the examination reports; the root is at depth 1, and all is 0 for the
 * empty map. */
typedef struct mvstore_report {
    uint32_t refusal;
    uint32_t depth;
    uint64_t entries;
    uint64_t pages;
} mvstore_report;

/* mvstore_newest: the chunk that the image opens at. Every other call opens the
 * image in the same way. Refuses with 1 to 4. */
mvstore_chunk mvstore_newest(const uint8_t *image, size_t image_len,
                             mvstore_view view);

/* mvstore_map: the id of the map with this name.
 * Refuses with 1 to 11, 13 and 14. */
mvstore_id mvstore_map(const uint8_t *image, size_t image_len,
                       mvstore_view view, const uint8_t *name, size_t name_len);

/* mvstore_lookup: the value of a key.
 * An answer is defined on any pages, sorted or not: at an inner page the child
 * in front of the first greater separator, or the last child, at a leaf the
 * first equal key before any greater one. Refuses with 1 to 11 and 14. */
mvstore_value mvstore_lookup(const uint8_t *image, size_t image_len,
                             mvstore_view view, uint64_t map, uint64_t kind,
                             const uint8_t *key, size_t key_len);

/* mvstore_copy: a lookup that also writes the value at the start of `area`, and
 * nothing after it. On a refusal, and where the key is absent, the area keeps
 * the bytes it had. The area must not overlap the image or the key.
 * Refuses with 1 to 11, 14 and 16. */
mvstore_value mvstore_copy(const uint8_t *image, size_t image_len,
                           mvstore_view view, uint64_t map, uint64_t kind,
                           const uint8_t *key, size_t key_len,
                           uint8_t *area, size_t area_len);

/* mvstore_index: the entry numbered `index`, from 0, by the recorded counts.
 * Refuses with 1 to 11, 14 and 15. */
mvstore_entry mvstore_index(const uint8_t *image, size_t image_len,
                            mvstore_view view, uint64_t map, uint64_t kind,
                            uint64_t index);

/* mvstore_count: how many entries the map has, by its root page.
 * Refuses with 1 to 11 and 14. */
mvstore_count_of mvstore_count(const uint8_t *image, size_t image_len,
                               mvstore_view view, uint64_t map, uint64_t kind);

/* mvstore_next: one step of the walk of a map, entries from left to right. Done
 * and refusals are recorded in the state and given again at each later step,
 * whatever else is passed. Refuses with 1 to 12 and 14, and with any number of
 * 1 to 16 that the state records: 13, 15 and 16 too, which no step records. */
mvstore_step mvstore_next(const uint8_t *image, size_t image_len,
                          mvstore_view view, uint64_t map, uint64_t kind,
                          mvstore_walk walk);

/* mvstore_examine: reads the whole map and refuses at its first fault. If it
 * passes, then lookup of any well-formed key, every index, the count and the
 * walk agree with the entries in the map's leaves: this is proved. A key that
 * is then absent is not in the file. Refuses with 1 to 12 and 14. */
mvstore_report mvstore_examine(const uint8_t *image, size_t image_len,
                               mvstore_view view, uint64_t map, uint64_t kind);

/* mvstore_refusal_text: a refusal in words, "an answer" for 0, "an unknown
 * refusal" for a number that is not in the table. The text is constant. */
static inline const char *mvstore_refusal_text(uint32_t refusal)
{
    static const char *const text[] = {
        "an answer",
        "bad argument: edition, kind, map id, key or map name",
        "the image has too few or too many blocks",
        "no good file header",
        "no chunk stands where the headers say that the newest one starts",
        "a chunk that is needed cannot be located",
        "a ninth question would be open",
        "a page's position, offset or length is out of place",
        "a page's check value is wrong",
        "a page belongs to another map or has another type",
        "a page's contents cannot be read",
        "a page is deeper than 16 levels",
        "the map is unsound",
        "there is no map of this name",
        "the metadata's id or root is not a number",
        "the index is not below the recorded count",
        "the copy area is smaller than the value",
    };
    return refusal < sizeof text / sizeof *text ? text[refusal] : "an unknown refusal";
}

#ifdef __cplusplus
}
#endif

#endif
