#include "claims.h"

#include <inttypes.h>
#include <stdio.h>
#include <string.h>

#include "check.h"

static const asked_map metadata = {0, MVSTORE_TEXT};

static int printable(const uint8_t *bytes, size_t len)
{
    for (size_t i = 0; i < len; i++)
        if (bytes[i] < 32 || bytes[i] > 126)
            return 0;
    return 1;
}

/* 01: "1 to 16 digits 0-9a-f with no leading zero unless the value is `0`". */
static int hex(lent image, mvstore_value v, uint64_t *number)
{
    static const char all[] = "0123456789abcdef";
    const uint8_t *digits = image.bytes + v.at;
    *number = 0;
    if (v.len < 1 || v.len > 16 || (v.len > 1 && digits[0] == '0'))
        return 0;
    for (uint64_t i = 0; i < v.len; i++) {
        const char *digit = memchr(all, digits[i], 16);
        if (digit == NULL)
            return 0;
        *number = *number << 4 | (uint64_t)(digit - all);
    }
    return 1;
}

static void claim_name(lent image, const question *q, mvstore_id id)
{
    uint8_t key[5 + KEYS] = "name.";
    uint64_t number;
    if (q->name_len < 1 || q->name_len > 1000 || !printable(q->name, q->name_len)) {
        CHECK(id.refusal == MVSTORE_BAD_ARGUMENT);
        return;
    }
    memcpy(key + 5, q->name, q->name_len);
    mvstore_value v = ask_lookup(image, metadata, key, 5 + q->name_len);
    if (v.refusal != 0)
        CHECK(id.refusal == v.refusal);
    else if (v.found == 0)
        CHECK(id.refusal == MVSTORE_NO_SUCH_NAME);
    else if (hex(image, v, &number) && number >= 1 && number <= 0x7fffffff)
        CHECK(id.refusal == 0 && id.id == number);
    else
        CHECK(id.refusal == MVSTORE_NOT_A_NUMBER);
}

static int bad_arguments(const question *q)
{
    return !question_edition_good(q) || q->kind > 1 || q->map > 0x7fffffff
           || (q->map == 0 && q->kind == 0);
}

/* The map's root, and what is refused before it is read. */
static void claim_root(lent image, const question *q, mvstore_count_of c)
{
    char key[32];
    uint64_t root;
    CHECK(!bad_arguments(q) || c.refusal == MVSTORE_BAD_ARGUMENT);
    CHECK(bad_arguments(q) || c.refusal != MVSTORE_BAD_ARGUMENT);
    if (bad_arguments(q) || q->map == 0)
        return;
    int len = snprintf(key, sizeof key, "root.%" PRIx64, q->map);
    mvstore_value v = ask_lookup(image, metadata, key, (size_t)len);
    if (v.refusal != 0)
        CHECK(c.refusal == v.refusal);
    else if (v.found == 0)
        CHECK(c.refusal == 0 && c.count == 0);
    else if (!hex(image, v, &root))
        CHECK(c.refusal == MVSTORE_NOT_A_NUMBER);
    else if (root == 0)
        CHECK(c.refusal == 0 && c.count == 0);
    else
        CHECK(c.refusal != MVSTORE_NOT_A_NUMBER);
}

/* Each call judges the root as count does; a bad key comes first. */
static void claim_order(const question *q, const answers *a)
{
    uint32_t refusal = a->count.refusal;
    if (refusal != 0) {
        CHECK(a->entry.refusal == refusal);
        CHECK(a->fresh.refusal == refusal);
        CHECK(a->report.refusal == refusal);
    }
    CHECK(refusal != 0 || q->index < a->count.count || a->entry.refusal == MVSTORE_BAD_INDEX);
    if (!question_key_good(q))
        CHECK(a->value.refusal == MVSTORE_BAD_ARGUMENT);
    else if (refusal != 0)
        CHECK(a->value.refusal == refusal);
    else
        CHECK(a->value.refusal != MVSTORE_BAD_ARGUMENT);
}

static void claim_copy(const question *q, const answers *a)
{
    const mvstore_value v = a->value, c = a->copied;
    if (v.refusal == 0 && v.len > q->room) {
        CHECK(c.refusal == MVSTORE_AREA_TOO_SMALL);
        return;
    }
    CHECK(c.refusal == v.refusal && c.found == v.found && c.at == v.at && c.len == v.len);
}

/* A step of the walk; its end, whatever it is, comes again. */
static int goes_on(lent image, asked_map m, mvstore_step *s)
{
    mvstore_step before = *s;
    if (s->refusal == 0 && s->done == 0) {
        *s = ask_next(image, m, s->walk);
        return 1;
    }
    *s = ask_next(image, m, s->walk);
    CHECK(steps_same(s, &before));
    return 0;
}

/* "Arguments come first, then opening, then the map." */
static void claim_opening(const question *q, const answers *a)
{
    uint32_t refusal = a->newest.refusal;
    if (bad_arguments(q))
        return;
    CHECK(refusal == 0 || (a->count.refusal == refusal && a->report.refusal == refusal));
    CHECK(refusal != 0 || a->count.refusal == 0 || a->count.refusal > MVSTORE_NO_START);
}

/* A text of even length has the same sum in both. So both may open the image at one chunk; another
 * may stand in one of them only, and where it stands it says the same. */
void claims_other_edition(lent image, const question *q, const answers *a)
{
    static question other;
    if (!question_edition_good(q) || a->newest.refusal != 0)
        return;
    other = *q;
    other.edition = MVSTORE_EDITION_1 + MVSTORE_EDITION_2 - q->edition;
    ask_in(other.edition);
    mvstore_chunk newest = ask_newest(image);
    if (newest.refusal == 0 && newest.block == a->newest.block) {
        answers b = answers_to(image, &other);
        CHECK(answers_agree(a, &b));
    }
    ask_in(q->edition);
}

void claims_any(lent image, const question *q, const answers *a)
{
    const asked_map m = {q->map, q->kind};
    mvstore_step s = a->step;
    claim_name(image, q, a->id);
    claim_opening(q, a);
    claim_root(image, q, a->count);
    claim_order(q, a);
    claim_copy(q, a);
    for (int i = 0; i < STEPS && goes_on(image, m, &s); i++)
        ;
}
