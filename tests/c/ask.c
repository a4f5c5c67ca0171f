#include "ask.h"

#include <string.h>

#include "check.h"
#include "number.h"

/* What an area holds before a copy. */
#define FILL 0xa5
#define BLOCK ((size_t)4096)

/* What each call can give, as mvstore.h says above it: bit n is refusal n, bit 0 an answer. */
#define BIT(n) (UINT32_C(1) << (n))
enum {
    of_newest = (BIT(MVSTORE_NO_START + 1) - 1) ^ BIT(MVSTORE_BAD_ARGUMENT),
    of_lookup = (BIT(MVSTORE_TOO_DEEP + 1) - 1) | BIT(MVSTORE_NOT_A_NUMBER),
    of_map = of_lookup | BIT(MVSTORE_NO_SUCH_NAME),
    of_copy = of_lookup | BIT(MVSTORE_AREA_TOO_SMALL),
    of_index = of_lookup | BIT(MVSTORE_BAD_INDEX),
    of_count = of_lookup,
    of_next = of_lookup | BIT(MVSTORE_UNSOUND),
    of_examine = of_next
};

static uint64_t edition = MVSTORE_EDITION_1;

void ask_in(uint64_t asked)
{
    edition = asked;
}

mvstore_view ask_view(void)
{
    return mvstore_view_of(edition);
}

static int gives(uint32_t call, uint32_t refusal)
{
    if (edition != MVSTORE_EDITION_1 && edition != MVSTORE_EDITION_2)
        return refusal == MVSTORE_BAD_ARGUMENT;
    return refusal <= MVSTORE_AREA_TOO_SMALL && (call & BIT(refusal)) != 0;
}

/* The image is its whole blocks: a last part block is ignored. */
static int inside(lent image, uint64_t at, uint64_t len)
{
    size_t end = image.len - image.len % BLOCK;
    return at <= end && len <= end - at;
}

int at_place(lent image, uint64_t at, uint64_t len, const void *bytes, size_t due)
{
    return len == due && inside(image, at, len) && memcmp(image.bytes + at, bytes, due) == 0;
}

static void claim_value(lent image, mvstore_value v, uint32_t call)
{
    CHECK(gives(call, v.refusal));
    CHECK(v.found <= 1);
    CHECK(v.refusal == 0 || v.found == 0);
    CHECK(v.found == 1 || (v.at == 0 && v.len == 0));
    CHECK(inside(image, v.at, v.len));
}

static lent sealed(const void *bytes, size_t len)
{
    lent l = lent_copy(bytes, len);
    lent_seal(&l);
    return l;
}

mvstore_chunk ask_newest(lent image)
{
    mvstore_chunk c = mvstore_newest(image.bytes, image.len, ask_view());
    int refused = c.refusal != 0;
    CHECK(gives(of_newest, c.refusal));
    CHECK(!refused || (c.chunk == 0 && c.block == 0 && c.blocks == 0 && c.version == 0));
    CHECK(refused || (c.chunk < 1 << 26 && c.block >= 2 && c.blocks >= 1));
    CHECK(refused || (uint64_t)c.block + c.blocks <= image.len / 4096);
    return c;
}

mvstore_id ask_map(lent image, const void *name, size_t len)
{
    lent n = sealed(name, len);
    mvstore_id id = mvstore_map(image.bytes, image.len, ask_view(), n.bytes, n.len);
    lent_free(&n);
    CHECK(gives(of_map, id.refusal));
    CHECK(id.refusal != 0 ? id.id == 0 : id.id >= 1 && id.id <= 0x7fffffff);
    return id;
}

mvstore_value ask_lookup(lent image, asked_map m, const void *key, size_t len)
{
    lent k = sealed(key, len);
    mvstore_value v =
        mvstore_lookup(image.bytes, image.len, ask_view(), m.id, m.kind, k.bytes, k.len);
    lent_free(&k);
    claim_value(image, v, of_lookup);
    return v;
}

mvstore_value ask_number(lent image, asked_map m, int64_t number)
{
    uint8_t key[8];
    number_key(number, key);
    return ask_lookup(image, m, key, sizeof key);
}

static int kept(const uint8_t *bytes, size_t len)
{
    size_t i = 0;
    while (i < len && bytes[i] == FILL)
        i++;
    return i == len;
}

mvstore_value ask_copy(lent image, asked_map m, const void *key, size_t len, size_t room)
{
    lent k = sealed(key, len), area = lent_zeros(room);
    if (room != 0)
        memset(area.bytes, FILL, room);
    mvstore_value v = mvstore_copy(image.bytes, image.len, ask_view(), m.id, m.kind, k.bytes, k.len,
                                   area.bytes, area.len);
    claim_value(image, v, of_copy);
    CHECK(v.len <= room);
    if (v.len <= room) {
        CHECK(v.len == 0 || memcmp(area.bytes, image.bytes + v.at, v.len) == 0);
        CHECK(kept(area.bytes + v.len, room - v.len));
    }
    lent_free(&k);
    lent_free(&area);
    return v;
}

mvstore_entry ask_index(lent image, asked_map m, uint64_t index)
{
    mvstore_entry e = mvstore_index(image.bytes, image.len, ask_view(), m.id, m.kind, index);
    CHECK(gives(of_index, e.refusal));
    CHECK(e.refusal == 0 || (e.number == 0 && e.at == 0 && e.len == 0));
    CHECK(e.refusal == 0 || (e.key_at == 0 && e.key_len == 0));
    CHECK(m.kind == MVSTORE_NUMBER ? e.key_at == 0 && e.key_len == 0 : e.number == 0);
    CHECK(inside(image, e.key_at, e.key_len) && inside(image, e.at, e.len));
    return e;
}

mvstore_count_of ask_count(lent image, asked_map m)
{
    mvstore_count_of c = mvstore_count(image.bytes, image.len, ask_view(), m.id, m.kind);
    CHECK(gives(of_count, c.refusal));
    CHECK(c.refusal == 0 || c.count == 0);
    return c;
}

/* Going on: so many places as the depth says, and zeros. */
static int goes_on(mvstore_walk w)
{
    uint32_t rest = 0;
    for (uint32_t i = w.depth; i < 16; i++)
        rest |= w.places[i];
    return w.last == 0 && w.depth >= 1 && w.depth <= 16 && rest == 0;
}

static int recorded(mvstore_walk w)
{
    return w.last == MVSTORE_DONE || (w.last >= 1 && w.last <= MVSTORE_AREA_TOO_SMALL);
}

/* Whatever is recorded, another call's refusal too, the state unchanged. */
static int given_again(mvstore_walk w, mvstore_step s)
{
    return (w.last == MVSTORE_DONE ? s.done == 1 : s.refusal == w.last)
           && memcmp(&w, &s.walk, sizeof w) == 0;
}

mvstore_step ask_next(lent image, asked_map m, mvstore_walk walk)
{
    mvstore_step s = mvstore_next(image.bytes, image.len, ask_view(), m.id, m.kind, walk);
    int entry = s.refusal == 0 && s.done == 0;
    CHECK(recorded(walk) ? given_again(walk, s) : gives(of_next, s.refusal));
    CHECK(s.done <= 1 && (s.refusal == 0 || s.done == 0));
    CHECK(entry || (s.number == 0 && s.at == 0 && s.len == 0));
    CHECK(entry || (s.key_at == 0 && s.key_len == 0));
    CHECK(m.kind == MVSTORE_NUMBER ? s.key_at == 0 && s.key_len == 0 : s.number == 0);
    CHECK(inside(image, s.key_at, s.key_len) && inside(image, s.at, s.len));
    CHECK(entry ? goes_on(s.walk) : s.walk.last == (s.done == 1 ? MVSTORE_DONE : s.refusal));
    return s;
}

mvstore_report ask_examine(lent image, asked_map m)
{
    mvstore_report r = mvstore_examine(image.bytes, image.len, ask_view(), m.id, m.kind);
    CHECK(gives(of_examine, r.refusal));
    CHECK(r.refusal == 0 || (r.depth == 0 && r.entries == 0 && r.pages == 0));
    CHECK(r.depth <= 16 && r.depth <= r.pages);
    return r;
}

void ask_refused(lent image, asked_map m, uint32_t refusal)
{
    uint8_t key[8] = {0};
    size_t len = m.kind % 2 == 0 ? 8 : 0; /* good, were a kind cut to its low bits */
    CHECK(ask_lookup(image, m, key, len).refusal == refusal);
    CHECK(ask_copy(image, m, key, len, 16).refusal == refusal);
    CHECK(ask_index(image, m, 0).refusal == refusal);
    CHECK(ask_count(image, m).refusal == refusal);
    CHECK(ask_next(image, m, (mvstore_walk){0}).refusal == refusal);
    CHECK(ask_examine(image, m).refusal == refusal);
}
