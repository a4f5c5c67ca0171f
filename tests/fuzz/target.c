/* target.c - the exports on any image and any question, for a fuzzer.
 *
 * An input is a question (question.h) and an image. Every export is asked, twice
 * and of two copies that can't be written, and what mvstore.h promises of the
 * answers is claimed; a claim that is false aborts.
 */
#include <stdio.h>
#include <stdlib.h>

#include "answers.h"
#include "check.h"
#include "claims.h"
#include "mend.h"

#define BLOCK ((size_t)4096)

int LLVMFuzzerTestOneInput(const uint8_t *data, size_t size);

/* The archive isn't compiled for a fuzzer, which sees nothing of what runs in it. It sees these
 * counters: libFuzzer looks for them in the section of this name. */
enum { calls = 9, numbers = 24, sizes = 32 };
static uint8_t given[calls][numbers] __attribute__((section("__libfuzzer_extra_counters")));
static uint8_t grown[4][sizes] __attribute__((section("__libfuzzer_extra_counters")));

void check(int holds, const char *claim, const char *file, int line)
{
    if (holds)
        return;
    fprintf(stderr, "%s:%d: not so: %s\n", file, line, claim);
    abort();
}

static uint8_t *size_of(int which, uint64_t number)
{
    unsigned bits = 0;
    for (; number != 0 && bits < sizes - 1; number >>= 1)
        bits++;
    return &grown[which][bits];
}

/* Which number each call gave, and how large what it found is. */
static void show(const answers *a)
{
    const uint32_t refusals[calls] = {a->id.refusal,    a->value.refusal, a->copied.refusal,
                                      a->entry.refusal, a->count.refusal, a->fresh.refusal,
                                      a->step.refusal,  a->report.refusal, a->newest.refusal};
    for (int i = 0; i < calls; i++)
        given[i][refusals[i]]++;
    given[1][numbers - 1] = (uint8_t)a->value.found;
    given[5][numbers - 1] = (uint8_t)a->fresh.done;
    given[6][numbers - 1] = (uint8_t)a->step.done;
    ++*size_of(0, a->report.entries);
    ++*size_of(1, a->report.pages);
    ++*size_of(2, a->report.depth);
    ++*size_of(3, a->count.count);
}

static lent sealed(const uint8_t *bytes, size_t len, unsigned mend, uint64_t edition)
{
    lent image = lent_copy(bytes, len);
    if ((mend & MEND_PAGES) != 0)
        mend_pages(image.bytes, image.len);
    if ((mend & MEND_LINES) != 0)
        mend_lines(image.bytes, image.len, edition);
    if ((mend & MEND_SUMS) != 0)
        mend_sums(image.bytes, image.len, edition);
    lent_seal(&image);
    return image;
}

int LLVMFuzzerTestOneInput(const uint8_t *data, size_t size)
{
    static question q;
    question_read(data, size, &q);
    size_t head = size < QUESTION ? size : QUESTION;
    lent image = sealed(data + head, size - head, q.mend, q.edition);
    answers a = answers_to(image, &q);
    /* A last part block is ignored; and the answers depend on no address. */
    lent whole = sealed(image.bytes, image.len - image.len % BLOCK, 0, q.edition);
    answers again = answers_to(whole, &q);
    CHECK(answers_same(&a, &again));
    claims_other_edition(image, &q, &a);
    claims_any(image, &q, &a);
    if (a.report.refusal == 0)
        claims_passed(image, &q, &a);
    show(&a);
    lent_free(&image);
    lent_free(&whole);
    return 0;
}
