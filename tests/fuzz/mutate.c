/* mutate.c - libFuzzer's changes, aimed.
 *
 * An image is whole blocks, mostly zeros and spaces. A byte that is put in or
 * taken out moves all that follows, a changed zero is seldom read, and a file
 * header that is not good ends everything. So most changes keep the length and
 * meet bytes of chunks that say something, or the question; and most have sums
 * and check values made right behind them.
 */
#include <string.h>

#include "question.h"

#define BLOCK ((size_t)4096)
#define CHUNKS (QUESTION + 2 * BLOCK)
#define TRIES 60
#define RUN 16 /* the most bytes that are copied at once */

size_t LLVMFuzzerMutate(uint8_t *data, size_t size, size_t max);
size_t LLVMFuzzerCustomMutator(uint8_t *data, size_t size, size_t max, unsigned seed);

static uint32_t below(uint64_t *random, size_t n)
{
    *random = *random * 6364136223846793005u + 1442695040888963407u;
    return (uint32_t)((*random >> 33) % n);
}

/* A place in the image, mostly of a byte that says something, behind the file headers. */
static size_t place(const uint8_t *data, size_t size, uint64_t *random)
{
    size_t at = QUESTION, first = below(random, 16) == 0 ? QUESTION : CHUNKS;
    if (first >= size)
        first = QUESTION;
    for (int i = 0; i < TRIES; i++) {
        at = first + below(random, size - first);
        if (data[at] != 0 && data[at] != ' ')
            return at;
    }
    return at;
}

static int is_digit(uint8_t byte)
{
    return (byte >= '0' && byte <= '9') || (byte >= 'a' && byte <= 'f');
}

/* A digit to another digit half of the time; one bit, one more, one less, or anything. */
static void change(uint8_t *byte, uint64_t *random)
{
    if (is_digit(*byte) && below(random, 2) == 0) {
        *byte = (uint8_t)"0123456789abcdef"[below(random, 16)];
        return;
    }
    switch (below(random, 4)) {
    case 0: *byte ^= (uint8_t)(1u << below(random, 8)); break;
    case 1: ++*byte; break;
    case 2: --*byte; break;
    default: *byte = (uint8_t)below(random, 256);
    }
}

static void copy_run(uint8_t *data, size_t size, uint64_t *random)
{
    size_t from = place(data, size, random), to = place(data, size, random);
    size_t room = size - (from > to ? from : to), len = 1 + below(random, RUN);
    memmove(data + to, data + from, len < room ? len : room);
}

/* A block over another, or a copy of it at the end. */
static size_t copy_block(uint8_t *data, size_t size, size_t max, uint64_t *random)
{
    size_t blocks = (size - QUESTION) / BLOCK;
    if (blocks == 0)
        return size;
    size_t from = QUESTION + below(random, blocks) * BLOCK;
    size_t to = QUESTION + below(random, blocks + 1) * BLOCK;
    if (to + BLOCK > max)
        return size;
    memmove(data + to, data + from, BLOCK);
    return to + BLOCK > size ? to + BLOCK : size;
}

static size_t change_question(uint8_t *data, size_t size)
{
    uint8_t head[QUESTION];
    memcpy(head, data, QUESTION);
    size_t len = LLVMFuzzerMutate(head, QUESTION, QUESTION);
    memcpy(data, head, len);
    return size;
}

size_t LLVMFuzzerCustomMutator(uint8_t *data, size_t size, size_t max, unsigned seed)
{
    uint64_t random = seed;
    uint32_t way = below(&random, 16);
    if (size <= QUESTION || way == 0)
        return LLVMFuzzerMutate(data, size, max);
    if (way <= 4)
        return change_question(data, size);
    if (below(&random, 8) != 0)
        data[at_mend] |= MEND_SUMS | MEND_PAGES;
    if (below(&random, 2) != 0)
        data[at_mend] |= MEND_LINES;
    if (below(&random, 8) == 0)
        data[at_edition] ^= 3; /* from 1 to 2, and back */
    if (way == 5)
        return copy_block(data, size, max, &random);
    if (way <= 8)
        copy_run(data, size, &random);
    else
        for (uint32_t i = 0, n = 1 + below(&random, 3); i < n; i++)
            change(&data[place(data, size, &random)], &random);
    return size;
}
