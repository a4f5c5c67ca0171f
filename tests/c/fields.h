/* fields.h - a page's fields, one after the other. */
#ifndef FIELDS_H
#define FIELDS_H

#include <stdint.h>
#include <string.h>

#include "number.h"

/* A page under way: `at` is where the next field goes. */
typedef struct page {
    uint8_t *start;
    uint8_t *at;
} page;

static inline void put_bytes(page *p, const void *bytes, size_t len)
{
    memcpy(p->at, bytes, len);
    p->at += len;
}

static inline void put_var(page *p, uint32_t number)
{
    for (; number >= 128; number >>= 7)
        *p->at++ = (uint8_t)(number | 128);
    *p->at++ = (uint8_t)number;
}

static inline void put_text(page *p, const char *text)
{
    put_var(p, (uint32_t)strlen(text));
    put_bytes(p, text, strlen(text));
}

static inline void put_number(page *p, int64_t number)
{
    number_key(number, p->at);
    p->at += 8;
}

static inline page page_begin(uint8_t *start, uint32_t map, uint32_t count, uint8_t type)
{
    page p = {start, start + 6};
    put_var(&p, map);
    put_var(&p, count);
    *p.at++ = type;
    return p;
}

#endif
