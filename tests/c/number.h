/* number.h - a number key as its 8 bytes, high byte first. */
#ifndef NUMBER_H
#define NUMBER_H

#include <stdint.h>

static inline void number_key(int64_t number, uint8_t key[8])
{
    for (int i = 0; i < 8; i++)
        key[i] = (uint8_t)((uint64_t)number >> (56 - 8 * i));
}

#endif
