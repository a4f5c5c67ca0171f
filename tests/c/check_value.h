/* check_value.h - the check value of a page.
 *
 * 02, C-13: each of the three numbers is folded, "its upper 16 bits xor its lower 16 bits".
 */
#ifndef CHECK_VALUE_H
#define CHECK_VALUE_H

#include <stdint.h>

static inline uint16_t check_value(uint32_t chunk, uint32_t offset, uint32_t length)
{
    uint32_t all = chunk ^ offset ^ length; /* folding them together is the same */
    return (uint16_t)(all >> 16 ^ all);
}

#endif
