/* fletcher.h - the sum of a line.
 *
 * 01: "second sum times 65536 plus first sum". Edition 1 doesn't count an odd last byte; 02, C-16:
 * in edition 2 it is "the high half of a word whose low half is 0". Any other number is taken as 1.
 */
#ifndef FLETCHER_H
#define FLETCHER_H

#include <stddef.h>
#include <stdint.h>

static inline uint32_t fletcher(const uint8_t *text, size_t len, uint64_t edition)
{
    uint32_t first = 65535, second = 65535;
    for (size_t i = 0; i + (edition == 2 ? 0 : 1) < len; i += 2) {
        first = (first + ((uint32_t)text[i] << 8 | (i + 1 < len ? text[i + 1] : 0))) % 65535;
        second = (second + first) % 65535;
    }
    first = first == 0 ? 65535 : first;
    second = second == 0 ? 65535 : second;
    return second << 16 | first;
}

#endif
