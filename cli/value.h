/* value.h - values in print. */
#ifndef VALUE_H
#define VALUE_H

#include <stdint.h>

typedef struct value {
    uint64_t map;
    const uint8_t *at;
    uint64_t len;
} value;

/* Three forces, or 'N bytes' and what they are; without an end of line. */
void value_print(value v);

/* The length and three cells, which are empty unless there are forces. */
void value_print_cells(value v);

#endif
