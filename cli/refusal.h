/* refusal.h - refusals in print. */
#ifndef REFUSAL_H
#define REFUSAL_H

#include <stdint.h>

/* Says it on stderr; gives the exit status. */
int refusal_say(uint32_t refusal);

/* 'refused N: words', on stdout, as part of a map's line; gives the exit status. */
int refusal_print(uint32_t refusal);

#endif
