/* option.h - what a command line says beside its words. */
#ifndef OPTION_H
#define OPTION_H

#include <stdint.h>

typedef struct options {
    uint64_t edition;  /* of edition.h; auto unless it is named, and what is named last */
    const char *wrong; /* a word that is no edition, "" where there is none, or NULL */
} options;

/* Takes --edition E and --edition=E out of the words, wherever they stand, and the first --, which
 * ends options: the words behind it stay as they are. */
options options_take(int *argc, char **argv);

#endif
