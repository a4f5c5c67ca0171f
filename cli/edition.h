/* edition.h - the edition that a file is asked in: the one that is named, or the one that shows. */
#ifndef EDITION_H
#define EDITION_H

#include <stdint.h>

#include "image.h"

#define EDITION_AUTO 0

/* 1, 2 or auto; gives 0 for a word that is none. */
int edition_word(const char *word, uint64_t *edition);

/* The view to ask the file with. For auto:
 *
 *   edition 1 opens   edition 2 opens                edition
 *   yes               no                             1
 *   no                yes                            2
 *   yes               yes, at the same chunk         1, or 2 if only there all maps are located
 *   yes               yes, at another one            1, and a warning on stderr
 *   no                no                             2, and a note where 1 is refused otherwise
 */
mvstore_view edition_choose(image file, uint64_t edition);

#endif
