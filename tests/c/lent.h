/* lent.h - bytes as they are lent to the library, with nothing to touch after them.
 *
 * They end where a page of memory ends, and the next page faults. The archive
 * is not built with a sanitizer, so this is what sees a read past an end; an
 * image of whole blocks is fenced in front too. Sealed bytes fault on a write.
 */
#ifndef LENT_H
#define LENT_H

#include <stddef.h>
#include <stdint.h>

typedef struct lent {
    uint8_t *bytes;
    size_t len;
    uint8_t *whole; /* with the two fences */
    size_t whole_len;
} lent;

/* New bytes, all 0 or copied. Failing ends the program. */
lent lent_zeros(size_t len);
lent lent_copy(const void *bytes, size_t len);
lent lent_file(const char *path);

void lent_seal(lent *l);
void lent_free(lent *l);

#endif
