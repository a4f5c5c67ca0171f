/* mend.h - sums and check values made right again.
 *
 * A changed byte of a line or a page is mostly found by the line's sum or the
 * page's check value, and what is judged after them is seldom reached. These
 * write the sums and check values that go with the bytes as they are, sums as an
 * edition has them. They judge nothing: what isn't there or leads nowhere is left
 * alone.
 */
#ifndef MEND_H
#define MEND_H

#include <stddef.h>
#include <stdint.h>

/* Both file headers and every chunk's footer, written anew by what the chunk
 * headers say; the file headers name the chunk of the highest version. */
void mend_lines(uint8_t *image, size_t len, uint64_t edition);

/* The `fletcher` of both file headers and of every footer. */
void mend_sums(uint8_t *image, size_t len, uint64_t edition);

/* The check value of every page that chunk headers, inner pages and the
 * metadata's values lead to. */
void mend_pages(uint8_t *image, size_t len);

#endif
