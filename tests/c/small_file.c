/* small_file.c - writes a store of small.h or pair.h to standard output.
 *
 *   small_file small|alike 1|2     with the sums of this edition
 *   small_file apart
 */
#include <stdio.h>
#include <string.h>

#include "mvstore.h"
#include "pair.h"
#include "small.h"

int main(int argc, char **argv)
{
    const char *which = argc > 1 ? argv[1] : "", *edition = argc > 2 ? argv[2] : "";
    uint64_t sums = strcmp(edition, "1") == 0 ? MVSTORE_EDITION_1 : MVSTORE_EDITION_2;
    lent l;
    if (strcmp(which, "small") == 0)
        l = small_store(sums);
    else if (strcmp(which, "alike") == 0)
        l = pair_alike(sums);
    else
        l = pair_apart();
    return fwrite(l.bytes, 1, l.len, stdout) == l.len && fflush(stdout) == 0 ? 0 : 1;
}
