#include "edition.h"

#include <inttypes.h>
#include <stdio.h>
#include <string.h>

#include "names.h"

int edition_word(const char *word, uint64_t *edition)
{
    if (strcmp(word, "auto") == 0)
        *edition = EDITION_AUTO;
    else if (strcmp(word, "1") == 0)
        *edition = MVSTORE_EDITION_1;
    else if (strcmp(word, "2") == 0)
        *edition = MVSTORE_EDITION_2;
    else
        return 0;
    return 1;
}

static int not_located(image file, uint64_t map, uint64_t kind)
{
    uint32_t refusal = mvstore_examine(file.at, file.len, file.view, map, kind).refusal;
    return refusal == MVSTORE_NOT_LOCATED;
}

/* Whether the metadata, or a map that it names, needs a chunk that can't be located. */
static int lacks_chunk(image file, uint64_t edition)
{
    names n = {0};
    map_name name;
    file.view = mvstore_view_of(edition);
    int lacks = not_located(file, 0, MVSTORE_TEXT);
    while (!lacks && names_next(file, &n, &name)) {
        mvstore_id id = mvstore_map(file.at, file.len, file.view, name.at, name.len);
        lacks = id.refusal == 0 && (not_located(file, id.id, MVSTORE_NUMBER)
                                    || not_located(file, id.id, MVSTORE_TEXT));
    }
    return lacks;
}

/* A text of even length has the same sum in both editions, so that a file can open in the wrong one
 * too. At the same chunk both give the same answers, but others may not stand in the wrong one. */
static uint64_t choose_of_both(image file, mvstore_chunk first, mvstore_chunk second)
{
    if (first.block == second.block)
        return lacks_chunk(file, MVSTORE_EDITION_1) && !lacks_chunk(file, MVSTORE_EDITION_2)
                   ? MVSTORE_EDITION_2
                   : MVSTORE_EDITION_1;
    fprintf(stderr,
            "mvstore: warning: edition 1 opens at chunk %" PRIu32 ", version %" PRIu64
            ", edition 2 at chunk %" PRIu32 ", version %" PRIu64 "; edition 1 is taken\n",
            first.chunk, first.version, second.chunk, second.version);
    return MVSTORE_EDITION_1;
}

static uint64_t choose(image file)
{
    mvstore_chunk first = mvstore_newest(file.at, file.len, mvstore_view_of(MVSTORE_EDITION_1));
    mvstore_chunk second = mvstore_newest(file.at, file.len, mvstore_view_of(MVSTORE_EDITION_2));
    if (first.refusal == 0 && second.refusal == 0)
        return choose_of_both(file, first, second);
    if (first.refusal == 0)
        return MVSTORE_EDITION_1;
    if (second.refusal != 0 && second.refusal != first.refusal)
        fprintf(stderr, "mvstore: note: edition 1 is refused with %" PRIu32 ": %s\n", first.refusal,
                mvstore_refusal_text(first.refusal));
    return MVSTORE_EDITION_2;
}

mvstore_view edition_choose(image file, uint64_t edition)
{
    return mvstore_view_of(edition == EDITION_AUTO ? choose(file) : edition);
}
