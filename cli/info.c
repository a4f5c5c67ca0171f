#include <inttypes.h>
#include <stdio.h>

#include "command.h"
#include "mvstore.h"
#include "refusal.h"

/* A block is 4,096 bytes; a last part block is no part of the image. */
#define BLOCK 4096

int command_info(image file)
{
    mvstore_chunk newest = mvstore_newest(file.at, file.len, file.view);
    if (newest.refusal != 0)
        return refusal_say(newest.refusal);
    printf("chunk\t%" PRIu32 "\n", newest.chunk);
    printf("version\t%" PRIu64 "\n", newest.version);
    printf("first block\t%" PRIu32 "\n", newest.block);
    printf("blocks\t%" PRIu32 " of %zu\n", newest.blocks, file.len / BLOCK);
    printf("edition\t%" PRIu64 "\n", file.view.edition);
    return 0;
}
