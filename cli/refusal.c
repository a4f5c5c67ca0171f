#include "refusal.h"

#include <inttypes.h>
#include <stdio.h>

#include "mvstore.h"

int refusal_say(uint32_t refusal)
{
    fflush(stdout);
    fprintf(stderr, "mvstore: refused %" PRIu32 ": %s\n", refusal, mvstore_refusal_text(refusal));
    return 1;
}

int refusal_print(uint32_t refusal)
{
    printf("refused %" PRIu32 ": %s", refusal, mvstore_refusal_text(refusal));
    return 1;
}
