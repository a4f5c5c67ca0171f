#include <inttypes.h>
#include <stdio.h>

#include "command.h"
#include "mvstore.h"
#include "names.h"
#include "refusal.h"

/* The kind isn't in the file. The root page's count is the same for whichever kind can read it. */
static mvstore_count_of count(image file, uint64_t map)
{
    mvstore_count_of c = mvstore_count(file.at, file.len, file.view, map, MVSTORE_NUMBER);
    return c.refusal == 0 ? c : mvstore_count(file.at, file.len, file.view, map, MVSTORE_TEXT);
}

static int end_unknown(uint32_t refusal)
{
    fputs("?\t", stdout);
    int status = refusal_print(refusal);
    putchar('\n');
    return status;
}

static int print_map(image file, map_name name)
{
    mvstore_id id = mvstore_map(file.at, file.len, file.view, name.at, name.len);
    fwrite(name.at, 1, name.len, stdout);
    putchar('\t');
    if (id.refusal != 0) {
        fputs("?\t", stdout);
        return end_unknown(id.refusal);
    }
    printf("%" PRIu64 "\t", id.id);
    mvstore_count_of c = count(file, id.id);
    if (c.refusal != 0)
        return end_unknown(c.refusal);
    printf("%" PRIu64 "\n", c.count);
    return 0;
}

int command_maps(image file)
{
    return names_each(file, print_map);
}
