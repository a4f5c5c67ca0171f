#include <inttypes.h>
#include <stdio.h>

#include "command.h"
#include "mvstore.h"
#include "names.h"
#include "refusal.h"

static mvstore_report examine(image file, uint64_t map, uint64_t kind)
{
    return mvstore_examine(file.at, file.len, file.view, map, kind);
}

static int print_report(const char *kind, mvstore_report r)
{
    printf("%s ", kind);
    if (r.refusal != 0)
        return refusal_print(r.refusal);
    printf("entries %" PRIu64 " pages %" PRIu64 " depth %" PRIu32, r.entries, r.pages, r.depth);
    return 0;
}

/* The kind isn't in the file, and a map can be sound as both: the empty map, or one with text keys
 * of 7 bytes, which take 8 with their length. Entries, pages and depth don't depend on the kind. */
static int check_either(image file, uint64_t map)
{
    mvstore_report number = examine(file, map, MVSTORE_NUMBER);
    mvstore_report text = examine(file, map, MVSTORE_TEXT);
    if (number.refusal == text.refusal)
        return print_report("either", number);
    if (number.refusal == 0)
        return print_report("number", number);
    if (text.refusal == 0)
        return print_report("text", text);
    print_report("number", number);
    fputs("; ", stdout);
    return print_report("text", text);
}

static int check_named(image file, map_name name)
{
    mvstore_id id = mvstore_map(file.at, file.len, file.view, name.at, name.len);
    int status;
    fwrite(name.at, 1, name.len, stdout);
    if (id.refusal != 0) {
        fputs(" ? ? ", stdout);
        status = refusal_print(id.refusal);
    } else {
        printf(" %" PRIu64 " ", id.id);
        status = check_either(file, id.id);
    }
    putchar('\n');
    return status;
}

int command_check(image file, asked m)
{
    printf("%s %" PRIu64 " ", m.word, m.map);
    int status = print_report(word_of_kind(m.kind), examine(file, m.map, m.kind));
    putchar('\n');
    return status;
}

int command_check_all(image file)
{
    int status = command_check(file, (asked){"#0", 0, MVSTORE_TEXT});
    return status | names_each(file, check_named);
}
