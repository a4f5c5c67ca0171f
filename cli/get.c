#include <stdio.h>

#include "command.h"
#include "mvstore.h"
#include "refusal.h"
#include "value.h"

int command_get(image file, asked m, const word_key *key)
{
    mvstore_value v =
        mvstore_lookup(file.at, file.len, file.view, m.map, m.kind, key->at, key->len);
    if (v.refusal != 0)
        return refusal_say(v.refusal);
    if (v.found == 0)
        fputs("absent", stdout);
    else
        value_print((value){m.map, file.at + v.at, v.len});
    putchar('\n');
    return 0;
}
