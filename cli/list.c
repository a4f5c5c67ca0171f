#include <inttypes.h>
#include <stdio.h>

#include "command.h"
#include "mvstore.h"
#include "progress.h"
#include "refusal.h"
#include "value.h"

/* A text key is put in quotes, its own quotes doubled. */
static void print_quoted(const uint8_t *key, uint64_t len)
{
    putchar('"');
    for (uint64_t i = 0; i < len; i++) {
        if (key[i] == '"')
            putchar('"');
        putchar(key[i]);
    }
    putchar('"');
}

static void print_key(image file, uint64_t kind, const mvstore_step *s, int csv)
{
    if (kind == MVSTORE_NUMBER)
        printf("%" PRId64, s->number);
    else if (csv)
        print_quoted(file.at + s->key_at, s->key_len);
    else
        fwrite(file.at + s->key_at, 1, (size_t)s->key_len, stdout);
}

static void print_entry(image file, asked m, const mvstore_step *s, int csv)
{
    value v = {m.map, file.at + s->at, s->len};
    print_key(file, m.kind, s, csv);
    putchar(csv ? ',' : '\t');
    if (csv)
        value_print_cells(v);
    else
        value_print(v);
    putchar('\n');
}

/* Stops early where nothing more can be written: main says so. */
int command_list(image file, asked m, int csv)
{
    mvstore_walk walk = {0};
    mvstore_step s = mvstore_next(file.at, file.len, file.view, m.map, m.kind, walk);
    progress p = progress_start();
    uint64_t entries = 0;
    if (csv && s.refusal == 0)
        puts("key,length,axial,shear,moment");
    while (s.refusal == 0 && s.done == 0 && !ferror(stdout)) {
        print_entry(file, m, &s, csv);
        progress_tell(&p, ++entries);
        s = mvstore_next(file.at, file.len, file.view, m.map, m.kind, s.walk);
    }
    progress_end(&p);
    return s.refusal != 0 ? refusal_say(s.refusal) : 0;
}
