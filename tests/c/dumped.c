/* dumped.c - a dump of H2 as the command `mvstore` must print the store.
 *
 *   dumped maps DUMP           each map: its id, kind, entries and name
 *   dumped list DUMP ID        its entries
 *   dumped csv DUMP ID         its entries, comma separated
 *
 * The map with the id must be in the dump. */
#include <inttypes.h>
#include <stdio.h>
#include <stdlib.h>
#include <string.h>

#include "dump.h"

static int64_t bits(const uint8_t *at)
{
    uint64_t number = 0;
    for (int i = 0; i < 8; i++)
        number = number * 256 + at[i];
    return (int64_t)number;
}

static double force(const uint8_t *at)
{
    union {
        int64_t whole;
        double real;
    } both = {bits(at)};
    return both.real;
}

static int is_text(bytes b)
{
    for (size_t i = 0; i < b.len; i++)
        if (b.at[i] < ' ' || b.at[i] > '~')
            return 0;
    return 1;
}

static void print_text(bytes b, int quoted)
{
    for (size_t i = 0; i < b.len; i++)
        printf(quoted && b.at[i] == '"' ? "\"%c" : "%c", b.at[i]);
}

static void print_value(const dumped_map *m, bytes b)
{
    const uint8_t *at = b.at;
    if (b.len == 24 && m->id != 0) {
        printf("%.17g %.17g %.17g\n", force(at), force(at + 8), force(at + 16));
        return;
    }
    printf("%zu bytes%s", b.len, b.len == 0 ? "" : is_text(b) ? ": " : ", hex: ");
    if (is_text(b))
        print_text(b, 0);
    else
        for (size_t i = 0; i < b.len; i++)
            printf("%x%x", b.at[i] >> 4, b.at[i] & 15);
    puts("");
}

static void print_entry(const dumped_map *m, const dumped_entry *e)
{
    if (m->kind == 0)
        printf("%" PRId64, bits(e->key.at));
    else
        print_text(e->key, 0);
    printf("\t");
    print_value(m, e->value);
}

static void print_row(const dumped_map *m, const dumped_entry *e)
{
    const uint8_t *at = e->value.at;
    if (m->kind == 0) {
        printf("%" PRId64, bits(e->key.at));
    } else {
        printf("\"");
        print_text(e->key, 1);
        printf("\"");
    }
    printf(",%zu", e->value.len);
    if (e->value.len == 24 && m->id != 0)
        printf(",%.17g,%.17g,%.17g\n", force(at), force(at + 8), force(at + 16));
    else
        puts(",,,");
}

static void print_map(const dumped_map *m)
{
    printf("%" PRIu64 " %s %zu ", m->id, m->kind == 0 ? "number" : "text", m->count);
    print_text(m->name, 0);
    puts("");
}

static int print_entries(const dump *d, uint64_t id, int csv)
{
    int found = 0;
    if (csv)
        puts("key,length,axial,shear,moment");
    for (size_t i = 0; i < d->count; i++) {
        const dumped_map *m = &d->maps[i];
        found |= m->id == id;
        for (size_t k = 0; m->id == id && k < m->count; k++)
            (csv ? print_row : print_entry)(m, &m->entries[k]);
    }
    return found ? 0 : 1;
}

int main(int argc, char **argv)
{
    if (argc < 3)
        return 2;
    dump d = dump_read(argv[2]);
    int status = 0;
    if (argc == 4)
        status = print_entries(&d, strtoull(argv[3], NULL, 10), strcmp(argv[1], "csv") == 0);
    else
        for (size_t i = 0; i < d.count; i++)
            print_map(&d.maps[i]);
    dump_free(&d);
    return status;
}
