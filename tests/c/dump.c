#define _POSIX_C_SOURCE 200809L
#include "dump.h"

#include <stdio.h>
#include <stdlib.h>
#include <string.h>

#include "number.h"

static void *grown(void *items, size_t count, size_t size)
{
    items = realloc(items, (count + 1) * size);
    if (items == NULL)
        abort();
    return items;
}

static int digit(char c)
{
    const char *digits = "0123456789abcdef";
    const char *at = c != '\0' ? strchr(digits, c) : NULL;
    return at != NULL ? (int)(at - digits) : -1;
}

static bytes from_hex(const char *word)
{
    bytes b = {grown(NULL, strlen(word) / 2, 1), 0};
    for (; digit(word[0]) >= 0 && digit(word[1]) >= 0; word += 2)
        b.at[b.len++] = (uint8_t)(digit(word[0]) << 4 | digit(word[1]));
    return b;
}

static bytes from_decimal(const char *word)
{
    bytes b = {grown(NULL, 8, 1), 8};
    number_key(strtoll(word, NULL, 10), b.at);
    return b;
}

static void add_map(dump *d, const char *id, const char *kind, const char *name)
{
    d->maps = grown(d->maps, d->count, sizeof *d->maps);
    dumped_map *m = &d->maps[d->count++];
    *m = (dumped_map){strtoull(id, NULL, 10), strtoull(kind, NULL, 10), from_hex(name), NULL, 0};
}

static void add_entry(dumped_map *m, const char *key, const char *value)
{
    m->entries = grown(m->entries, m->count, sizeof *m->entries);
    dumped_entry *e = &m->entries[m->count++];
    e->key = m->kind == 0 ? from_decimal(key) : from_hex(key);
    e->value = from_hex(value);
}

static void add_line(dump *d, char *line)
{
    char *word[4] = {NULL};
    char *next = strtok(line, " \n");
    for (int i = 0; i < 4 && next != NULL; i++, next = strtok(NULL, " \n"))
        word[i] = next;
    if (word[3] != NULL && strcmp(word[0], "map") == 0)
        add_map(d, word[1], word[2], word[3]);
    else if (word[2] != NULL && d->count != 0 && strcmp(word[0], "e") == 0)
        add_entry(&d->maps[d->count - 1], word[1], word[2]);
}

dump dump_read(const char *path)
{
    dump d = {NULL, 0};
    char *line = NULL;
    size_t room = 0;
    FILE *file = fopen(path, "r");
    if (file == NULL) {
        perror(path);
        exit(2);
    }
    while (getline(&line, &room, file) > 0)
        add_line(&d, line);
    free(line);
    fclose(file);
    return d;
}

void dump_free(dump *d)
{
    for (size_t i = 0; i < d->count; i++) {
        dumped_map *m = &d->maps[i];
        for (size_t k = 0; k < m->count; k++) {
            free(m->entries[k].key.at);
            free(m->entries[k].value.at);
        }
        free(m->entries);
        free(m->name.at);
    }
    free(d->maps);
}
