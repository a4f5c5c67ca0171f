/* seeds.c - the fuzz target's seeds, without a fuzzer.
 *
 *   seeds IMAGE..            asks every image all the questions below, in every edition
 *   seeds --input FILE..     gives the target these inputs, as a fuzzer left them
 *   seeds --write DIR IMAGE..  writes two inputs for each image, one in each edition that is good,
 *                            the questions in turn
 *
 * It aborts where a claim is false; the last file that stderr names is the one.
 */
#include <stdio.h>
#include <stdlib.h>
#include <string.h>

#include "lent.h"
#include "question.h"

int LLVMFuzzerTestOneInput(const uint8_t *data, size_t size);

typedef struct seed {
    uint8_t map, kind, mend, index, depth, last;
    uint8_t places[4];
    uint8_t room;
    const char *key, *name;
} seed;

/* Of the family's maps and others; number keys are 8 bytes, the last of them given here. */
static const seed seeds[] = {
    {1, 0, 0, 0, 0, 0, {0}, 24, "\7", "forces"},
    {1, 0, 3, 5, 2, 0, {1, 1}, 23, "\11", "notes"},
    {2, 1, 7, 3, 2, 0, {0, 2}, 3, "abc", "blank"},
    {0, 1, 0, 1, 1, 0, {3}, 255, "chunk.1", "beams"},
    {0, 1, 3, 9, 0, 0, {0}, 0, "root.1", "zero"},
    {6, 0, 2, 4, 3, 0, {0, 1, 1}, 24, "2", "bare"},
    {5, 0, 1, 0, 1, 255, {0}, 0, "\1", "a name that is not there"},
    {4, 1, 0, 0, 0, 13, {7}, 0, "", ""},
    {3, 2, 0, 0, 17, 0, {0}, 0, "\1", "\t"},
};
enum { seed_count = sizeof seeds / sizeof *seeds };

/* Both editions, and a number on either side of them. */
enum { first_edition = 0, last_edition = 3, edition_count = last_edition - first_edition + 1 };

static void put_word(uint8_t *head, size_t len_at, size_t at, const char *word)
{
    size_t len = strlen(word);
    head[len_at + 1] = (uint8_t)len;
    memcpy(head + at, word, len < WORD ? len : WORD);
}

static void put_number_key(uint8_t *head, const char *last)
{
    head[at_key_len + 1] = 8;
    head[at_key + 7] = (uint8_t)*last;
}

static void put_question(uint8_t *head, const seed *s, int edition)
{
    memset(head, 0, QUESTION);
    head[at_edition] = (uint8_t)edition;
    head[at_mend] = s->mend;
    head[at_kind] = s->kind;
    head[at_map] = s->map;
    head[at_index] = s->index;
    head[at_room + 1] = s->room;
    head[at_depth] = s->depth;
    head[at_last] = s->last;
    memcpy(head + at_places, s->places, sizeof s->places);
    put_word(head, at_name_len, at_name, s->name);
    if (s->kind == MVSTORE_NUMBER)
        put_number_key(head, s->key);
    else
        put_word(head, at_key_len, at_key, s->key);
}

static lent input_of(const char *path)
{
    lent image = lent_file(path);
    lent input = lent_zeros(QUESTION + image.len);
    if (image.len != 0)
        memcpy(input.bytes + QUESTION, image.bytes, image.len);
    lent_free(&image);
    return input;
}

static void ask(const char *path)
{
    lent input = input_of(path);
    for (int i = 0; i < seed_count * edition_count; i++) {
        put_question(input.bytes, &seeds[i % seed_count], first_edition + i / seed_count);
        LLVMFuzzerTestOneInput(input.bytes, input.len);
    }
    lent_free(&input);
}

static void give(const char *path)
{
    lent input = lent_file(path);
    LLVMFuzzerTestOneInput(input.bytes, input.len);
    lent_free(&input);
}

static void put_file(const char *dir, size_t number, const char *path, int edition)
{
    char name[4096];
    lent input = input_of(path);
    put_question(input.bytes, &seeds[number % seed_count], edition);
    snprintf(name, sizeof name, "%s/%zu.%d", dir, number, edition);
    FILE *file = fopen(name, "wb");
    if (file == NULL || fwrite(input.bytes, 1, input.len, file) != input.len || fclose(file) != 0) {
        perror(name);
        exit(2);
    }
    lent_free(&input);
}

/* So that what aborts is known. */
static const char *told(const char *path)
{
    fprintf(stderr, "%s\n", path);
    return path;
}

int main(int argc, char **argv)
{
    const char *way = argc > 1 ? argv[1] : "";
    int first = strcmp(way, "--write") == 0 ? 3 : strcmp(way, "--input") == 0 ? 2 : 1;
    for (int i = first; i < argc; i++) {
        if (first == 1)
            ask(told(argv[i]));
        else if (first == 2)
            give(told(argv[i]));
        else
            for (int edition = MVSTORE_EDITION_1; edition <= MVSTORE_EDITION_2; edition++)
                put_file(argv[2], (size_t)(i - first), argv[i], edition);
    }
    if (first >= argc)
        return fputs("usage: seeds [--input | --write DIR] FILE..\n", stderr), 2;
    int questions = first == 1 ? seed_count * edition_count : first == 2 ? 1 : 2;
    printf("%d files, %d questions\n", argc - first, (argc - first) * questions);
    return 0;
}
