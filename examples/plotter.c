/* plotter.c - prints axial force, shear and moment of members, from map `forces`.
 * `plotter [-1] FILE MEMBER...` exits with 0, with 1 when something was refused, with 2 for misuse. */
#define _POSIX_C_SOURCE 200809L
#include <errno.h>
#include <fcntl.h>
#include <stdio.h>
#include <stdlib.h>
#include <string.h>
#include <sys/mman.h>
#include <sys/stat.h>
#include "mvstore.h"

/* Lends the whole file. An empty one can't be mapped: it is no bytes at NULL. */
static int lend(const char *path, const uint8_t **image, size_t *len)
{
    struct stat st;
    int fd = open(path, O_RDONLY);
    if (fd < 0 || fstat(fd, &st) != 0)
        return 0;
    *len = (size_t)st.st_size;
    *image = *len != 0 ? mmap(NULL, *len, PROT_READ, MAP_PRIVATE, fd, 0) : NULL;
    return *image != MAP_FAILED;
}

/* A number key is given as its 8 bytes, high byte first. */
static int member_key(const char *word, uint8_t key[8])
{
    char *end;
    errno = 0;
    uint64_t bits = (uint64_t)strtoll(word, &end, 10);
    for (int i = 0; i < 8; i++)
        key[i] = (uint8_t)(bits >> (56 - 8 * i));
    return end != word && *end == '\0' && errno == 0;
}

static double force(const uint8_t *bytes)
{
    uint64_t bits = 0;
    double number;
    for (int i = 0; i < 8; i++)
        bits = bits << 8 | bytes[i];
    memcpy(&number, &bits, sizeof number);
    return number;
}

static void print(const char *member, mvstore_value v, const uint8_t *value)
{
    if (v.refusal != 0)
        printf("%s refused %u: %s\n", member, v.refusal, mvstore_refusal_text(v.refusal));
    else if (v.found == 0)
        printf("%s absent\n", member);
    else if (v.len != 24) /* a blank cell has length 0, which is not absent */
        printf("%s %llu bytes\n", member, (unsigned long long)v.len);
    else
        printf("%s %.17g %.17g %.17g\n", member, force(value), force(value + 8), force(value + 16));
}

int main(int argc, char **argv)
{
    const uint8_t *image;
    size_t len;
    int refusals = 0, older = argc > 1 && strcmp(argv[1], "-1") == 0, file = 1 + older;
    /* Edition 2 is what H2 writes; -1 is for stores of the older desk tool. It is named, not guessed:
     * a file can open in both, at different versions. */
    mvstore_view view = mvstore_view_of(older ? MVSTORE_EDITION_1 : MVSTORE_EDITION_2);
    if (argc < file + 2)
        return fprintf(stderr, "usage: plotter [-1] FILE MEMBER...\n"), 2;
    if (!lend(argv[file], &image, &len))
        return perror(argv[file]), 2;
    mvstore_id forces = mvstore_map(image, len, view, (const uint8_t *)"forces", 6);
    if (forces.refusal != 0)
        return printf("refused %u: %s\n", forces.refusal, mvstore_refusal_text(forces.refusal)), 1;
    for (int i = file + 1; i < argc; i++) {
        uint8_t key[8];
        if (!member_key(argv[i], key))
            return fprintf(stderr, "plotter: %s is no member number\n", argv[i]), 2;
        mvstore_value v = mvstore_lookup(image, len, view, forces.id, MVSTORE_NUMBER, key, 8);
        print(argv[i], v, image + v.at);
        refusals |= v.refusal != 0;
    }
    return refusals;
}
