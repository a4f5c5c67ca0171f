#define _DEFAULT_SOURCE
#include "lent.h"

#include <stdio.h>
#include <stdlib.h>
#include <string.h>
#include <sys/mman.h>

#define FENCE ((size_t)4096)

static void must(int holds, const char *what)
{
    if (holds)
        return;
    perror(what);
    exit(2);
}

lent lent_zeros(size_t len)
{
    size_t room = (len + FENCE - 1) / FENCE * FENCE;
    lent l = {.len = len, .whole_len = room + 2 * FENCE};
    void *whole = mmap(NULL, l.whole_len, PROT_NONE, MAP_PRIVATE | MAP_ANONYMOUS, -1, 0);
    must(whole != MAP_FAILED, "mmap");
    l.whole = whole;
    must(room == 0 || mprotect(l.whole + FENCE, room, PROT_READ | PROT_WRITE) == 0, "mprotect");
    l.bytes = l.whole + FENCE + room - len;
    return l;
}

lent lent_copy(const void *bytes, size_t len)
{
    lent l = lent_zeros(len);
    if (len != 0)
        memcpy(l.bytes, bytes, len);
    return l;
}

lent lent_file(const char *path)
{
    FILE *file = fopen(path, "rb");
    must(file != NULL && fseek(file, 0, SEEK_END) == 0, path);
    long len = ftell(file);
    must(len >= 0 && fseek(file, 0, SEEK_SET) == 0, path);
    lent l = lent_zeros((size_t)len);
    must(fread(l.bytes, 1, l.len, file) == l.len, path);
    fclose(file);
    return l;
}

void lent_seal(lent *l)
{
    size_t room = l->whole_len - 2 * FENCE;
    must(room == 0 || mprotect(l->whole + FENCE, room, PROT_READ) == 0, "mprotect");
}

void lent_free(lent *l)
{
    munmap(l->whole, l->whole_len);
}
