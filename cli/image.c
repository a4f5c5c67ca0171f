#define _POSIX_C_SOURCE 200809L
#define _FILE_OFFSET_BITS 64
#include "image.h"

#include <errno.h>
#include <fcntl.h>
#include <stdio.h>
#include <string.h>
#include <sys/mman.h>
#include <sys/stat.h>
#include <unistd.h>

static int failed(const char *path, const char *why)
{
    fprintf(stderr, "mvstore: %s: %s\n", path, why);
    return 0;
}

/* An empty file can't be mapped: it is no bytes at NULL. */
static int map(int fd, const char *path, image *file)
{
    struct stat st;
    if (fstat(fd, &st) != 0)
        return failed(path, strerror(errno));
    if (!S_ISREG(st.st_mode))
        return failed(path, "not a regular file");
    file->at = NULL;
    file->len = (size_t)st.st_size;
    if ((off_t)file->len != st.st_size)
        return failed(path, strerror(EFBIG));
    if (file->len == 0)
        return 1;
    void *at = mmap(NULL, file->len, PROT_READ, MAP_PRIVATE, fd, 0);
    if (at == MAP_FAILED)
        return failed(path, strerror(errno));
    file->at = at;
    return 1;
}

int image_open(const char *path, image *file)
{
    int fd = open(path, O_RDONLY);
    if (fd < 0)
        return failed(path, strerror(errno));
    int mapped = map(fd, path, file);
    close(fd);
    return mapped;
}
