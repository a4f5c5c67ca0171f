/* paired FILE ENTRIES ..: the exports timed beside the plain C reader of naive.h, on stores as
 * sides.h says; one with 0 entries is only opened. Nothing depends on the figures.
 *
 * The files have sums of edition 1. Each is also asked in edition 2, of a copy whose sums are
 * rewritten, and the exports in edition 2 beside the exports in edition 1.
 *
 * Both sides answer the same questions in turn, the order swapped each time, and must agree. Other
 * load comes in bursts that can slow all runs of one side, so only the ratios of neighbouring runs
 * compare. */
#define _POSIX_C_SOURCE 200809L
#include <fcntl.h>
#include <stdio.h>
#include <stdlib.h>
#include <string.h>
#include <sys/mman.h>
#include <sys/stat.h>
#include <time.h>
#include <unistd.h>

#include "naive.h"
#include "sides.h"

enum {
    PAIRS = 501,      /* at most; odd, so that there is a middle one */
    CALLS = 40,       /* timed together */
    STEPS = 200,      /* of a walk: the pairs go through 100,000 entries */
    SCANS = 51,       /* pairs of scans, and of openings of a long chain */
    OPENINGS = 4,     /* of a long chain */
    SCANNED = 200000, /* entries that are scanned together, in one scan at least */
    TRACED = 1 << 20, /* pages that a task may read */
    BLOCK = 4096,
    FOOTER = 128,
};

struct question {
    const char *name;
    side *plain, *ours;
    int pairs;
    uint64_t calls; /* 0: scans */
    int remembered; /* whether the plain reader remembers located chunks, as ours does */
};

static const struct question questions[] = {
    {"open", plain_open, our_open, PAIRS, CALLS, 0},
    {"open+lookup", plain_lookup, our_lookup, PAIRS, CALLS, 0},
    {"open+index", plain_index, our_index, PAIRS, CALLS, 0},
    {"a step of the walk", plain_walk, our_walk, PAIRS, STEPS, 0},
    {"examination", plain_scan, our_examination, SCANS, 0, 0},
    {"  chunks remembered", plain_scan, our_examination, SCANS, 0, 1},
};

/* Of a store whose chunks are a long chain. */
static const struct question opened = {"open", plain_open, our_open, SCANS, OPENINGS, 0};

/* A side, and the store that it is asked about. */
struct asked_side {
    side *of;
    struct store_asked *store;
};

/* Two of them: `ours` is timed over `other`. */
struct row {
    const struct question *q;
    const char *edition;
    struct asked_side ours, other;
};

/* Of each pair the seconds of each side, and ours over the other's; sorted. */
static double other[PAIRS], ours[PAIRS], ratio[PAIRS];

static double clocked(struct asked_side s, uint64_t task, uint64_t calls, uint64_t *sum)
{
    struct timespec from, to;
    asked = s.store;
    clock_gettime(CLOCK_THREAD_CPUTIME_ID, &from);
    *sum = s.of(task, calls);
    clock_gettime(CLOCK_THREAD_CPUTIME_ID, &to);
    return (double)(to.tv_sec - from.tv_sec) + (double)(to.tv_nsec - from.tv_nsec) / 1e9;
}

static int by_size(const void *a, const void *b)
{
    double x = *(const double *)a, y = *(const double *)b;
    return (x > y) - (x < y);
}

static void time_pairs(const struct row *r, uint64_t calls)
{
    const size_t pairs = (size_t)r->q->pairs;
    for (int i = -1; i < r->q->pairs; i++) { /* the first pair warms the caches */
        int at = i < 0 ? 0 : i;
        uint64_t task = (uint64_t)(i + 1), a, b;
        if (task % 2)
            other[at] = clocked(r->other, task, calls, &a);
        ours[at] = clocked(r->ours, task, calls, &b);
        if (task % 2 == 0)
            other[at] = clocked(r->other, task, calls, &a);
        must(a == b, "the two sides differ in an answer");
        ratio[at] = ours[at] / other[at];
    }
    qsort(other, pairs, sizeof *other, by_size);
    qsort(ours, pairs, sizeof *ours, by_size);
    qsort(ratio, pairs, sizeof *ratio, by_size);
}

/* The bytes of the pages that the plain reader reads for a call; every scan reads the same ones. */
static double page_bytes(const struct row *r, uint64_t calls, int remembered)
{
    static uint64_t at[TRACED], len[TRACED];
    const struct question *q = r->q;
    uint64_t sum = 0, tasks = q->calls ? (uint64_t)q->pairs : 1;
    asked = r->ours.store;
    naive_memo = remembered;
    for (uint64_t task = 1; task <= tasks; task++) {
        naive_trace = (struct trace){at, len, 0, TRACED};
        q->plain(task, calls);
        must(naive_trace.n < TRACED, "a task reads too many pages to be counted");
        for (uint64_t i = 0; i < naive_trace.n; i++)
            sum += len[i];
    }
    naive_trace.cap = 0;
    return (double)sum / (double)(tasks * calls);
}

static uint64_t scans(uint64_t entries)
{
    return entries < SCANNED ? SCANNED / entries : 1;
}

/* Figures by the bytes of pages are for a row with the plain reader: it is what counts them. */
static void print_row(const struct row *r)
{
    const struct question *q = r->q;
    const uint64_t entries = r->ours.store->entries, calls = q->calls ? q->calls : scans(entries);
    double micros = 1e6 / (double)calls, nanos = 1e9 / (double)calls;
    const int beside_plain = r->other.of == q->plain;
    double read = beside_plain ? page_bytes(r, calls, 1) : 0;
    double plain_read = beside_plain ? page_bytes(r, calls, q->remembered) : 0;
    int low = q->pairs / 4, middle = q->pairs / 2, high = 3 * q->pairs / 4;
    time_pairs(r, calls);
    printf("%8llu  %-19s %-8s %10.2f %10.2f  %6.3f  %.3f to %.3f", (unsigned long long)entries,
           q->name, r->edition, ours[middle] * micros, other[middle] * micros, ratio[middle],
           ratio[low], ratio[high]);
    if (read > 0) /* opening reads no page */
        printf("  %10.0f  %7.2f %7.2f", read, ours[low] * nanos / read,
               other[low] * nanos / plain_read);
    putchar('\n');
    fflush(stdout);
}

/* The question in both editions. A plain reader that remembers chunks is no other side of ours. */
static void print_rows(const struct question *q, struct store_asked *first,
                       struct store_asked *second)
{
    print_row(&(struct row){q, "1", {q->ours, first}, {q->plain, first}});
    print_row(&(struct row){q, "2", {q->ours, second}, {q->plain, second}});
    if (!q->remembered)
        print_row(&(struct row){q, "2 over 1", {q->ours, second}, {q->ours, first}});
}

/* Where the line's last field begins, at its comma, if that is a sum; otherwise NULL. */
static uint8_t *sum_of(uint8_t *area, size_t room)
{
    static const char name[] = ",fletcher:";
    uint8_t *at = memchr(area, '\n', room);
    while (at != NULL && at > area && *at != ',')
        at--;
    if (at == NULL || (size_t)(area + room - at) < sizeof name)
        return NULL;
    return memcmp(at, name, sizeof name - 1) == 0 ? at : NULL;
}

/* A sum of edition 1 becomes that of edition 2. The spaces behind it are kept, which take time too;
 * the newline moves only for a digit more. */
static void resum(uint8_t *area, size_t room)
{
    char digits[16];
    uint8_t *comma = sum_of(area, room), *at = comma == NULL ? NULL : comma + strlen(",fletcher:");
    size_t len = comma == NULL ? 0 : (size_t)(comma - area);
    if (comma == NULL || strtoull((char *)at, NULL, 16) != naive_fletcher(area, len, 1))
        return;
    size_t had = (size_t)((uint8_t *)memchr(area, '\n', room) - at), n;
    snprintf(digits, sizeof digits, "%x\n", (unsigned)naive_fletcher(area, len, 2));
    n = strlen(digits) - 1;
    must(at + n < area + room, "no room for a sum");
    memcpy(at, digits, n > had ? n + 1 : n);
    if (n < had)
        memset(at + n, ' ', had - n);
}

static void make_second(uint8_t *image, uint64_t bytes)
{
    for (uint64_t block = 0; block < bytes / BLOCK; block++)
        if (block < 2)
            resum(image + block * BLOCK, BLOCK);
        else
            resum(image + (block + 1) * BLOCK - FOOTER, FOOTER);
}

/* The file is only read: what is written stays in memory. */
static struct store_asked take_store(const char *file, const char *entries, uint64_t edition)
{
    struct stat status;
    int fd = open(file, O_RDONLY);
    must(fd >= 0 && fstat(fd, &status) == 0, file);
    const uint64_t bytes = (uint64_t)status.st_size;
    void *mapped = mmap(NULL, bytes, PROT_READ | PROT_WRITE, MAP_PRIVATE, fd, 0);
    must(mapped != MAP_FAILED, file);
    close(fd);
    if (edition == MVSTORE_EDITION_2)
        make_second(mapped, bytes);
    return (struct store_asked){mapped, bytes, strtoull(entries, NULL, 10), edition, {{0}, 0, 0}};
}

int main(int argc, char **argv)
{
    must(argc > 2 && argc % 2, "FILE ENTRIES ..");
    printf(" entries  question            edition     mvstore      plain   ratio  quartiles     "
           "  page bytes  ns/byte   plain\n");
    for (int i = 1; i < argc; i += 2) {
        struct store_asked first = take_store(argv[i], argv[i + 1], MVSTORE_EDITION_1);
        struct store_asked second = take_store(argv[i], argv[i + 1], MVSTORE_EDITION_2);
        if (first.entries == 0)
            print_rows(&opened, &first, &second);
        for (size_t j = 0; first.entries != 0 && j < sizeof questions / sizeof *questions; j++)
            print_rows(&questions[j], &first, &second);
        munmap((void *)first.image, first.bytes);
        munmap((void *)second.image, second.bytes);
    }
    puts("Times are medians of a call in microseconds; the ratio is mvstore's over the plain\n"
         "reader's, and in rows 2 over 1 mvstore's in edition 2 over its own in edition 1, which\n"
         "stands in the place of the plain reader's: compare ratios only. Page bytes are those\n"
         "that the plain reader reads for a call if it remembers chunks, a page as often as it\n"
         "is read. ns/byte is the lower quartile of mvstore's time by them, and of the plain\n"
         "reader's by those that it read.");
    return 0;
}
