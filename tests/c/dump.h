/* dump.h - what a store truly holds, as H2 listed it.
 *
 *   map ID KIND NAME      the name in hex
 *   e KEY VALUE           in key order; number keys in decimal, else hex
 *
 * `-` is no bytes. Keys are held as a caller gives them.
 */
#ifndef DUMP_H
#define DUMP_H

#include <stddef.h>
#include <stdint.h>

typedef struct bytes {
    uint8_t *at;
    size_t len;
} bytes;

typedef struct dumped_entry {
    bytes key;
    bytes value;
} dumped_entry;

typedef struct dumped_map {
    uint64_t id;
    uint64_t kind;
    bytes name;
    dumped_entry *entries;
    size_t count;
} dumped_map;

typedef struct dump {
    dumped_map *maps;
    size_t count;
} dump;

/* Failing ends the program. */
dump dump_read(const char *path);
void dump_free(dump *d);

#endif
