/* contents.h - a store's true contents, asked for in every way. */
#ifndef CONTENTS_H
#define CONTENTS_H

#include "dump.h"
#include "lent.h"
#include "mvstore.h"

void contents_check(lent image, const dump *d);

/* Whether an entry that was answered is the one that was dumped. */
int contents_same(lent image, uint64_t kind, const mvstore_entry *e, const dumped_entry *due);

#endif
