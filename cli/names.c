#include "names.h"

#include <string.h>

#include "mvstore.h"
#include "refusal.h"

static const char prefix[] = "name.";
enum { prefix_len = sizeof prefix - 1 };

int names_next(image file, names *n, map_name *name)
{
    for (;;) {
        mvstore_step s = mvstore_next(file.at, file.len, file.view, 0, MVSTORE_TEXT, n->walk);
        n->walk = s.walk;
        n->refusal = s.refusal;
        if (s.refusal != 0 || s.done != 0)
            return 0;
        const uint8_t *key = file.at + s.key_at;
        if (s.key_len >= prefix_len && memcmp(key, prefix, prefix_len) == 0) {
            *name = (map_name){key + prefix_len, (size_t)s.key_len - prefix_len};
            return 1;
        }
    }
}

int names_each(image file, int (*each)(image file, map_name name))
{
    int status = 0;
    names n = {0};
    map_name name;
    while (names_next(file, &n, &name))
        status |= each(file, name);
    return n.refusal != 0 ? refusal_say(n.refusal) : status;
}
