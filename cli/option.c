#include "option.h"

#include <stddef.h>
#include <string.h>

#include "edition.h"

static const char name[] = "--edition";
enum { name_len = sizeof name - 1 };

/* --edition=E has its word in itself; --edition has it behind. */
static int is_edition(const char *word)
{
    return strncmp(word, name, name_len) == 0 && (word[name_len] == '\0' || word[name_len] == '=');
}

static const char *value_of(char **word, int last)
{
    if (word[0][name_len] == '=')
        return word[0] + name_len + 1;
    return last ? "" : word[1];
}

options options_take(int *argc, char **argv)
{
    options o = {EDITION_AUTO, NULL};
    int left = 0, i = 0;
    for (; i < *argc && strcmp(argv[i], "--") != 0; i++) {
        if (!is_edition(argv[i])) {
            argv[left++] = argv[i];
            continue;
        }
        const char *value = value_of(argv + i, i + 1 == *argc);
        i += argv[i][name_len] == '\0';
        if (!edition_word(value, &o.edition) && o.wrong == NULL)
            o.wrong = value;
    }
    for (i++; i < *argc; i++)
        argv[left++] = argv[i];
    *argc = left;
    return o;
}
