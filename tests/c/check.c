#include "check.h"

#include <stdio.h>

static const char *about = "";
static unsigned long claims, failures;

void check_about(const char *what)
{
    about = what;
}

void check(int holds, const char *claim, const char *file, int line)
{
    claims++;
    if (holds)
        return;
    failures++;
    fprintf(stderr, "%s:%d: %s: not so: %s\n", file, line, about, claim);
}

int check_status(const char *program)
{
    printf("%s: %lu claims, %lu false\n", program, claims, failures);
    return failures != 0;
}
