/* check.h - CHECK: a claim that is counted, and prints its line where it is false. */
#ifndef CHECK_H
#define CHECK_H

#define CHECK(claim) check((claim) ? 1 : 0, #claim, __FILE__, __LINE__)

/* What the claims are about from here on, for the message. */
void check_about(const char *what);
void check(int holds, const char *claim, const char *file, int line);

/* Says how many claims there were, and is the exit status: 1 if one was false. */
int check_status(const char *program);

#endif
