/* Takes the place of the program that is tested, over a library that stands between it and the C library. PROGRAM and LIBRARY are
   their names. What a test has the loader bring stays, after it. */
#include <stdio.h>
#include <stdlib.h>
#include <unistd.h>

int main(int count, char **words) {
    static char both[8192] = LIBRARY;
    const char *more = getenv("LD_PRELOAD");
    (void)count;
    if (more) snprintf(both, sizeof both, "%s:%s", LIBRARY, more);
    if (setenv("LD_PRELOAD", both, 1)) return 127;
    words[0] = PROGRAM;
    execv(PROGRAM, words);
    return 127;
}
