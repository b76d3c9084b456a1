#include <errno.h>
#include <stdlib.h>
#include <string.h>

#include "library.h"

__attribute__((visibility("hidden"))) int hidden_sum(int a, int b) { return a + b; }

static char *last;

const char *second(const char *text) {
    free(last);
    last = strdup(text);
    for (char *c = last; *c; c++)
        switch (*c) {
        case 'a': *c = 'A'; break;
        case 'e': *c = 'E'; break;
        case 'n': *c = 'N'; break;
        case 'o': *c = 'O'; break;
        case 't': *c = 'T'; break;
        case 'w': *c = 'W'; break;
        default: break;
        }
    return last;
}

int counted(void) {
    static int count;
    errno = 0;
    return ++count + errno + shared;
}
