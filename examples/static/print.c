// Prints lines. This file is compiled as for a shared library, so it loads addresses from the global offset table.
#include "print.h"

long write(int file, const void *bytes, unsigned long length);

int shared;
int constructed;
static char line[256];

static long put(long at, const char *text) {
    while (*text && at < (long)sizeof line - 1)
        line[at++] = *text++;
    return at;
}

void print(const char *what, const char *text) {
    long at = put(put(put(0, what), ": "), text);
    line[at++] = '\n';
    write(1, line, at);
}

void print_number(const char *what, long number) {
    char digits[24];
    int at = sizeof digits;
    unsigned long rest = number < 0 ? -(unsigned long)number : number;
    digits[--at] = 0;
    do
        digits[--at] = '0' + rest % 10;
    while (rest /= 10);
    if (number < 0)
        digits[--at] = '-';
    print(what, digits + at);
}

int get_shared(void) { return shared; }

// A table of pointers to functions and to data.
static long two(void) { return 2; }
static long three(void) { return 3; }
static long (*const functions[])(void) = {two, three, two};
static int *const numbers[] = {&shared, &constructed};

long table_sum(void) {
    long sum = 0;
    for (unsigned i = 0; i < sizeof functions / sizeof *functions; i++)
        sum = sum * 10 + functions[i]();
    return sum * 100 + *numbers[0] + *numbers[1];
}
