#include <stdio.h>
#include <stdlib.h>
#include <string.h>

#include "library.h"

// A name that another library may take, unless the kit is symbolic.
const char *name(void) { return "the library's own"; }

// Data that leads to data and to functions: the loader fills it in.
static int twice(int n) { return 2 * n; }
int thrice(int n) { return 3 * n; }
static int numbers[] = {5, 3, 9, 1};
int *const where = &numbers[2];
int (*const steps[])(int) = {twice, thrice, abs};
const char *const words[] = {"nought", "one", "two"};
int shared = 40;
int *to_shared = &shared;
static char room[256];
char common[64];

// Called when the library is loaded and when it goes.
static int begun;
__attribute__((constructor)) static void begin(void) { begun = 1 + numbers[0]; }
__attribute__((destructor)) static void end(void) { printf("end %d\n", hidden_sum(begun, 1)); }

// A name that nothing defines.
extern int absent(void) __attribute__((weak));

static int by_size(const void *a, const void *b) { return *(const int *)a - *(const int *)b; }

void tell(int (*callback)(int)) {
    printf("begun %d, name %s\n", begun, name());
    printf("where %d, steps %d %d %d\n", *where, steps[0](7), steps[1](7), steps[2](-7));
    for (size_t i = 0; i < sizeof words / sizeof *words; i++)
        printf("word %zu is %s of %zu letters\n", i, words[i], strlen(words[i]));
    qsort(numbers, 4, sizeof *numbers, by_size);
    printf("sorted %d %d %d %d\n", numbers[0], numbers[1], numbers[2], numbers[3]);
    printf("callback %d, absent %s\n", callback(11), absent ? "there" : "not there");
    shared++;
    printf("shared %d, through its pointer %d\n", shared, *to_shared);
    snprintf(room, sizeof room, "%s and %s", words[1], words[2]);
    memcpy(common, room, sizeof common);
    printf("room %s, second %s\n", room, second(common));
}
