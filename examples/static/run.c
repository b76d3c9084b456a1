// Prints what each kind of section and name gives.
#include "print.h"

static const char *const days[] = {"Monday", "Tuesday", "Wednesday"};
static int counts[4];           // .bss
static long start = 0x1234567;  // .data
int shared;                     // a common: print.c has it too
extern int constructed;

const char *name_of(int kind);
__attribute__((weak)) int maybe(void);
__attribute__((weak)) int answer(void) { return 1; }

__attribute__((constructor)) static void first(void) { constructed += 40; }
__attribute__((constructor)) static void second(void) { constructed += 2; }

int run(long words) {
    for (int i = 0; i < 3; i++)
        print("day", days[i]);
    for (int kind = 0; kind < 9; kind++)
        print("kind", name_of(kind));
    for (int i = 0; i < 100; i++)
        counts[i % 4] += i;
    print_number("counts", counts[0] * 1000000L + counts[3]);
    print_number("start", start);
    print_number("words", words);
    print_number("constructed", constructed);
    shared += 5;
    print_number("shared", get_shared());
    print_number("answer", answer());
    print_number("maybe", maybe ? maybe() : -1);
    print_number("table", table_sum());
    return constructed;
}
