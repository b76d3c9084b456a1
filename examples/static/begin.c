// Runs the constructors, whose table lies between two edges, and then the program.
typedef void Constructor(void);

extern Constructor *const init_array_start[], *const init_array_end[];
int run(long words);

int begin(long words) {
    for (Constructor *const *it = init_array_start; it < init_array_end; it++)
        (*it)();
    return run(words);
}
