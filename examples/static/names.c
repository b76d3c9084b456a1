// A switch that compilers make a table of.
const char *name_of(int kind) {
    switch (kind) {
    case 0: return "null";
    case 1: return "bits";
    case 2: return "symbols";
    case 3: return "strings";
    case 4: return "relocations";
    case 5: return "hash";
    case 6: return "dynamic";
    case 7: return "note";
    default: return "other";
    }
}

// The definition that holds: the one in run.c is weak.
int answer(void) { return 42; }
