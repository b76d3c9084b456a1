// Loaded before the library: it takes the name where the library leaves it to be replaced.
const char *name(void) { return "another library's"; }
