// Strings that may be merged, and bytes that are zero at the start.
const char *names[] = {"tick", "tock"};
static char seen[64];
int strange(const char *name) {
    int n = 0;
    for (; *name; name++)
        seen[n++ & 63] = *name;
    return n;
}
