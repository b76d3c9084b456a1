// Functions that are called through pointers.
extern int ticks;
static int tick(int n) { return ticks += n; }
static int tock(int n) { return ticks -= n; }
int (*handlers[])(int) = {tick, tock};
int turn(int n) { return handlers[n & 1](n); }
