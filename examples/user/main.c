// Calls through pointers, by way of a thunk that each object has in a group of its own.
extern int (*handlers[])(int);
extern const char *names[];
int ticks;
static int total = 3;
int strange(const char *);
int main(void) {
    for (int i = 0; i < 2; i++)
        total += handlers[i](total) + strange(names[i]);
    return total + ticks;
}
