// A kernel that prints some lines on the first serial line and ends the machine.
typedef void Constructor(void);

extern Constructor *const init_array_start[], *const init_array_end[];

static const char *const parts[] = {"text", "rodata", "data", "bss"};
static long sum = 40; // .data
static long count;    // .bss

__attribute__((constructor)) static void two_more(void) { sum += 2; }

static void out(unsigned short port, unsigned char byte) {
    __asm__ volatile("outb %0, %1" : : "a"(byte), "Nd"(port));
}

static unsigned char in(unsigned short port) {
    unsigned char byte;
    __asm__ volatile("inb %1, %0" : "=a"(byte) : "Nd"(port));
    return byte;
}

// The line is free when bit 5 of its status is set (16550).
static void put(const char *text) {
    for (; *text; text++) {
        while (!(in(0x3f8 + 5) & 0x20))
            ;
        out(0x3f8, *text);
    }
}

void kernel(void) {
    for (Constructor *const *it = init_array_start; it < init_array_end; it++)
        (*it)();
    put("linked by relink\n");
    for (unsigned i = 0; i < sizeof parts / sizeof *parts; i++, count++) {
        put(parts[i]);
        put("\n");
    }
    put(sum == 42 && count == 4 ? "all is right\n" : "something is wrong\n");
    out(0xf4, 0x10); // the exit device of qemu: it ends with status 33
}
