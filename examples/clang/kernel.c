/* A kernel that only stops the processor. It calls nothing and has no data, so that its object is one text section without
   relocations. */

__attribute__((noreturn)) void start(void)
{
    for (;;)
        __asm__ volatile("cli\n\thlt");
}
