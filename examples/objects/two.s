# A function behind its section's start, with calls of two other objects.

        .text
        .p2align 4
        ret
        .globl two
two:
        mov $2, %eax
        call three
        call one
        ret
