# A function that calls another object.

        .text
        .p2align 4
        .globl one
one:
        mov $1, %eax
        call two
        ret
