# A definition, which a kit has twice.

        .text
        .p2align 4
        .globl x
x:
        ret
