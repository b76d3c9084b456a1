# The head of a kernel: its entry.

        .text
        .p2align 4
        .globl start
start:
        ret
