# A load of the entry's address from its slot.

        .text
        .p2align 4
        .globl start
start:
        movq start@GOTPCREL(%rip), %rax
