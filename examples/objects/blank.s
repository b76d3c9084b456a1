# A section of no bytes with an alignment, between two others, and a common that is aligned to 2 MiB.
    .globl start
start:
    hlt
    .section .rodata.one, "a"
    .byte 1, 2, 3
    .section .rodata, "a"
    .p2align 6
    .section .rodata.two, "a"
    .byte 7
    .comm wide, 1, 0x200000
