# A byte, then the address of the entry.

        .text
        .p2align 4
        .byte 0xe8
        .quad start
