# The address of a byte in a section that isn't allocated, and so isn't linked.
    .p2align 4
    .quad note
    .section .gone
note:
    .byte 1
