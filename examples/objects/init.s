# Another piece of the code that runs at the start.
    .section .init, "ax"
    .p2align 2
    .byte 0x56
