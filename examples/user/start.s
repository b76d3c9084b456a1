# The start of a kernel.
    .text
    .globl start
start:
    call main
1:  hlt
    jmp 1b
    .section .note.GNU-stack, "", @progbits
