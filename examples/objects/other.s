# The group of `inside.s`, and a call of its function.
        .section .text.thunk,"axG",@progbits,__thunk,comdat
        .globl other
other:  ret
        .text
        call other
