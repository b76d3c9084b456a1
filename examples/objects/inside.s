# The group of `group.s`, with another function, and a field of code that leads into the group.
        .section .text.thunk,"axG",@progbits,__thunk,comdat
        .globl other
other:  nop
inner:  ret
        .text
        .quad inner
