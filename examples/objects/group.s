# A COMDAT group with a GLOBAL function, a call of it, and a field of unwind tables that leads into the group.
        .section .text.thunk,"axG",@progbits,__thunk,comdat
        .globl __thunk
__thunk:
        nop
inner:  ret
        .text
        call __thunk
        .section .eh_frame,"a",@progbits
        .quad inner
