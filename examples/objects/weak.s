# A WEAK function in a section of its own, and a call of it.
        .section .text.x,"ax",@progbits
        .weak x
x:      nop
        ret
        .text
        call x
