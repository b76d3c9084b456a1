# Functions of each visibility, a WEAK one and a common, and the addresses of three of them.
        .globl beta, alpha, alphabet, hidden, internal, protected
        .weak weak
        .hidden hidden
        .internal internal
        .protected protected
        .type alpha,@function
        .size alpha,1
        .comm shared,4,4
        .text
beta:   nop
alpha:  ret
alphabet: nop
hidden: nop
internal: nop
protected: nop
weak:   ret
        .section .data.x,"aw",@progbits
        .quad alpha
        .quad protected
        .quad hidden
