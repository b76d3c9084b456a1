# A GLOBAL function whose name kernels use for the end of text.
        .text
        .globl etext
etext:  ret
