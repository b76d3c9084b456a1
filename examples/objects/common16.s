# A common of 16 bytes at a multiple of 4, and its address.
        .comm x,16,4
        .text
        .quad x
