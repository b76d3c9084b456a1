# A common of 4 bytes at a multiple of 8, and its address.
        .comm x,4,8
        .text
        .quad x
