# The addresses of the end of text and of the start of a run.
        .text
        .quad etext
        .quad x_start
