# The address of a function in read-only data.
        .text
here:   ret
        .section .rodata,"a",@progbits
        .quad here
