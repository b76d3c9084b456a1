# A function that calls two others; a test gives each copy other names.

        .text
        .p2align 4
        .globl f000
f000:
        call g000
        call h000
        ret
