# A function with a call, an address by lea and an address in eight bytes.

        .text
        .p2align 4
        .globl three
three:
        mov $3, %eax
        call one
        lea two(%rip), %rdx
        jmp three
        .skip 8, 0x90
        .globl table
table:
        .quad two
