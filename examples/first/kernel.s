# A kernel that only stops the processor. It is one text section without relocations: the jump leads to a local label, which the
# assembler resolves by itself.

        .text
        .p2align 4
        .globl  start
start:
        cli
1:      hlt
        jmp     1b
