# A piece in each of some areas and in a run, a common, and the addresses of edges and of the common.
    .globl start
start:
    hlt
    .section .init, "ax"
    .p2align 2
    .byte 0x55
    .section .fini, "ax"
    .p2align 2
    .byte 0x5d
    .section .rodata, "a"
    .byte 1, 2, 3
    .section .data.own, "aw"
    .byte 1, 2, 3, 4, 5
    .section .ctors, "aw"
    .p2align 3
    .quad start
    .section .init_array, "aw", @init_array
    .p2align 3
    .quad start
    .section .hooks, "aw"
    .p2align 2
    .quad start
    .section .bss.own, "aw", @nobits
    .p2align 5
    .skip 7
    .comm common, 16, 8
    .section .text.edges, "ax"
    .quad first_hook, last_hook, no_dtors, after_dtors, common, memory_end
