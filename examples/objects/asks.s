# The addresses of names without a definition, of which one is WEAK, and one stands in a section of its own; a relocation that asks for
# nothing; and a common.
        .weak absent
        .comm shared,16,8
        .section .data.x,"aw",@progbits
        .quad printf
        .quad absent
        .quad etext
        .reloc 0, R_X86_64_NONE, unused
        .section .data.y,"aw",@progbits
        .quad lost
