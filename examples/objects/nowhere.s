# A call of a name that nothing defines.

        .text
        .p2align 4
        call nowhere
