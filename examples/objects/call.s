# A call of the entry.

        .text
        .p2align 4
        call start
