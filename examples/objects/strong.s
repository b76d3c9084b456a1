# The address of a GLOBAL name that nothing defines.
        .section .data.x,"aw",@progbits
        .quad absent
