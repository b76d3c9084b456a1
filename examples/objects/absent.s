# The address of a WEAK name that nothing defines.
        .weak absent
        .text
        .quad absent
