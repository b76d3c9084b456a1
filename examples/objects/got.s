# The place of `start` in a global offset table, by a type that isn't linked.
    .p2align 4
    .long start@GOT
