# `start` and 2^31 more, from here, in four bytes: one past what they hold, where this stands 16 bytes behind `start`.
    .p2align 4
    .long start + 0x80000010 - .
