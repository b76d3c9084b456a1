# A byte more than an image may span.

        .section .space,"aw",@nobits
        .globl start
start:
        .skip 536870913
