# The start of the program, and its calls on Linux.
    .text
    .globl _start
_start:
    xorl %ebp, %ebp
    movq (%rsp), %rdi
    andq $-16, %rsp
    call begin
    movl %eax, %edi
    movl $60, %eax              # exit
    syscall

    .globl write
write:
    movl $1, %eax
    syscall
    ret
