# A multiboot header (Multiboot Specification 0.6.96) with the addresses at which a boot program loads the kernel, and the way from
# there, in 32 bits and without pages, to 64 bits at the addresses of the link.

# what the addresses of the link are above those of memory
    .set HIGH, 0xffffffff80000000
    .set MAGIC, 0x1badb002
# the addresses stand in the header
    .set FLAGS, 0x10000

    .text
    .p2align 2
header:
    .long MAGIC, FLAGS, -(MAGIC + FLAGS)
    .long header - HIGH
    .long kernel_start - HIGH, kernel_end - HIGH, memory_end - HIGH
    .long enter - HIGH

    .code32
enter:
    cld
# two tables lead to one that maps 1 GiB in pages of 2 MiB: from 0 on, and from HIGH on
    movl $(third - HIGH + 3), %eax
    movl %eax, fourth - HIGH
    movl %eax, fourth - HIGH + 511 * 8
    movl $(second - HIGH + 3), %eax
    movl %eax, third - HIGH
    movl %eax, third - HIGH + 510 * 8
    movl $(second - HIGH), %edi
    movl $0x83, %eax
    movl $512, %ecx
1:  movl %eax, (%edi)
    addl $0x200000, %eax
    addl $8, %edi
    loop 1b
# 64 bits: the tables, PAE, LME, pages
    movl $(fourth - HIGH), %eax
    movl %eax, %cr3
    movl %cr4, %eax
    orl $0x20, %eax
    movl %eax, %cr4
    movl $0xc0000080, %ecx
    rdmsr
    orl $0x100, %eax
    wrmsr
    movl %cr0, %eax
    orl $0x80000000, %eax
    movl %eax, %cr0
    lgdt table_at - HIGH
    ljmp $8, $(long - HIGH)

    .code64
long:
    movq $start, %rax
    jmp *%rax

    .globl start
start:
    xorl %eax, %eax
    movw %ax, %ds
    movw %ax, %es
    movw %ax, %ss
    movq $stack_end, %rsp
    xorl %ebp, %ebp
    call kernel
1:  hlt
    jmp 1b

    .section .rodata
    .p2align 3
table:
    .quad 0, 0x00af9a000000ffff
table_at:
    .word 15
    .long table - HIGH

    .bss
    .p2align 12
fourth:
    .skip 4096
third:
    .skip 4096
second:
    .skip 4096
    .skip 16384
stack_end:
