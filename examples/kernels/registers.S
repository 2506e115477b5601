# What the two kernels of 32 bits share: each register is kept as it was at the entry. ESP is 0 there,
# so the first stack is one of our own, and until then nothing is pushed.

# keep_registers: first of all
    .macro keep_registers
    movl %eax, registers + 8
    movl %ebx, registers + 8 * 2
    movl %ecx, registers + 8 * 3
    movl %edx, registers + 8 * 4
    movl %esi, registers + 8 * 5
    movl %edi, registers + 8 * 6
    movl %ebp, registers + 8 * 7
    movl %esp, registers + 8 * 8
    movl $stack_end, %esp
    pushf
    popl registers + 8 * 9
    call here\@
here\@:
    popl %eax
    subl $(here\@ - entry), %eax
    movl %eax, registers
    movl %cr0, %eax
    movl %eax, registers + 8 * 10
    movl %cr3, %eax
    movl %eax, registers + 8 * 11
    movl %cr4, %eax
    movl %eax, registers + 8 * 12
    movl $0xc0000080, %ecx
    rdmsr
    movl %eax, registers + 8 * 13
    movl %edx, registers + 8 * 13 + 4
    movw %cs, registers + 8 * 14
    movw %ds, registers + 8 * 15
    movw %es, registers + 8 * 16
    movw %fs, registers + 8 * 17
    movw %gs, registers + 8 * 18
    movw %ss, registers + 8 * 19
    sgdtl table
    movl table + 2, %eax
    movl %eax, registers + 8 * 20
    movw table, %ax
    movw %ax, registers + 8 * 21
    .endm

# the names of the registers, 8 letters each, in the order of the image
    .macro register_names
names:
    .ascii "EIP     EAX     EBX     ECX     EDX     ESI     EDI     EBP     "
    .ascii "ESP     EFLAGS  CR0     CR3     CR4     EFER    CS      DS      "
    .ascii "ES      FS      GS      SS      GDT     limit   "
names_end:
    .endm
