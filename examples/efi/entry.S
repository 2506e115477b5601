# From the state in which a firmware leaves its application (64-bit mode, paging) to the registers
# that the core hands over: run_alone begins what is left to do without the firmware, and the
# trampoline does it. entry.c copies all between trampoline and trampoline_end to a page of its own
# below 4 GiB, where no step of the plan goes, and puts the registers into it. The list of moves has:
# where to, where from (0 for zeros), how many bytes; the last one has none.
#
# Each entry leaves 64-bit mode: the one of 64 bits too, since only so the paging that the firmware
# chose (of five levels, say) can be changed for that of the handover.

    .set code, 0x10                 # the selectors of the entry state
    .set data, 0x18

    # The registers, as bootcore.h has them, which `build` looks at: the address of each, and its offset in
    # the page
    .set offset, 0
    .irp name, bits, rip, rax, rbx, rcx, rdx, rsi, rdi, rbp, rsp, r8, r9, r10, r11, r12, r13, r14, \
        r15, rflags, cr0, cr3, cr4, efer, cs, ds, es, fs, gs, ss, gdt_base, gdt_limit, a20
    .set \name, trampoline_registers + offset
    .set at_\name, trampoline_registers - trampoline + offset
    .set offset, offset + 8
    .endr

    .text
    # Of CR4 it leaves the paging in use. The rest is the firmware's: global pages, by which its page
    # tables would last, shadow stacks, and what else limits what tables allow.
    .globl run_alone
run_alone:                          # (the page, page tables, moves, digest_moves or 0, its work)
    cli
    lidt no_handlers(%rip)          # the firmware's handlers may be written over
    movq %cr4, %rax
    andl $0x1020, %eax
    movq %rax, %cr4
    movq %rsi, %cr3                 # these map the code here to where it runs
    jmp *%rdi
no_handlers:
    .word 0
    .quad 0

    .globl trampoline, trampoline_registers, trampoline_end
    .balign 16
    .code64
trampoline:                         # interrupts are off, and there are no handlers
    cld
    leaq trampoline(%rip), %rbx     # the page: 32-bit code finds all by its offset from here
    movq %rcx, %r12
    movq %r8, %rsp                  # its stack, in no page that has code
next_move:                          # eight bytes at a time, and then the rest
    movq (%rdx), %rdi
    movq 8(%rdx), %rsi
    movq 16(%rdx), %rbp
    addq $24, %rdx
    testq %rbp, %rbp
    jz moved
    movq %rbp, %rcx
    shrq $3, %rcx
    andl $7, %ebp
    testq %rsi, %rsi
    jz zeros
    cmpq %rsi, %rdi
    je next_move                    # it is in place
    rep movsq
    movl %ebp, %ecx
    rep movsb
    jmp next_move
zeros:
    xorl %eax, %eax
    rep stosq
    movl %ebp, %ecx
    rep stosb
    jmp next_move

moved:
    testq %r12, %r12
    jz looked
    movq %rsp, %rdi                 # was this measured, as it lies there now?
    movl $1, %esi
    call *%r12
    testl %eax, %eax
    jnz looked
    ud2                             # no: without handlers this restarts the machine
looked:
    leaq stack_end(%rip), %rsp
    leaq table32(%rip), %rax        # what LGDT takes has addresses: of the two tables below, and of
    movq %rax, table32_at + 2(%rip) # the kernel's own, if it is handed one
    leaq table64(%rip), %rax
    movq %rax, table64_at + 2(%rip)
    movq gdt_base(%rip), %rax
    movq %rax, gdt_at + 2(%rip)
    movw gdt_limit(%rip), %ax
    movw %ax, gdt_at(%rip)
    leaq jump32_end(%rip), %rax     # the way to the kernel's entry from the jump at the end
    movl rip(%rip), %ecx
    subl %eax, %ecx
    movl %ecx, jump32_end - 4(%rip)

    lgdt table32_at(%rip)
    movl $data, %eax
    movw %ax, %ss
    movw %ax, %ds
    pushq $code
    leaq leave64(%rip), %rax
    pushq %rax
    lretq

    .code32
leave64:                            # physical addresses are those of before, so nothing moves
    movl %cr0, %eax
    andl $0x7fffffff, %eax          # without paging there is no 64-bit mode
    movl %eax, %cr0
    movl $0xc0000080, %ecx          # EFER
    xorl %eax, %eax
    xorl %edx, %edx
    wrmsr
    movl %eax, %cr4
    lldt %ax                        # 0: no local table
    # A segment register keeps what it was loaded with. So it is loaded from the table here, which has
    # the accessed bit set: from the kernel's the processor would set that bit in the kernel's memory,
    # and a Multiboot2 kernel is handed no table.
    movw at_es(%ebx), %es
    movw at_fs(%ebx), %fs
    movw at_gs(%ebx), %gs
    movw at_ss(%ebx), %ss
    movw at_ds(%ebx), %ds
    cmpl $64, at_bits(%ebx)
    je enter64

    movl at_cr4(%ebx), %eax
    movl %eax, %cr4
    movl at_cr0(%ebx), %eax
    movl %eax, %cr0
    lgdt (gdt_at - trampoline)(%ebx)
    leal at_rflags(%ebx), %esp
    popfl
    movl %ebx, %esp                 # the last register to be given its own value
    movl at_rax(%esp), %eax
    movl at_rbx(%esp), %ebx
    movl at_rcx(%esp), %ecx
    movl at_rdx(%esp), %edx
    movl at_rsi(%esp), %esi
    movl at_rdi(%esp), %edi
    movl at_rbp(%esp), %ebp
    movl at_rsp(%esp), %esp
    .byte 0xe9                      # JMP by a distance of 32 bits: no register, no memory
    .long 0
jump32_end:

enter64:
    lgdt (table64_at - trampoline)(%ebx)
    movl at_cr4(%ebx), %eax
    movl %eax, %cr4
    movl at_cr3(%ebx), %eax
    movl %eax, %cr3
    movl $0xc0000080, %ecx
    movl at_efer(%ebx), %eax
    andl $0xfffffbff, %eax          # without LMA, which the processor sets itself once it pages
    xorl %edx, %edx
    wrmsr
    movl at_cr0(%ebx), %eax
    movl %eax, %cr0                 # from here on by the handover's page tables
    leal (stack_end - trampoline)(%ebx), %esp
    leal (enter - trampoline)(%ebx), %eax
    pushl $code
    pushl %eax
    lretl

    .code64
enter:
    lgdt gdt_at(%rip)
    leaq rflags(%rip), %rsp
    popfq
    movq rax(%rip), %rax
    movq rbx(%rip), %rbx
    movq rcx(%rip), %rcx
    movq rdx(%rip), %rdx
    movq rsi(%rip), %rsi
    movq rdi(%rip), %rdi
    movq rbp(%rip), %rbp
    movq rsp(%rip), %rsp
    movq r8(%rip), %r8
    movq r9(%rip), %r9
    movq r10(%rip), %r10
    movq r11(%rip), %r11
    movq r12(%rip), %r12
    movq r13(%rip), %r13
    movq r14(%rip), %r14
    movq r15(%rip), %r15
    jmp *rip(%rip)

    # flat segments, as docs/BOOT-RULES.md has them
    .balign 8, 0
table32:
    .quad 0, 0, 0x00cf9b000000ffff, 0x00cf93000000ffff
table64:
    .quad 0, 0, 0x00af9b000000ffff, 0x00cf93000000ffff
table32_at:
    .word 31
    .quad 0
table64_at:
    .word 31
    .quad 0
gdt_at:
    .word 0
    .quad 0

    .balign 8, 0
trampoline_registers:
    .fill offset / 8 + 4, 8, 0      # with those that are reserved
    .fill 4, 8, 0                   # room below the stack's end, for what is pushed
    .org trampoline + 4096          # if this is an error, all is longer than a page
stack_end:
trampoline_end:

    .section .note.GNU-stack, "", @progbits
