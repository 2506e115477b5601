# A Linux kernel for the 64-bit entry: it writes what it was handed to the first serial port. Its bytes
# are the file of linux64.toml; examples/qemu.sh runs it.
#
# Assembled at 0xffc00: the code behind the 1024 bytes of the setup is then at 0x100000. The kernel
# is entered 0x200 bytes later.

    .text
    .code64

setup:
    .set xloadflags, 1              # there is a 64-bit entry
    .include "setup.S"
loaded:
    .org 0x600

entry:
    movq %rax, registers + 8
    movq %rbx, registers + 8 * 2
    movq %rcx, registers + 8 * 3
    movq %rdx, registers + 8 * 4
    movq %rsi, registers + 8 * 5
    movq %rdi, registers + 8 * 6
    movq %rbp, registers + 8 * 7
    movq %rsp, registers + 8 * 8
    movq %r8, registers + 8 * 9
    movq %r9, registers + 8 * 10
    movq %r10, registers + 8 * 11
    movq %r11, registers + 8 * 12
    movq %r12, registers + 8 * 13
    movq %r13, registers + 8 * 14
    movq %r14, registers + 8 * 15
    movq %r15, registers + 8 * 16
    movl $stack_end, %esp           # RSP is 0 at the entry
    pushfq
    popq registers + 8 * 17
    leaq entry(%rip), %rax
    movq %rax, registers
    movq %cr0, %rax
    movq %rax, registers + 8 * 18
    movq %cr3, %rax
    movq %rax, registers + 8 * 19
    movq %cr4, %rax
    movq %rax, registers + 8 * 20
    movl $0xc0000080, %ecx
    rdmsr
    movl %eax, registers + 8 * 21
    movl %edx, registers + 8 * 21 + 4
    movw %cs, registers + 8 * 22
    movw %ds, registers + 8 * 23
    movw %es, registers + 8 * 24
    movw %fs, registers + 8 * 25
    movw %gs, registers + 8 * 26
    movw %ss, registers + 8 * 27
    sgdt table
    movq table + 2, %rax
    movq %rax, registers + 8 * 28
    movw table, %ax
    movw %ax, registers + 8 * 29

    movl $greets, greeting
    # the boot parameters at RSI: cmd_line_ptr, ramdisk_image, ramdisk_size
    movq registers + 8 * 5, %rsi
    movl 0x228(%rsi), %eax
    movl %eax, line
    movl 0x218(%rsi), %eax
    movl %eax, file
    addl 0x21c(%rsi), %eax
    movl %eax, file_end
    jmp report

    .include "report.S"
greets:
    .asciz "a Linux kernel, by its 64-bit entry"
names:
    .ascii "RIP     RAX     RBX     RCX     RDX     RSI     RDI     RBP     "
    .ascii "RSP     R8      R9      R10     R11     R12     R13     R14     "
    .ascii "R15     RFLAGS  CR0     CR3     CR4     EFER    CS      DS      "
    .ascii "ES      FS      GS      SS      GDT     limit   "
names_end:

    # memory behind the file, which holds zeros at the entry, as far as init_size says
    .set greeting, loaded + 0x1000
    .set line, greeting + 4
    .set file, greeting + 8
    .set file_end, greeting + 12
    .set table, greeting + 16
    .set registers, greeting + 32
    .set stack_end, loaded + 0x2000
