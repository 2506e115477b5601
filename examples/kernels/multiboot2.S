# A Multiboot2 kernel that writes what it was handed to the first serial port. Its bytes are the file of
# multiboot2.toml; examples/qemu.sh runs it.
#
# Assembled at 0x100000.

    .include "registers.S"
    .text
    .code32

    .balign 8                       # a header stands at a multiple of 8 of the file, also of an ELF file
header:
    .long 0xe85250d6, 0, header_end - header
    .long -(0xe85250d6 + (header_end - header))
    .word 2, 0                      # the address tag: the file is no ELF file
    .long 24, header, header, file_ends, memory_end
    .word 3, 0                      # the entry tag
    .long 12, entry, 0
    .word 0, 0                      # the end tag
    .long 8
header_end:

entry:
    keep_registers
    movl $greets, greeting
    movl $nothing, line
    cmpl $0x36d76289, registers + 8
    jne report
    # the tags of the boot information at EBX: 1 the line, 3 a module
    movl registers + 8 * 2, %ebx
    leal 8(%ebx), %esi
next_tag:
    movl (%esi), %eax
    cmpl $0, %eax
    je report
    cmpl $1, %eax
    jne no_line
    leal 8(%esi), %ecx
    movl %ecx, line
no_line:
    cmpl $3, %eax
    jne no_module
    movl 8(%esi), %ecx
    movl %ecx, file
    movl 12(%esi), %ecx
    movl %ecx, file_end
no_module:
    addl 4(%esi), %esi
    addl $7, %esi
    andl $-8, %esi
    jmp next_tag

    .include "report.S"
greets:
    .asciz "a Multiboot2 kernel"
    register_names
file_ends:

    # memory behind the file, which holds zeros at the entry
    .set greeting, file_ends
    .set line, greeting + 4
    .set file, greeting + 8
    .set file_end, greeting + 12
    .set table, greeting + 16
    .set registers, greeting + 32
    .set stack_end, registers + 0x400
    .set memory_end, stack_end
