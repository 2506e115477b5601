# A Linux kernel for the 32-bit entry: it writes what it was handed to the first serial port. Its bytes
# are the file of linux.toml; examples/qemu.sh runs it.
#
# Assembled at 0xffc00: the code behind the 1024 bytes of the setup is then at 0x100000, where it is
# entered.

    .include "registers.S"
    .text
    .code32

setup:
    .set xloadflags, 0
    .include "setup.S"

entry:
    keep_registers
    movl $greets, greeting
    # the boot parameters at ESI: cmd_line_ptr, ramdisk_image, ramdisk_size
    movl registers + 8 * 5, %esi
    movl 0x228(%esi), %eax
    movl %eax, line
    movl 0x218(%esi), %eax
    movl %eax, file
    addl 0x21c(%esi), %eax
    movl %eax, file_end
    jmp report

    .include "report.S"
greets:
    .asciz "a Linux kernel, by its 32-bit entry"
    register_names

    # memory behind the file, which holds zeros at the entry, as far as init_size says
    .set greeting, entry + 0x1000
    .set line, greeting + 4
    .set file, greeting + 8
    .set file_end, greeting + 12
    .set table, greeting + 16
    .set registers, greeting + 32
    .set stack_end, entry + 0x2000
