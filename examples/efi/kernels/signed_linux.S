# The kernel of spin_linux.S, which is an EFI program as well, so that it can be signed and verified.
# Nobody starts it as one. Assembled at 0.
    .text
    .ascii "MZ"
    .org 0x3c
    .long 0x40                      # where the header is
    .ascii "PE\0\0"
    .word 0x8664, 1                 # x86-64, one section
    .long 0, 0, 0
    .word header_end - header, 0x22 # executable, anywhere in memory
header:
    .word 0x20b, 0                  # PE32+
    .long 0x400, 0, 0, 0x1000, 0x1000
    .quad 0
    .long 0x1000, 0x200             # how sections lie in memory, and in the file
    .long 0, 0, 0, 0
    .long 0x2000, 0x400, 0          # bytes in memory, of which so many are headers
    .word 10, 0                     # an application of the firmware's
    .quad 0, 0, 0, 0
    .long 0, 6
    .quad 0, 0, 0, 0, 0, 0
header_end:
    .ascii ".text\0\0\0"
    .long 0x400, 0x1000, 0x400, 0x400, 0, 0, 0, 0x60000020
#include "spin_linux.S"
    .org 0x800
