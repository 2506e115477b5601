# A file that is to the core a Linux kernel with both entries, and stays at the first instruction of
# either. Assembled at 0.
    .text
    .code32
    .org 0x1f1
    .byte 1                         # setup_sects: the payload is at 0x400
    .org 0x1fe
    .word 0xaa55                    # boot_flag
    .byte 0xeb, 0x66                # jump: the header ends at 0x268
    .ascii "HdrS"
    .word 0x020c                    # version
    .org 0x211
    .byte 1                         # loadflags: loaded high
    .org 0x22c
    .long 0x37ffffff                # initrd_addr_max
    .long 0x200000                  # kernel_alignment
    .byte 1                         # relocatable_kernel
    .org 0x236
    .word 1                         # xloadflags: there is a 64-bit entry
    .long 255                       # cmdline_size
    .org 0x258
    .quad 0x200000                  # pref_address
    .long 0x12345                   # init_size
    .org 0x400
entry:
    jmp entry
    .org 0x600
entry64:
    jmp entry64
    .ascii "the end of the file"
