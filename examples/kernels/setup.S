# What the two Linux kernels of this folder share: the setup header, by the fields of the Linux/x86 Boot
# Protocol that are not 0. The kernel has set `xloadflags`, and its code follows.

    .org 0x1f1
    .byte 1                         # setup_sects
    .org 0x1fe
    .word 0xaa55                    # boot_flag
    .byte 0xeb, 0x66                # jump: the header ends at 0x268
    .ascii "HdrS"
    .word 0x020c                    # version
    .org 0x211
    .byte 1                         # loadflags: loaded high
    .org 0x22c
    .long 0x37ffffff                # initrd_addr_max
    .org 0x236
    .word xloadflags
    .long 255                       # cmdline_size
    .org 0x258
    .quad 0x100000                  # pref_address
    .long 0x2000                    # init_size
    .org 0x400
