# A Multiboot2 kernel that stays at its first instruction, so that registers and memory can be looked at
# as they were handed over. Assembled at 0x200000.
    .text
    .code32
header:
    .long 0xe85250d6, 0, header_end - header
    .long -(0xe85250d6 + (header_end - header))
    .word 2, 0                      # the address tag: the file is no ELF file
    .long 24, header, header, 0, memory_end
    .word 3, 0                      # the entry tag
    .long 12, entry, 0
    .word 0, 0                      # the end tag
    .long 8
header_end:
entry:
    jmp entry
    .set memory_end, header + 0x2345
