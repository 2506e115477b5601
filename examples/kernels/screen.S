# A Multiboot2 kernel that writes what it was told of firmware to the first serial port, and paints the screen
# that tag 8 tells of. Its bytes are the file of screen.toml; examples/qemu.sh runs it.
#
# The pixel in column x and line y has the lowest bits of x as red, of y as green, and of x xor y as blue, as
# many of each and where the tag says. So a wrong address, length of a line, place or number of bits is seen.
#
# Assembled at 0x100000.

    .text
    .code32

    .balign 8                       # a header stands at a multiple of 8 of the file
header:
    .long 0xe85250d6, 0, header_end - header
    .long -(0xe85250d6 + (header_end - header))
    .word 2, 0                      # the address tag: the file is no ELF file
    .long 24, header, header, file_ends, memory_end
    .word 3, 0                      # the entry tag
    .long 12, entry, 0
    .word 0, 0                      # the end tag
    .long 8
header_end:

entry:
    movl $memory_end, %esp
    leal 8(%ebx), %edi              # EDI: the tag
next_tag:
    cmpl $0, (%edi)
    je end
    movl $fields, %ebx
next_field:
    movzbl (%ebx), %eax
    cmpl %eax, (%edi)
    jne skip_field
    leal 3(%ebx), %esi
    call write_text
    call write_field
skip_field:
    addl $3, %ebx
skip_name:
    incl %ebx
    cmpb $0, -1(%ebx)
    jne skip_name
    cmpl $fields_end, %ebx
    jb next_field
    cmpl $8, (%edi)
    jne no_screen
    cmpb $1, 29(%edi)               # framebuffer_type: pixels have their colours in them
    jne no_screen
    call paint
no_screen:
    addl 4(%edi), %edi
    addl $7, %edi
    andl $-8, %edi
    jmp next_tag

# write_field: of the tag at EDI what the field at EBX says, and the end of the line
write_field:
    pushl %edi
    movl 4(%edi), %ebp
    addl %edi, %ebp                 # where the tag ends
    movzbl 1(%ebx), %eax
    addl %eax, %edi
    movzbl 2(%ebx), %ecx
    decl %ecx
    js rest
    call write_digits
    jmp field_written
rest:
    cmpl %ebp, %edi
    jae field_written
    xorl %ecx, %ecx
    call write_digits
    incl %edi
    jmp rest
field_written:
    movb $'\n', %al
    call write_byte
    popl %edi
    ret

# color VALUE, AT: puts the lowest bits of a number into the pixel EAX, by the colour that stands AT in the tag
    .macro color value, at
    movl \value, %edx
    movl $-1, %ebp
    movb \at + 1(%edi), %cl         # how many bits
    shll %cl, %ebp
    notl %ebp
    andl %ebp, %edx
    movb \at(%edi), %cl             # the lowest one
    shll %cl, %edx
    orl %edx, %eax
    .endm

# paint: the screen of the tag at EDI, which lies below 4 GiB
paint:
    movl 8(%edi), %eax              # framebuffer_addr
    movl %eax, line
    movl $0, y
next_line:
    movl line, %esi
    xorl %ebx, %ebx                 # EBX: x
next_pixel:
    xorl %eax, %eax
    color %ebx, 32
    color y, 34
    movl y, %ebp
    xorl %ebx, %ebp
    color %ebp, 36
    movzbl 28(%edi), %ecx           # framebuffer_bpp
    addl $7, %ecx
    shrl $3, %ecx
next_byte:
    movb %al, (%esi)
    shrl $8, %eax
    incl %esi
    loop next_byte
    incl %ebx
    cmpl 20(%edi), %ebx             # framebuffer_width
    jb next_pixel
    movl 16(%edi), %eax             # framebuffer_pitch
    addl %eax, line
    incl y
    movl y, %eax
    cmpl 24(%edi), %eax             # framebuffer_height
    jb next_line
    ret

    .include "serial.S"

# field TYPE, AT, COUNT, NAME: in tags of the type COUNT bytes that stand AT are a number; with 0 all from AT on are bytes
    .macro field type, at, count, name
    .byte \type, \at, \count
    .asciz "\name "
    .endm
fields:
    field 8, 8, 8, "screen"
    field 8, 16, 4, "pitch"
    field 8, 20, 4, "width"
    field 8, 24, 4, "height"
    field 8, 28, 1, "depth"
    field 8, 29, 1, "type"
    field 8, 30, 2, "reserved"
    field 8, 32, 0, "colors"
    field 11, 8, 4, "system table of 32-bit UEFI"
    field 12, 8, 8, "system table of 64-bit UEFI"
    field 13, 8, 1, "SMBIOS"
    field 13, 9, 1, "minor"
    field 13, 10, 0, "reserved and tables"
    field 17, 8, 4, "map of UEFI, by descriptors of"
    field 17, 12, 4, "version"
    field 17, 16, 0, "bytes"
fields_end:
ended:
    .asciz "ended\n"
nothing:
    .quad 0, 0
file_ends:

    # memory behind the file, which holds zeros at the entry
    .set line, file_ends
    .set y, line + 4
    .set memory_end, y + 0x404
