# A Multiboot2 kernel, an ELF file, that writes what it is told to the first serial port: the line,
# modules with their lines and bytes, the memory map, what firmware tells, the copies of the RSDP. It looks whether its own
# memory behind the file is zero, and whether each usable range can be written at both ends. Then it
# restarts the machine.
    .section .header, "a"
    .balign 8
header:
    .long 0xe85250d6, 0, header_end - header
    .long -(0xe85250d6 + (header_end - header))
    .word 1, 0                      # a request that must be granted: the line, modules, the map
    .long 20, 1, 3, 6
    .long 0
    .word 0, 0
    .long 8
header_end:

    .bss
zeros:
    .skip 0x8000
stack_end:


    .text
    .code32
    .globl start
start:
    movl $stack_end, %esp
    cmpl $0x36d76289, %eax
    movl $no_magic, %esi
    jne wrong
    testl $7, %ebx
    jnz wrong
    movl $not_zero, %esi            # but for what was pushed: nothing yet
    movl $zeros, %edi
    movl $(stack_end - zeros) / 4, %ecx
    xorl %eax, %eax
    repe scasl
    jne wrong

    leal 8(%ebx), %ebp              # the tags
next_tag:
    movl (%ebp), %eax
    testl %eax, %eax
    jz all_tags
    cmpl $1, %eax
    je line
    cmpl $3, %eax
    je module
    cmpl $6, %eax
    je map
    movl $screen_is, %esi
    cmpl $8, %eax
    je content
    movl $efi_is, %esi
    cmpl $12, %eax
    je content
    movl $smbios_is, %esi
    cmpl $13, %eax
    je content
    movl $copy_is, %esi
    cmpl $14, %eax
    je content
    cmpl $15, %eax
    je content
    movl $efi_map_is, %esi
    cmpl $17, %eax
    je content
after_tag:
    addl 4(%ebp), %ebp
    addl $7, %ebp
    andl $-8, %ebp
    jmp next_tag

line:
    movl $line_is, %esi
    call write_text
    leal 8(%ebp), %esi
    call write_text
    call write_end
    jmp after_tag
module:
    movl $module_is, %esi
    call write_text
    leal 16(%ebp), %esi
    call write_text
    movl $bytes_are, %esi
    call write_text
    movl 8(%ebp), %esi
next_byte:
    cmpl 12(%ebp), %esi
    jae module_ends
    lodsb
    call write_byte
    jmp next_byte
module_ends:
    call write_end
    jmp after_tag
map:
    leal 16(%ebp), %ebx
    movl 4(%ebp), %edi
    addl %ebp, %edi
next_range:
    cmpl %edi, %ebx
    jae after_tag
    movl $map_is, %esi
    call write_text
    movl $8, %ecx
    movl %ebx, %esi
    call write_number
    call write_blank
    addl $8, %esi
    movl $8, %ecx
    call write_number
    call write_blank
    addl $8, %esi
    movl $4, %ecx
    call write_number
    call write_end
    call try_range
    addl $24, %ebx
    jmp next_range
content:                            # behind the text at ESI
    call write_text
    leal 8(%ebp), %esi
    movl 4(%ebp), %edi
    addl %ebp, %edi
next_of_content:
    movl $1, %ecx
    call write_number
    incl %esi
    cmpl %edi, %esi
    jb next_of_content
    call write_end
    jmp after_tag

all_tags:
    movl $ended, %esi
wrong:
    call write_text
    call write_end
    movb $0xfe, %al                 # the keyboard's controller restarts the machine
    outb %al, $0x64
    lidt nothing
    int3

# try_range: the range at EBX, if it is usable and within 4 GiB: its first and its last four bytes can be
# changed, and are changed back
try_range:
    cmpl $1, 16(%ebx)
    jne tried
    cmpl $0, 4(%ebx)
    jne tried
    cmpl $0, 12(%ebx)
    jne tried
    movl (%ebx), %edx
    testl %edx, %edx
    jz tried
    call try_word
    addl 8(%ebx), %edx
    jc tried
    subl $4, %edx
    call try_word
tried:
    ret
try_word:
    movl (%edx), %eax
    notl (%edx)
    notl %eax
    cmpl %eax, (%edx)
    jne no_memory
    notl (%edx)
    ret
no_memory:
    movl $nothing_there, %esi
    jmp wrong

# write_number: ECX bytes at ESI, the lowest one first, in hexadecimal digits
write_number:
    decl %ecx
    js written
    movb (%esi, %ecx), %al
    shrb $4, %al
    call write_digit
    movb (%esi, %ecx), %al
    andb $15, %al
    call write_digit
    jmp write_number
written:
    ret
write_digit:
    addb $'0', %al
    cmpb $'9', %al
    jbe write_byte
    addb $'a' - '0' - 10, %al
write_byte:                         # AL; AH and DX change
    movb %al, %ah
    movw $0x3fd, %dx
not_ready:
    inb %dx, %al
    testb $0x20, %al
    jz not_ready
    movb %ah, %al
    movw $0x3f8, %dx
    outb %al, %dx
    ret
write_end:
    movb $'\n', %al
    jmp write_byte
write_blank:
    movb $' ', %al
    jmp write_byte
write_text:
    lodsb
    testb %al, %al
    jz written
    call write_byte
    jmp write_text

line_is:
    .asciz "told line "
module_is:
    .asciz "told module "
bytes_are:
    .asciz ": "
map_is:
    .asciz "told map "
screen_is:
    .asciz "told screen "
efi_is:
    .asciz "told efi "
smbios_is:
    .asciz "told smbios "
efi_map_is:
    .asciz "told efi map "
copy_is:
    .asciz "told copy "
ended:
    .asciz "told all"
no_magic:
    .asciz "told wrong: the registers"
not_zero:
    .asciz "told wrong: memory behind the file is not zero"
nothing_there:
    .asciz "told wrong: usable memory is not there"
    .balign 4
nothing:
    .quad 0
