# What three kernels of this folder share: each writes to the first serial port what it was
# handed, and ends. The text is the same for 32 bits and for 64 bits.
#
# The kernel has put the registers into `registers`, and the addresses of the texts here:
#   greeting, line, file    where they begin; the line ends in a zero byte
#   file_end                where the file ends

# report: writes all, and ends the machine
report:
    movl greeting, %esi
    call write_text
    movl $line_is, %esi
    call write_text
    movl line, %esi
    call write_text
    movl $file_is, %esi
    call write_text
    movl file, %esi
next_byte:
    cmpl file_end, %esi
    jae file_written
    lodsb
    call write_byte
    jmp next_byte
file_written:
    movl $names, %ebx
    movl $registers, %edi
next_register:
    movb $'\n', %al
    call write_byte
    movl $8, %ecx
    movl %ebx, %esi
next_letter:
    lodsb
    call write_byte
    decl %ecx
    jnz next_letter
    addl $8, %ebx
    call write_number
    addl $8, %edi
    cmpl $names_end, %ebx
    jb next_register

    .include "serial.S"             # which goes on with the end

line_is:
    .asciz "\nline "
file_is:
    .asciz "\nfile "
ended:
    .asciz "\nended\n"
nothing:
    .quad 0, 0
