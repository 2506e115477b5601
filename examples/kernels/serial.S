# How the kernels of this folder write to the first serial port, and end. The text is the same for 32 bits and
# for 64 bits. The kernel has its last line as `ended`, and 16 zero bytes as `nothing`.

# end: writes the last line, and ends the machine
end:
    movl $ended, %esi
    call write_text
    # without a table of interrupts one interrupt is three faults: the machine restarts, and QEMU
    # ends by -no-reboot
    lidt nothing
    int3
halt:
    hlt
    jmp halt

# write_text: the text at ESI, up to its zero byte
write_text:
    lodsb
    testb %al, %al
    jz text_written
    call write_byte
    jmp write_text
text_written:
    ret

# write_number: the 8 bytes at EDI as 16 hexadecimal digits
write_number:
    movl $7, %ecx
# write_digits: the ECX + 1 bytes at EDI, the last one first
write_digits:
    movb (%edi, %ecx), %al
    shrb $4, %al
    call write_digit
    movb (%edi, %ecx), %al
    andb $15, %al
    call write_digit
    decl %ecx
    jns write_digits
    ret

write_digit:
    addb $'0', %al
    cmpb $'9', %al
    jbe write_byte
    addb $'a' - '0' - 10, %al
# write_byte: AL, once the port is ready; AH and DX change
write_byte:
    movb %al, %ah
    movw $0x3fd, %dx
not_ready:
    inb %dx, %al
    testb $0x20, %al
    jz not_ready
    movb %ah, %al
    movw $0x3f8, %dx
    outb %al, %dx
    ret
