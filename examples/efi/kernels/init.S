# The first program of a Linux that was booted: says so, and restarts the machine.
    .globl _start
_start:
    movl $1, %eax                   # write
    movl $1, %edi
    leaq text(%rip), %rsi
    movl $(text_end - text), %edx
    syscall
    movl $169, %eax                 # reboot
    movl $0xfee1dead, %edi
    movl $672274793, %esi
    movl $0x01234567, %edx
    syscall
    jmp _start
text:
    .ascii "userland is reached\n"
text_end:
