# An EFI program, as the bytes of its file: writes its options to the screen, and ends; without
# options it ends with an error. Assembled at 0.
    .text
    .code64
    .ascii "MZ"
    .org 0x3c
    .long 0x40                      # where the header is
    .ascii "PE\0\0"
    .word 0x8664, 1                 # x86-64, one section
    .long 0, 0, 0
    .word header_end - header, 0x22 # executable, anywhere in memory
header:
    .word 0x20b, 0                  # PE32+
    .long 0x200, 0, 0, 0x1000 + entry - code, 0x1000
    .quad 0
    .long 0x1000, 0x200             # how sections lie in memory, and in the file
    .long 0, 0, 0, 0
    .long 0x2000, 0x200, 0          # bytes in memory, of which so many are headers
    .word 10, 0                     # an application of the firmware's
    .quad 0, 0, 0, 0
    .long 0, 6
    .quad 0, 0, 0, 0, 0, 0
header_end:
    .ascii ".text\0\0\0"
    .long 0x200, 0x1000, 0x200, 0x200, 0, 0, 0, 0x60000020
    .org 0x200
code:
entry:                              # RCX: its handle, RDX: the firmware's tables
    pushq %rbx
    subq $0x30, %rsp
    movq %rdx, %rbx
    leaq loaded_image(%rip), %rdx
    leaq 0x28(%rsp), %r8
    movq 0x60(%rbx), %rax
    call *0x98(%rax)                # HandleProtocol
    movq 0x28(%rsp), %rax
    movq $0x8000000000000015, %rdx  # aborted
    cmpl $0, 0x30(%rax)             # the options' size
    je ended
    movq 0x38(%rax), %rdx
    movq 0x40(%rbx), %rcx
    call *8(%rcx)                   # OutputString
    xorl %edx, %edx
ended:
    movq %rdx, %rax
    addq $0x30, %rsp
    popq %rbx
    ret
loaded_image:
    .long 0x5b1b31a1
    .word 0x9562, 0x11d2
    .byte 0x8e, 0x3f, 0, 0xa0, 0xc9, 0x69, 0x72, 0x3b
    .org 0x400
