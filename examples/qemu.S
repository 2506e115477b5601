# The stub by which examples/qemu.sh enters a kernel: the last 512 bytes of a ROM of 64 KiB, which lies
# below 4 GiB. The processor starts at the reset vector, in real mode. The stub brings it into the
# state of the image's head, which the ROM begins with, and jumps to the kernel. It writes to no
# memory: what the kernel finds there is the image's parts, and zeros. But fetching the first
# instruction by the 64-bit entry makes the processor set accessed bits in the page tables.
#
# Assembled at 0xfffffe00. examples/qemu.hex has its bytes, so nothing need be assembled to run it;
# examples/kernels/bytes compares them where an assembler is at hand.

    .set rom, start - 0xfe00
    # the head of an image of version 2, as docs/FORMATS.md has it
    .set protocol, rom + 12
    .set linux64, 3
    .set registers, rom + 16
    .set rip, registers
    .set rax, registers + 8
    .set rbx, registers + 8 * 2
    .set rcx, registers + 8 * 3
    .set rdx, registers + 8 * 4
    .set rsi, registers + 8 * 5
    .set rdi, registers + 8 * 6
    .set rbp, registers + 8 * 7
    .set rsp, registers + 8 * 8
    .set r8, registers + 8 * 9
    .set rflags, registers + 8 * 17
    .set cr0, registers + 8 * 18
    .set cr3, registers + 8 * 19
    .set cr4, registers + 8 * 20
    .set efer, registers + 8 * 21
    .set ds, registers + 8 * 23
    .set es, registers + 8 * 24
    .set fs, registers + 8 * 25
    .set gs, registers + 8 * 26
    .set ss, registers + 8 * 27
    # what LGDT takes: the limit in two bytes, the base in eight. qemu.sh puts the head's numbers
    # here, where they lie in this order
    .set gdt, rom + 278
    # what is written to ports before, as a firmware would, by qemu.sh's list: the port in two bytes,
    # the bytes of the number in two, the number in four. Port 0 ends it
    .set port_writes, rom + 288

    .text
    .code16
start:
    cli
    inb $0x92, %al
    orb $2, %al                     # the A20 gate: each protocol wants it open
    andb $0xfe, %al                 # bit 0 would reset the machine
    outb %al, $0x92
    movw $(port_writes - rom), %si
next_write:
    movw %cs:(%si), %dx             # CS begins at the ROM here
    testw %dx, %dx
    jz ports_written
    movl %cs:4(%si), %eax
    cmpb $2, %cs:2(%si)
    jb write_byte
    je write_word
    outl %eax, %dx
    jmp port_written
write_word:
    outw %ax, %dx
    jmp port_written
write_byte:
    outb %al, %dx
port_written:
    addw $8, %si
    jmp next_write
ports_written:
    lgdtl %cs:(table32_at - rom)
    movl %cr0, %eax
    orb $1, %al
    movl %eax, %cr0
    ljmpl $0x10, $protected

    # A segment register keeps what it was loaded with. So the segments come from the stub's own
    # tables, which have the accessed bit set; from the kernel's table the processor would set that
    # bit in the kernel's memory, and a Multiboot2 kernel is handed no table.
    .code32
protected:
    movw %cs:ds, %ds
    movw %cs:es, %es
    movw %cs:fs, %fs
    movw %cs:gs, %gs
    movw %cs:ss, %ss
    cmpb $linux64, protocol
    je enter64

    lgdt gdt
    movl cr0, %eax
    movl %eax, %cr0
    movl $rflags, %esp
    popfl
    movl rax, %eax
    movl rbx, %ebx
    movl rcx, %ecx
    movl rdx, %edx
    movl rsi, %esi
    movl rdi, %edi
    movl rbp, %ebp
    movl rsp, %esp
    jmp *rip                        # a near jump: it loads no segment

enter64:
    lgdt table64_at
    movl cr4, %eax
    movl %eax, %cr4
    movl cr3, %eax
    movl %eax, %cr3
    movl $0xc0000080, %ecx          # EFER
    movl efer, %eax
    andl $0xfffffbff, %eax          # without LMA, which the processor sets itself once it pages
    xorl %edx, %edx
    wrmsr
    movl cr0, %eax
    movl %eax, %cr0                 # from here on by the image's page tables
    ljmp $0x10, $long

    .code64
long:
    lgdt gdt(%rip)
    leaq rflags(%rip), %rsp
    popfq
    movq rax(%rip), %rax
    movq rbx(%rip), %rbx
    movq rcx(%rip), %rcx
    movq rdx(%rip), %rdx
    movq rsi(%rip), %rsi
    movq rdi(%rip), %rdi
    movq rbp(%rip), %rbp
    movq rsp(%rip), %rsp
    movq r8(%rip), %r8
    movq r8 + 8(%rip), %r9
    movq r8 + 8 * 2(%rip), %r10
    movq r8 + 8 * 3(%rip), %r11
    movq r8 + 8 * 4(%rip), %r12
    movq r8 + 8 * 5(%rip), %r13
    movq r8 + 8 * 6(%rip), %r14
    movq r8 + 8 * 7(%rip), %r15
    jmp *rip(%rip)

    # the flat segments of docs/BOOT-RULES.md, at the selectors 0x10 and 0x18
    .balign 8, 0
table32:
    .quad 0, 0, 0x00cf9b000000ffff, 0x00cf93000000ffff
table64:
    .quad 0, 0, 0x00af9b000000ffff, 0x00cf93000000ffff
table32_at:
    .word 31
    .long table32
table64_at:
    .word 31
    .long table64

    .org 0x1f0                      # the reset vector, 16 bytes below 4 GiB
    .code16
    jmp start
    .org 0x200
