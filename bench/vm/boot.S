# A boot sector: it writes the text at its end to the first serial port, and switches the machine off.
    .code16
    .globl _start
_start:
    cld
    xorw %ax, %ax
    movw %ax, %ds
    movw $text, %si
next:
    lodsb
    testb %al, %al
    jz done
    movb %al, %ah
    movw $0x3fd, %dx        # the port's status: bit 5, it takes a character
wait:
    inb %dx, %al
    testb $0x20, %al
    jz wait
    movb %ah, %al
    movw $0x3f8, %dx
    outb %al, %dx
    jmp next
done:
    movw $0x604, %dx        # power management of QEMU's machines: soft off
    movw $0x2000, %ax
    outw %ax, %dx
halt:
    hlt
    jmp halt
text:
    .asciz TEXT
    .org 510
    .word 0xaa55
