# A boot sector that reads 64 blocks, writes them elsewhere, and so on for ever, by the firmware's calls. After 16 times it says so on the first serial
# port; where a call fails it says that, and stops.
    .code16
    .globl _start
_start:
    cld
    xorw %ax, %ax
    movw %ax, %ds
    movw %ax, %ss
    movw $0x7c00, %sp
    movb %dl, drive
    movw $16, %cx
again:
    pushw %cx
    movl $1024, lba
    movb $0x42, %ah
    call transfer
    movl $2048, lba
    movb $0x43, %ah
    call transfer
    popw %cx
    loop again
    movw $busy, %si
    call say
    movw $0, %cx            # 65,536 times, and once more
    jmp again
transfer:
    xorb %al, %al           # a write without verification
    movb drive, %dl
    movw $packet, %si
    int $0x13
    jc fail
    ret
fail:
    movw $failed, %si
    call say
halt:
    hlt
    jmp halt
say:
    lodsb
    testb %al, %al
    jz said
    movb %al, %ah
    movw $0x3fd, %dx        # the port's status: bit 5, it takes a character
wait:
    inb %dx, %al
    testb $0x20, %al
    jz wait
    movb %ah, %al
    movw $0x3f8, %dx
    outb %al, %dx
    jmp say
said:
    ret
drive:
    .byte 0
    .balign 4
packet:
    .byte 16, 0
    .word 64                # blocks
    .word 0, 0x2000         # to 2000h:0
lba:
    .quad 0
busy:
    .asciz "\r\nbusy\r\n"
failed:
    .asciz "\r\nfailed\r\n"
    .org 510
    .word 0xaa55
