# Writes four bytes to the page of devices, and reads one of them back, extended with its sign. The host answers the
# read with eight bytes. The guest takes the lowest, and then writes all of RAX: bits 63:32 are 0.
        .text
        mov     $0xfeb00000, %ebx
        movl    $0x12345678, 0x40(%rbx)
        movsbl  0x40(%rbx), %eax
        mov     %rax, 0xff8(%rbx)
        hlt
