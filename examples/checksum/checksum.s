# Prints the CRC-32 of its data as eight hexadecimal digits and a line feed.
#
# The data follow the code, so they begin at the address code_end - code.
        .text
code:   mov     $code_end - code, %esi  # the next byte of the data
        mov     $data_end - data, %ecx  # how many bytes are left
        mov     $0xffffffff, %ebx       # the remainder so far
byte:   movzbl  (%rsi), %eax
        xor     %eax, %ebx
        mov     $8, %eax                # how many bits of the byte are left
bit:    shr     %ebx
        jnc     shifted
        xor     $0xedb88320, %ebx       # the polynomial, its bits in reverse
shifted:
        dec     %eax
        jne     bit
        inc     %rsi
        dec     %ecx
        jne     byte
        not     %ebx

        mov     $0x3f8, %edx            # the port of the console
        mov     $8, %ecx                # how many digits are left
digit:  mov     %ebx, %eax
        shr     $28, %eax               # the greatest of them
        call    print_digit
        shl     $4, %ebx
        dec     %ecx
        jne     digit
        mov     $'\n', %al
        out     %al, (%dx)
        hlt

# Prints the number in AL, below 16, as a hexadecimal digit.
print_digit:
        add     $'0', %al
        cmp     $'9', %al
        jbe     print
        add     $'a' - '9' - 1, %al
print:  out     %al, (%dx)
        ret
code_end:

        .data
data:   .ascii  "123456789"
data_end:
