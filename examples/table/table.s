# Writes a table of sixteen bytes into the page of devices, by writes of 1, 2, 4 and 8 bytes, and reads it back by every
# width. Each write to the page and each read of it is one event.
#
# The data have the texts of the lines, one after another; they follow the code, so they begin at the
# address code_end - code.
        .text
code:   mov     $code_end - code, %edi  # the text of the next line
        mov     $0xfeb00000, %ebp       # the page of devices
        mov     $0x3f8, %edx            # the port of the console

        movb    $0x80, 0(%rbp)
        mov     $0x8100, %eax
        mov     %ah, 1(%rbp)
        movw    $0x8382, 2(%rbp)
        movl    $0x87868584, 4(%rbp)
        movabs  $0x8f8e8d8c8b8a8988, %rax
        mov     %rax, 8(%rbp)

# The whole table, by each width.
        call    print_text
        mov     $0, %esi                # how far in the table
bytes:  mov     (%rbp, %rsi), %bl
        mov     $2, %r8d
        call    print_number
        add     $1, %esi
        cmp     $16, %esi
        jne     bytes
        call    end_line

        call    print_text
        mov     $0, %esi
words:  mov     (%rbp, %rsi), %bx
        mov     $4, %r8d
        call    print_number
        add     $2, %esi
        cmp     $16, %esi
        jne     words
        call    end_line

        call    print_text
        mov     $0, %esi
longs:  mov     (%rbp, %rsi), %ebx
        mov     $8, %r8d
        call    print_number
        add     $4, %esi
        cmp     $16, %esi
        jne     longs
        call    end_line

        call    print_text
        mov     $0, %esi
quads:  mov     (%rbp, %rsi), %rbx
        call    print_whole
        add     $8, %esi
        cmp     $16, %esi
        jne     quads
        call    end_line

# The first byte and the first two, extended to 64 bits, with zeros and with the sign.
        call    print_text
        movzbq  (%rbp), %rbx
        call    print_whole
        movzwq  (%rbp), %rbx
        call    print_whole
        call    end_line

        call    print_text
        movsbq  (%rbp), %rbx
        call    print_whole
        movswq  (%rbp), %rbx
        call    print_whole
        call    end_line

# What becomes of a register that had all its bits set: at 8 and 16 bits the rest stays, and at 32 it becomes 0.
        call    print_text
        mov     $-1, %rbx
        mov     (%rbp), %bl
        call    print_whole
        mov     $-1, %rbx
        mov     (%rbp), %bx
        call    print_whole
        mov     $-1, %rbx
        mov     (%rbp), %ebx
        call    print_whole
        call    end_line
        hlt

# Prints the text at RDI up to its zero byte, and leaves RDI behind it.
print_text:
        mov     (%rdi), %al
        inc     %rdi
        test    %al, %al
        je      printed
        out     %al, (%dx)
        jmp     print_text
printed:
        ret

# Prints a space and RBX as sixteen hexadecimal digits.
print_whole:
        mov     $16, %r8d

# Prints a space and the last digits of RBX, as many as R8D says.
print_number:
        mov     $' ', %al
        out     %al, (%dx)
        mov     $16, %ecx
        sub     %r8d, %ecx
        shl     $2, %ecx
        shl     %cl, %rbx               # the digits are the highest now
digit:  mov     %rbx, %rax
        shr     $60, %rax
        add     $'0', %al
        cmp     $'9', %al
        jbe     print
        add     $'a' - '9' - 1, %al
print:  out     %al, (%dx)
        shl     $4, %rbx
        dec     %r8d
        jne     digit
        ret

end_line:
        mov     $'\n', %al
        out     %al, (%dx)
        ret
code_end:

        .data
        .asciz  "8 bits "
        .asciz  "16 bits"
        .asciz  "32 bits"
        .asciz  "64 bits"
        .asciz  "MOVZX  "
        .asciz  "MOVSX  "
        .asciz  "MOV    "
