# Reads a guess of eight bytes and compares it with a password: all bytes, whether they differ or not. The outcome, 1
# where they are equal and else 0, goes to the byte behind the guess, and the same line is printed in either case.
#
# The data follow the code, so they begin at the address code_end - code. The guess is read behind them.
        .set    line_start, line - data + code_end - code
        .set    secret_start, password - data + code_end - code
        .set    secret_length, password_end - password
        .set    guess, data_end - data + code_end - code
        .text
code:   mov     $0x3f8, %edx            # the port of the console
        mov     $guess, %edi
        mov     $secret_length, %ecx
        rep insb
        mov     $guess, %edi
        mov     $secret_start, %esi
        mov     $secret_length, %ecx
        xor     %ebx, %ebx              # the bits in which any two bytes differ
next:   mov     (%rsi), %al
        xor     (%rdi), %al
        or      %al, %bl
        inc     %rsi
        inc     %rdi
        sub     $1, %ecx                # DEC would keep CF, and with it the label on the flags
        jne     next
        test    %bl, %bl
        sete    (%rdi)
        mov     $line_start, %esi
        mov     $line_end - line, %ecx
        rep outsb
        hlt
code_end:

        .data
data:
line:   .ascii  "compared\n"
line_end:
password:
        .ascii  "sesame 7"
password_end:
data_end:
