# Reads a guess of eight bytes and compares it with a password, byte by byte, up to the first difference. Then it
# prints whether they are equal.
#
# The data follow the code, so they begin at the address code_end - code. The guess is read behind them.
        .set    secret_start, password - data + code_end - code
        .set    secret_length, password_end - password
        .set    guess, data_end - data + code_end - code
        .text
code:   mov     $0x3f8, %edx            # the port of the console
        mov     $guess, %edi
        mov     $secret_length, %ecx
        rep insb
        mov     $guess, %edi
        mov     $secret_start, %esi
        mov     $secret_length, %ecx
next:   mov     (%rsi), %al
        cmp     (%rdi), %al
        jne     wrong                   # the way that is taken depends on the password
        inc     %rsi
        inc     %rdi
        sub     $1, %ecx
        jne     next
        mov     $'=', %al
        out     %al, (%dx)
        hlt
wrong:  mov     $'#', %al
        out     %al, (%dx)
        hlt
code_end:

        .data
data:
password:
        .ascii  "sesame 7"
password_end:
data_end:
