# Reads three bytes by REP INSB, and puts out two elements of two bytes from where they went: the three bytes, and the
# one behind them in RAM. The host has changed SW_EXITINFO2 and SW_SCRATCH to another count and another buffer, and
# filled eight bytes. The guest loads neither of both, so the script has no line for them, and it takes three bytes.
        .text
code:   mov     $code_end - code, %edi
        mov     $0x3f8, %edx
        mov     $3, %ecx
        rep insb
        mov     $code_end - code, %esi
        mov     $2, %ecx
        rep outsw
        hlt
code_end:
