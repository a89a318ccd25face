# Reads its input into RAM with REP INSB, and prints it back with REP OUTSB.
#
# Behind the code RAM is zeros. The port gives 0 where no byte of the input is left, so the input's end is the
# first zero byte.
        .text
code:   mov     $0x3f8, %edx            # the port of the console
        mov     $code_end - code, %edi  # where the input goes
        mov     $1024, %ecx             # the most bytes of it
        rep insb
        mov     $code_end - code, %esi  # where it is
count:  cmpb    $0, (%rsi, %rcx)        # RCX is 0 after REP: it counts the bytes
        je      print
        inc     %ecx
        jmp     count
print:  rep outsb
        hlt
code_end:
