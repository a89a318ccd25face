# Prints the line that stands in its data: a loop over the string, up to its zero byte.
#
# The data follow the code, so they begin at the address code_end - code.
        .text
code:   mov     $0x3f8, %edx            # the port of the console
        mov     $code_end - code, %esi  # the next byte of the data
next:   mov     (%rsi), %al
        test    %al, %al
        je      done
        out     %al, (%dx)
        inc     %rsi
        jmp     next
done:   hlt
code_end:

        .data
        .asciz  "Good day. This line stands in the data of a guest.\n"
