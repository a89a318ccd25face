# Reads a byte, mixes it with a key, and puts out what a table has there.
#
# The data follow the code, so they begin at the address code_end - code.
        .set    secret_start, key - data + code_end - code
        .set    secret_length, 1
        .set    table_start, table - data + code_end - code
        .text
code:   mov     $0x3f8, %edx            # the port of the console
        in      (%dx), %al
        movzbl  %al, %eax
        mov     $secret_start, %esi
        xor     (%rsi), %al
        and     $15, %eax
        mov     table_start(%rax), %al  # the address depends on the key
        out     %al, (%dx)
        hlt
code_end:

        .data
data:
table:  .ascii  "63a9d0e4b7f21c58"
key:    .byte   0x2b
