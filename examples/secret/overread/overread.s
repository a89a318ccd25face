# Prints a line of its data, and takes it for a byte longer than it is. Behind the line lies a key.
#
# The data follow the code, so they begin at the address code_end - code.
        .set    line_start, line - data + code_end - code
        .set    secret_start, key - data + code_end - code
        .set    secret_length, key_end - key
        .text
code:   mov     $0x3f8, %edx            # the port of the console
        mov     $line_start, %esi
        mov     $line_end - line + 1, %ecx
        rep outsb                       # the host sees the key's first byte
        hlt
code_end:

        .data
data:
line:   .ascii  "ready\n"
line_end:
key:    .ascii  "2b7e1516"
key_end:
