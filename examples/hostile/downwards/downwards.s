# Puts out five bytes downwards: with DF set REP OUTSB begins at the last byte of the data.
        .text
code:   mov     $0x3f8, %edx
        mov     $code_end - code + 4, %esi
        mov     $5, %ecx
        std
        rep outsb
        hlt
code_end:

        .data
data:   .ascii  "olleh"
