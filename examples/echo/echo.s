# Puts out each byte of its input, as long as the console says that one has come.
        .text
next:   mov     $0x3fd, %edx            # the console's status
        in      (%dx), %al
        test    $1, %al                 # a byte has come
        je      done
        mov     $0x3f8, %edx            # the console's data
        in      (%dx), %al
        out     %al, (%dx)
        jmp     next
done:   hlt
