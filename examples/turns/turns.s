# Four vCPUs that print in turns: each puts out its letter, three times, and then its number's end of the line. In each
# round every vCPU that waits is served once, in ascending number, so the letters come in turns.
#
# A vCPU starts with its number in RDI, and the number of vCPUs in RSI.
        .set    vcpus, 4
        .text
code:   mov     %edi, %eax
        add     $'a', %eax              # the vCPU's letter
        mov     $0x3f8, %edx            # the port of the console
        mov     $3, %ecx                # how many letters are left
next:   out     %al, (%dx)
        dec     %ecx
        jne     next
        inc     %edi
        cmp     %esi, %edi              # the last vCPU ends the line
        jne     done
        mov     $'\n', %al
        out     %al, (%dx)
done:   hlt
code_end:
