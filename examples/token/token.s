# Four vCPUs that pass a token through a mailbox, which all of them can read and write: mailbox 0 says whose turn it is.
# A vCPU waits until that is its own number, prints a line with its letter, and passes the token on to the next.
#
# A vCPU starts with its number in RDI. The mailboxes open as 0, so vCPU 0 has the token first.
        .set    vcpus, 4
        .text
code:   mov     $0x500, %edx            # the port of mailbox 0
wait:   in      (%dx), %eax
        cmp     %edi, %eax
        jne     wait

        mov     %edi, %eax
        add     $'a', %eax
        mov     $0x3f8, %edx            # the port of the console
        out     %al, (%dx)
        mov     $'\n', %al
        out     %al, (%dx)

        inc     %edi                    # the next vCPU's number
        mov     %edi, %eax
        mov     $0x500, %edx
        out     %eax, (%dx)
        hlt
code_end:
