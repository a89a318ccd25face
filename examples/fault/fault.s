# Reads an MSR that the host doesn't know. The host answers with #GP, the handler steps over the
# instruction, and the guest goes on.
#
# The data have the lines that are printed, one after another; they follow the code, so they begin at the
# address code_end - code.
        .text
code:   mov     $code_end - code, %esi  # the next line
        call    print
        mov     $0x99, %ecx             # an MSR that there is not
        rdmsr
        call    print
        hlt

# The handler of #GP. At RSP stand the error code, RIP, CS, the flags, RSP and SS.
general_protection:
        call    print
        add     $8, %rsp                # the error code
        addq    $2, (%rsp)              # RIP goes behind RDMSR, which has two bytes
        iretq

# Prints the line at RSI up to its zero byte, and leaves RSI behind it.
print:  mov     $0x3f8, %edx            # the port of the console
next:   mov     (%rsi), %al
        inc     %rsi
        test    %al, %al
        je      done
        out     %al, (%dx)
        jmp     next
done:   ret
code_end:

        .data
        .asciz  "The guest reads MSR 99h.\n"
        .asciz  "The handler of #GP has it.\n"
        .asciz  "The guest goes on.\n"
