# Prints what CPUID, the time-stamp counter and MSRs say, in hexadecimal.
#
# The data have the texts of the lines, one after another; they follow the code, so they begin at the
# address code_end - code.
        .text
code:   mov     $code_end - code, %edi  # the text of the next line
        mov     $0, %eax                # the greatest leaf, and the vendor
        call    print_leaf
        mov     $1, %eax                # the vCPU's number, and what it can do
        call    print_leaf
        mov     $0xd, %eax              # the state that XSAVE keeps
        call    print_leaf

        call    print_text
        rdtsc
        call    print_halves
        mov     $0xc0000103, %ecx       # TSC_AUX
        call    print_msr
        mov     $0x40001000, %ecx       # the first word of the vCPU
        call    print_msr
        mov     $0x40001000, %ecx
        mov     $0x01234567, %edx
        mov     $0x89abcdef, %eax
        wrmsr
        call    print_msr
        hlt

# Prints a line: its text, and what CPUID says of the leaf EAX in EAX, EBX, ECX and EDX.
print_leaf:
        push    %rax
        call    print_text
        pop     %rax
        xor     %ecx, %ecx              # the sub-leaf
        cpuid
        push    %rdx
        push    %rcx
        push    %rbx
        push    %rax
        mov     $4, %esi                # how many numbers are left
number: pop     %rbx
        call    print_number
        dec     %esi
        jne     number
        jmp     end_line

# Prints a line: its text and the MSR ECX.
print_msr:
        call    print_text
        rdmsr

# Prints EDX, EAX and the end of the line.
print_halves:
        push    %rax
        mov     %edx, %ebx
        call    print_number
        pop     %rbx
        call    print_number
end_line:
        mov     $'\n', %al
        out     %al, (%dx)
        ret

# Prints the text at RDI up to its zero byte, and leaves RDI behind it. ECX stays.
print_text:
        mov     $0x3f8, %edx            # the port of the console
next:   mov     (%rdi), %al
        inc     %rdi
        test    %al, %al
        je      printed
        out     %al, (%dx)
        jmp     next
printed:
        ret

# Prints a space and EBX as eight hexadecimal digits, and leaves the console's port in DX.
print_number:
        mov     $0x3f8, %edx
        mov     $' ', %al
        out     %al, (%dx)
        mov     $8, %ecx                # how many digits are left
digit:  mov     %ebx, %eax
        shr     $28, %eax               # the greatest of them
        add     $'0', %al
        cmp     $'9', %al
        jbe     print
        add     $'a' - '9' - 1, %al
print:  out     %al, (%dx)
        shl     $4, %ebx
        dec     %ecx
        jne     digit
        ret
code_end:

        .data
        .asciz  "CPUID 0:"
        .asciz  "CPUID 1:"
        .asciz  "CPUID D:"
        .asciz  "TSC:"
        .asciz  "TSC_AUX:"
        .asciz  "word 0:"
        .asciz  "word 0, written:"
