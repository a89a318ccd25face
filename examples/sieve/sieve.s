# Prints the primes below the number in its data, with a space between two, by the sieve of Eratosthenes.
#
# The data follow the code, so they begin at the address code_end - code. Behind them RAM is zeros: a byte
# there for each number, which is 1 once the number is known to be a multiple.
        .equ    limit, code_end - code
        .equ    marks, code_end - code + data_end - data

        .text
code:   mov     $0x3f8, %edx            # the port of the console
        mov     limit, %ebp
        mov     $2, %ebx                # the number that is looked at
        jmp     first
next:   cmpb    $0, marks(%rbx)
        jne     marked
        mov     $' ', %al
        out     %al, (%dx)
first:  mov     %ebx, %eax
        call    print_decimal
        mov     %ebx, %ecx              # its multiples, from its square on: smaller ones are marked already
        imul    %ebx, %ecx
mark:   cmp     %ebp, %ecx
        jae     marked
        movb    $1, marks(%rcx)
        add     %ebx, %ecx
        jmp     mark
marked: inc     %ebx
        cmp     %ebp, %ebx
        jb      next
        mov     $'\n', %al
        out     %al, (%dx)
        hlt

# Prints the number in EAX in decimal. It divides by ten by subtraction, keeps the last digit on the stack,
# and calls itself for the digits before it. Changes RAX and RCX.
print_decimal:
        xor     %ecx, %ecx              # the quotient
        jmp     compare
subtract:
        sub     $10, %eax
        inc     %ecx
compare:
        cmp     $10, %eax
        jae     subtract
        push    %rax
        mov     %ecx, %eax
        test    %eax, %eax
        je      last
        call    print_decimal
last:   pop     %rax
        add     $'0', %al
        out     %al, (%dx)
        ret
code_end:

        .data
data:   .long   100
data_end:
