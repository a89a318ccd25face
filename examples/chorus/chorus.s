# Four vCPUs that print the same line, each with one REP OUTSB. A block is one event, so no vCPU comes in between, and
# in whichever order they come to the devices, the same is printed.
#
# The data follow the code, so they begin at the address code_end - code.
        .set    vcpus, 4
        .text
code:   mov     $code_end - code, %esi  # the first byte of the data
        mov     $data_end - data, %ecx  # how many bytes there are
        mov     $0x3f8, %edx            # the port of the console
        rep outsb
        hlt
code_end:

        .data
data:   .ascii  "a block is one turn\n"
data_end:
