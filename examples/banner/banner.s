# Prints its data with one instruction: REP OUTSB, of which the host sees one event with all the bytes.
#
# The data follow the code, so they begin at the address code_end - code.
        .text
code:   mov     $code_end - code, %esi  # the first byte of the data
        mov     $data_end - data, %ecx  # how many bytes there are
        mov     $0x3f8, %edx            # the port of the console
        rep outsb
        hlt
code_end:

        .data
data:   .ascii  "  .-''''''''''''''''''''''''''''''''-.\n"
        .ascii  " (   one instruction, one exit:       )\n"
        .ascii  " (   REP OUTSB shows all these bytes  )\n"
        .ascii  "  '-................................-'\n"
data_end:
