# Prints `H` on the console: MOV, MOV, OUT, HLT, nine bytes of 64-bit code.
#
#   as --64 -o hello.o hello.s
#   objcopy -O binary -j .text hello.o hello.code
#
# hello.code has the bytes BA F8 03 00 00 B0 48 EE F4. The image file hello.img is the header of 64
# bytes that docs/FORMATS.md describes, with one vCPU, 4,096 bytes of RAM and 9 bytes of code, and
# then these bytes.
        .text
        mov     $0x3f8, %edx            # the port of the console
        mov     $0x48, %al              # 'H'
        out     %al, (%dx)
        hlt
