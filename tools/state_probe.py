"""Images that probe: at an address of the code stands a jump to a routine that prints the state of the vCPU.

A run writes what its guest puts out, so of a guest that puts nothing out it shows nothing. A probing image shows
what the instructions before the address did.
"""
import struct

HEADER = 64
NOP = b"\x90"
JUMP_SIZE = 5
REGISTERS = 16
CONDITIONS = (0x0, 0x2, 0x4, 0x8, 0xA)  # O, B, Z, S and P: a condition for each flag but DF
STATE_SIZE = 8 * REGISTERS + 8
FACTOR = 0x9E3779B97F4A7C15


def four_bytes(number):
    return struct.pack("<I", number)


def routine(place, ram):
    """Code that stores registers and flags at `place` and prints them, and then a sum of the RAM behind them.

    What stands before the printing changes no flag and uses no stack. DF shows by the byte that is printed second: an
    OUTSB has printed the first, and gone on by DF.
    """
    stores = [
        bytes([0x48 | n // 8 << 2, 0x89, 0x04 | n % 8 << 3, 0x25]) + four_bytes(place + 8 * n)  # MOV [..], reg n
        for n in range(REGISTERS)
    ]
    flags = [
        bytes([0x0F, 0x90 | condition, 0x04, 0x25]) + four_bytes(place + 8 * REGISTERS + k)  # SETcc [..]
        for k, condition in enumerate(CONDITIONS)
    ]
    prints = [
        b"\xBA" + four_bytes(0x3F8),  # MOV EDX, the console
        b"\xBE" + four_bytes(place),  # MOV ESI, place
        b"\xB9" + four_bytes(STATE_SIZE),  # MOV ECX, STATE_SIZE
        b"\x6E",  # OUTSB
        b"\x8A\x06",  # MOV AL, [RSI]
        b"\xEE",  # OUT DX, AL
        b"\x48\xFF\xC6",  # INC RSI
        b"\xFF\xC9",  # DEC ECX
        b"\x75\xF6",  # JNE to the MOV
        b"\x48\xBB" + struct.pack("<Q", FACTOR),  # MOV RBX, FACTOR
        b"\x31\xC0",  # XOR EAX, EAX
        b"\x48\x0F\xAF\xC3",  # IMUL RAX, RBX
        b"\x48\x03\x06",  # ADD RAX, [RSI]
        b"\x48\x83\xC6\x08",  # ADD RSI, 8
        b"\x48\x81\xFE" + four_bytes(ram),  # CMP RSI, the end of RAM
        b"\x72\xEC",  # JB to the IMUL
        b"\xB9" + four_bytes(8),  # MOV ECX, 8
        b"\xEE",  # OUT DX, AL
        b"\x48\xC1\xE8\x08",  # SHR RAX, 8
        b"\xFF\xC9",  # DEC ECX
        b"\x75\xF7",  # JNE to the OUT
        b"\xF4",  # HLT
    ]
    return b"".join(stores + flags + prints)


def probing_image(image, at):
    """The image with the jump at the address `at`, or None where the jump or the routine has no room.

    The routine takes the place of the NOPs at the end of the code, and lengthens the code where they don't
    suffice. Handlers and secret are left out, since they could then break a rule.
    """
    ram, code_len, data_len, entry = struct.unpack_from("<4I", image, 12)
    code, data = image[HEADER : HEADER + code_len], image[HEADER + code_len :]
    before = code.rstrip(NOP) + NOP * JUMP_SIZE
    code_len = max(code_len, len(before) + len(routine(0, 0)))
    place = -(-code_len // 8) * 8
    if at + JUMP_SIZE > len(before) or place + STATE_SIZE >= ram or code_len + data_len > ram:
        return None
    code = (before + routine(place, ram)).ljust(code_len, NOP)
    jump = b"\xE9" + four_bytes(len(before) - at - JUMP_SIZE)
    code = code[:at] + jump + code[at + JUMP_SIZE :]
    return image[:16] + struct.pack("<3I36x", code_len, data_len, entry) + code + data
