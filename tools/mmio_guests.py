"""Images of guests that move to and from the page of devices, for the comparisons, by every move there is."""
import random
import struct

RAM = 4096
DEVICES = 0xFEB00000
DEVICES_SIZE = 4096
SHOWN = 24  # bytes at each end of the page that a guest puts out in the end
OTHERS = ("02", "38", "63", "8D", "FE", "0F 90", "0F AF")  # operations that the page isn't for: ADD, CMP, MOVSXD, ..
MOVES = ("88", "89", "8A", "8B", "C6", "C7", "0F B6", "0F B7", "0F BE", "0F BF")
ENDINGS = (b"\xF4", b"\xF4", b"\xEB\xFE", b"\x0F\x31\xF4")  # HLT; JMP to itself; RDTSC and HLT
RSP = 4


def put(register, value):
    """MOV of 64 bits into a register."""
    return bytes((0x48 | register >> 3, 0xB8 | register & 7)) + struct.pack("<Q", value % 2**64)


def target(chosen):
    """An address in the page, mostly at its ends, or now and then where an operand leaves it."""
    if chosen.random() < 0.03:
        far = DEVICES + 2**32, DEVICES - 2**32, 2**64 - 2, RAM - chosen.randrange(9)
        return chosen.choice((DEVICES - chosen.randint(1, 9), DEVICES + DEVICES_SIZE - chosen.randrange(8), *far))
    at_start, at_end = chosen.randrange(16), DEVICES_SIZE - 8 - chosen.randrange(16)
    return DEVICES + chosen.choice((at_start, at_start, at_end, chosen.randrange(DEVICES_SIZE - 8)))


def operand(chosen, reg_bits, at):
    """A ModRM byte whose memory operand is at an address: its bytes, the REX bits, and the code that it needs before.

    The base may be any register, and the index any but RSP; a sum may wrap.
    """
    base, index = chosen.sample([n for n in range(16) if n != RSP], 2)
    base = chosen.choice((base, base, base, RSP))
    size = chosen.choice((1, 4))
    displacement = chosen.randrange(-128, 128) if size == 1 else chosen.randrange(-(2**31), 2**31)
    after = displacement.to_bytes(size, "little", signed=True)
    mode = 0x40 if size == 1 else 0x80
    if chosen.random() < 0.4:
        scale, value = chosen.randrange(4), chosen.choice((chosen.randrange(9), chosen.getrandbits(64)))
        before = put(index, value) + put(base, at - displacement - (value << scale))
        sib = scale << 6 | (index & 7) << 3 | base & 7
        return bytes((mode | reg_bits << 3 | RSP, sib)) + after, index >> 3 << 1 | base >> 3, before
    sib = b"\x24" if base & 7 == RSP else b""
    return bytes((mode | reg_bits << 3 | base & 7,)) + sib + after, base >> 3, put(base, at - displacement)


def move(chosen, more):
    """A move between the page and a register, or of an immediate, and before it what it needs.

    `more` gives code that stands between them.
    """
    opcode = bytes.fromhex(chosen.choice(OTHERS if chosen.random() < 0.02 else MOVES))
    is_byte = opcode in (b"\x88", b"\x8A", b"\xC6")
    has_number = opcode in (b"\xC6", b"\xC7")
    is_wide, is_short = chosen.random() < 0.4, not is_byte and chosen.random() < 0.25
    register = 0 if has_number else chosen.randrange(16)
    modrm, bits, before = operand(chosen, register & 7, target(chosen))
    rex = 0x40 | is_wide << 3 | register >> 3 << 2 | bits
    has_rex = rex != 0x40 or chosen.random() < 0.5
    size = (1 if is_byte else 2 if is_short and not is_wide else 4) if has_number else 0
    number = chosen.choice((chosen.randbytes(size), b"\xFF" * size, b"\x80" * size))
    value = put(chosen.randrange(16), chosen.getrandbits(64))
    return value + before + more(chosen) + b"\x66" * is_short + bytes((rex,)) * has_rex + opcode + modrm + number


def shown(at):
    """Code that puts out bytes of the page from an address on."""
    return b"".join(
        (
            b"\xBE" + struct.pack("<I", at),  # MOV ESI
            b"\xB9" + struct.pack("<I", SHOWN),  # MOV ECX
            b"\xBA" + struct.pack("<I", 0x3F8),  # MOV EDX, the console
            b"\x8A\x06\xEE",  # MOV AL, [RSI]; OUT DX, AL
            b"\x48\xFF\xC6\xFF\xC9\x75\xF6",  # INC RSI; DEC ECX; JNE to the MOV
        )
    )


def mmio_image(seed, more=lambda chosen: b""):
    """An image of one vCPU with one to twelve moves, which then puts out both ends of the page."""
    chosen = random.Random(seed)
    moves = [move(chosen, more) for _ in range(chosen.randint(1, 12))]
    ends = shown(DEVICES) + shown(DEVICES + DEVICES_SIZE - SHOWN)
    code = b"".join(moves) + ends + chosen.choice(ENDINGS)
    return struct.pack("<8s2H4I36x", b"GHCBIMG1", 1, 0, RAM, len(code), 0, 0) + code
