"""Images of guests that do string I/O, for the comparisons: the model's own generator seldom makes any."""
import random
import struct

PAGE = 4096
COUNTS = (0, 1, 2, 3, 8, 100, 507, 508, 509, 1015, 1016, 1017, 2031, 2032, 2033, 4064)  # about what a buffer holds
WIDE_COUNTS = (2**16, 2**32 - 1, 2**32, 2**32 + 3, 2**63, 2**64 - 1)
PORTS = (0x3F8, 0x3F8, 0x3F8, 0x3FD, 0x500, 0x51C, 0, 0x103F8)  # of the last one DX is the console's
FLAGS = (b"", b"", b"\xFD", b"\xFC")  # STD, CLD
REPEATED = (b"", b"\xF3", b"\xF3", b"\xF3")
WIDTHS = (b"", b"\x66", b"\x48")  # before 6D and 6F: 4 bytes, 2, 4
ENDINGS = (b"\xF4", b"\xF4", b"\xEB\xFE", b"\x0F\x31\xF4")  # HLT; JMP to itself; RDTSC and HLT
DATA = (0, 50, 1000, 2500)


def string_instruction(chosen):
    """INS or OUTS of any size, with REP or without."""
    if chosen.random() < 0.5:
        return chosen.choice(REPEATED) + chosen.choice((b"\x6C", b"\x6E"))
    prefixes = [chosen.choice(REPEATED), chosen.choice(WIDTHS)]
    if prefixes[1] == b"\x66":
        chosen.shuffle(prefixes)
    return b"".join(prefixes) + chosen.choice((b"\x6D", b"\x6F"))


def string_step(chosen, ram, more):
    """One string instruction, and before it what it needs: pointers, count, port and perhaps the direction flag.

    `more` gives code that stands between them.
    """
    near_code, near_end = chosen.randrange(200), ram - chosen.randrange(12)
    addresses = (near_code, near_end, ram // 2, chosen.randrange(ram), chosen.getrandbits(32))
    count = chosen.choice(WIDE_COUNTS if chosen.random() < 0.2 else (*COUNTS, chosen.randrange(3000)))
    return b"".join(
        (
            b"\xBE" + struct.pack("<I", chosen.choice(addresses)),  # MOV ESI
            b"\xBF" + struct.pack("<I", chosen.choice(addresses)),  # MOV EDI
            b"\x48\xB9" + struct.pack("<Q", count),  # MOV RCX
            b"\xBA" + struct.pack("<I", chosen.choice(PORTS)),  # MOV EDX
            chosen.choice(FLAGS),
            more(chosen),
            string_instruction(chosen),
        )
    )


def string_image(seed, more=lambda chosen: b""):
    """An image of one vCPU with one to four string instructions; the seed alone decides which, and `more`."""
    chosen = random.Random(seed)
    ram = chosen.choice((PAGE, PAGE, 2 * PAGE))
    steps = [string_step(chosen, ram, more) for _ in range(chosen.randint(1, 4))]
    code = b"".join(steps) + chosen.choice(ENDINGS)
    data = chosen.randbytes(chosen.choice(DATA))
    handler = chosen.choice((0, len(code) - 1))  # of #GP
    return struct.pack("<8s2H6I28x", b"GHCBIMG1", 1, 0, ram, len(code), len(data), 0, 0, handler) + code + data
