"""Images of guests that use a secret in string I/O and in MMIO, for the comparisons."""
import random
import struct

from mmio_guests import mmio_image
from string_guests import string_image

SECRET = 2048  # behind the code, in the middle of the smallest RAM
LENGTHS = (1, 8, 64, 1000)
CODE_AT = 16  # where an image has the length of its code
HANDLERS_AT = 28  # and where the addresses of its handlers, followed by the secret's address and length
OFTEN = 0.3
LOADS = (b"\x8A", b"\x8B")  # MOV of 8 bits and of 32 or 64
NO_ELEMENT = b"\x31\xC9\xF3"  # XOR ECX, ECX, and REP
MOVES = (b"\x6C", b"\x6E")  # INSB and OUTSB


def load(chosen):
    """MOV of a register from the secret's first bytes, and now and then string I/O of no element; or no code."""
    if chosen.random() >= OFTEN:
        return b""
    register, is_wide = chosen.randrange(16), chosen.random() < 0.5
    prefix = bytes((0x40 | is_wide << 3 | register >> 3 << 2,))
    code = prefix + chosen.choice(LOADS) + bytes(((register & 7) << 3 | 4, 0x25)) + struct.pack("<I", SECRET)
    return code + NO_ELEMENT + chosen.choice(MOVES) if chosen.random() < OFTEN else code


def with_secret(image, seed):
    """An image with a secret, and now and then with its last byte as the handlers. Mostly that byte is HLT."""
    chosen = random.Random(seed)
    (code,) = struct.unpack_from("<I", image, CODE_AT)
    handler = chosen.choice((0, code - 1))
    fields = struct.pack("<4I", handler, handler, SECRET, chosen.choice(LENGTHS))
    return image[:HANDLERS_AT] + fields + image[HANDLERS_AT + len(fields) :]


def secret_strings(seed):
    return with_secret(string_image(seed, load), seed)


def secret_mmio(seed):
    return with_secret(mmio_image(seed, load), seed)
