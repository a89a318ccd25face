"""The images and scripts that the comparisons run, each by a kind and a seed, and what a trace shows of them."""
import re

from mmio_guests import mmio_image
from secret_guests import secret_mmio, secret_strings
from string_guests import string_image

OURS = {"strings": string_image, "mmio": mmio_image}
SECRETS = {"secret_strings": secret_strings, "secret_mmio": secret_mmio}
KINDS = ("events", "private", "wild", *OURS, "smp")
REFUSED = 3
# String I/O is port I/O that shows SW_SCRATCH, word 117.
STRING_IO = re.compile(rb"^store 114 0{14}7b\nstore 115 .*\nstore 116 .*\nstore 117 ", re.MULTILINE)
MMIO = re.compile(rb"^store 114 0{8}8000000[12]$", re.MULTILINE)


def image_of(model, seed, kind):
    """An image of a kind: what a script of this folder makes, or `gen SEED KIND` of the model."""
    made = OURS | SECRETS
    return made[kind](seed) if kind in made else model.output("gen", seed, kind)


def script_for(model, seed, image, fits):
    """A script that answers this image's guest, or any script where the image is refused or none is to fit."""
    if fits:
        status, content = model.run("genscript", seed, image)
        if status != REFUSED:
            return content
    return model.output("genscript", seed)
