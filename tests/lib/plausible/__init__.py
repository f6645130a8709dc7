"""Modules that could have been sold, by chance, of the three families: texts, codes, measured
values and limits that go together, right sums, and a flag now and then. A module is a dictionary from keys
to halves: a key is the device (0xA0 or 0xA2), then the bank and the page of an upper half, or None
twice for the lower half; a half is 128 bytes. Which byte is which is said here anew, from the
standards, and not taken from the program."""
import random
from typing import Tuple

from .cmis import cmis
from .parts import Module
from .sff8472 import sff8472
from .sff8636 import sff8636

FAMILIES = [("CMIS", cmis), ("SFF-8472", sff8472), ("SFF-8636", sff8636)]


def by_chance(number: int, seed: int) -> Tuple[str, Module]:
    """A family and a module of it, always the same for the same numbers."""
    family, make = FAMILIES[number % len(FAMILIES)]
    return family, make(random.Random(f"{seed} {number}"))


def image_text(module: Module) -> str:
    """The text of an image, as the program reads it."""
    lines = ["module-image 1"]
    for (device, bank, page), half in sorted(
        module.items(), key=lambda item: (item[0][0], item[0][1] is not None, item[0][1:])
    ):
        where = f"lower {device:X}" if bank is None else f"upper {device:X} {bank:02x} {page:02x}"
        lines.append(f"{where} {half.hex()}")
    return "\n".join([*lines, "end", ""])
