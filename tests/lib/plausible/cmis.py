"""Modules of CMIS: QSFP-DD and OSFP."""
import random
from typing import Dict

from .parts import (
    Module,
    Measured,
    bits,
    flags,
    put,
    put_limits,
    put_sum,
    put_text,
    put_word,
    quantities,
    some,
    text,
    vendor_texts,
)


def cmis(chance: random.Random) -> Module:
    """QSFP-DD or OSFP, optical or copper, with paged memory or without."""
    copper = chance.random() < 0.25
    flat = copper and chance.random() < 0.6
    lower, first = bytearray(128), bytearray(128)
    identifier = chance.choice([0x18, 0x19])
    has = quantities(chance)
    put(lower, 0, identifier, chance.choice([0x40, 0x41, 0x50, 0x51, 0x52]), 0x80 if flat else 0)
    put(lower, 3, chance.choice([1, 2, 3, 3, 3, 3, 4, 5]) << 1)
    flags(chance, lower, range(9, 10))
    put_word(lower, 14, has["temperature"].reading())
    put_word(lower, 16, has["vcc"].reading())
    put(lower, 26, chance.choice([0x00, 0x40, 0x50, 0x10]))
    put(lower, 39, chance.randint(0, 9), chance.randint(0, 30))
    if lower[3] >> 1 == 5:
        put(lower, 41, chance.choice([0, 1, 2, 3]))
    put(lower, 85, 3 if copper else chance.choice([1, 2, 2]))
    put(
        lower,
        86,
        *[0x1D, 1, 0x88, 1, 255] if copper else [0x11, 0x1C, 0x84, 1, 0x0D, 0x14, 0x21, 0x55, 255],
    )
    put(first, 128, identifier)
    vendor_texts(chance, first, (129, 145, 148, 164, 2, 166, 182))
    if chance.random() < 0.3:
        put_text(first, 190, 10, text(chance, 10))
    elif chance.random() < 0.5:
        put_text(first, 190, 10, "")
    put(first, 200, chance.randint(0, 7) << 5, chance.randint(6, 100))
    cable = chance.random() < 0.5
    put(first, 202, chance.choice([255, chance.randint(0, 254)]) if cable else 0)
    put(
        first,
        203,
        0x23 if copper or cable else chance.choice([0x07, 0x0C, 0x24, 0x25, 0x26, 0x27, 0x28]),
    )
    if copper:
        put(first, 204, *sorted(chance.randint(1, 30) for _ in range(4)))
    put(first, 212, chance.randint(0x0A, 0x0F) if copper else chance.randint(0, 9))
    put_sum(first, 222, 128)
    module: Module = {(0xA0, None, None): lower, (0xA0, 0, 0): first}
    if not flat:
        module.update(cmis_pages(chance, has, copper))
    return module


def cmis_pages(chance: random.Random, has: Dict[str, Measured], copper: bool) -> Module:
    """Pages 01h, 02h and 11h."""
    advertised, limits, status = bytearray(128), bytearray(128), bytearray(128)
    put(
        advertised,
        128,
        chance.randint(0, 9),
        chance.randint(0, 30),
        chance.randint(1, 9),
        chance.randint(0, 30),
    )
    if not copper:
        put(advertised, 132, chance.choice([0x00, 0x05, 0x14, 0x42, 0x4A, 0x68]))
        put(advertised, 133, *[some(chance, 100) for _ in range(4)])
        put_word(advertised, 138, chance.choice([17000, 26200, 31000]) + chance.randint(0, 400))
        put_word(advertised, 140, chance.randint(0, 3000))
    put(advertised, 144, chance.randint(0, 0xDD) & 0xDD)
    put(advertised, 145, chance.choice([0x00, 0x80]) | chance.randint(0, 7))
    put(advertised, 146, chance.randint(60, 90), 256 - chance.randint(1, 40))
    put(advertised, 151, chance.choice([0x00, 0x10, 0x80, 0x90]))
    monitors = 0 if copper else chance.choice([7, 7, 7, 7, chance.randint(0, 7)])
    put(advertised, 160, monitors | chance.choice([0, 0, 1, 2]) << 3)
    put(advertised, 161, bits(chance, 0.5) & 0x0F, bits(chance, 0.5) & 0x1F)
    put(advertised, 167, bits(chance, 0.3) & 0xDD, bits(chance, 0.3) & 0xDD)
    put(advertised, 176, 1, 0x0F)
    put_sum(advertised, 255, 130)
    for address, name in (
        (128, "temperature"),
        (136, "vcc"),
        (176, "tx_power"),
        (184, "bias"),
        (192, "rx_power"),
    ):
        put_limits(limits, address, has[name])
    put_sum(limits, 255, 128)
    for lane in range(8):
        for address, name in ((154, "tx_power"), (170, "bias"), (186, "rx_power")):
            put_word(status, address + 2 * lane, has[name].reading())
    put(status, 128, *[chance.choice([0x11, 0x44, 0x77, 0x42]) for _ in range(4)])
    flags(chance, status, range(134, 153))
    put(status, 202, *[chance.choice([0x11, 0x00, 0x13]) for _ in range(4)])
    return {(0xA0, 0, 1): advertised, (0xA0, 0, 2): limits, (0xA0, 0, 0x11): status}
