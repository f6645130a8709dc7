"""Modules of SFF-8636: QSFP+ and QSFP28."""
import random

from .parts import (
    Module,
    bits,
    flags,
    put,
    put_limits,
    put_sum,
    put_word,
    quantities,
    some,
    vendor_texts,
)


def sff8636(chance: random.Random) -> Module:
    """QSFP+ or QSFP28, optical or copper, with page 03h or without."""
    copper = chance.random() < 0.25
    flat = copper and chance.random() < 0.6
    lower, first, limits = bytearray(128), bytearray(128), bytearray(128)
    identifier = chance.choice([0x0C, 0x0D, 0x11, 0x11])
    has = quantities(chance)
    put(lower, 0, identifier, chance.randint(0, 8), 0x04 if flat else 0)
    flags(chance, lower, range(3, 15))
    put_word(lower, 22, 0 if copper and chance.random() < 0.5 else has["temperature"].reading())
    put_word(lower, 26, has["vcc"].reading())
    for lane in range(4):
        for address, name in ((34, "rx_power"), (42, "bias"), (50, "tx_power")):
            put_word(lower, address + 2 * lane, 0 if copper else has[name].reading())
    put(lower, 86, bits(chance, 0.2) & 0x0F)
    put(lower, 93, chance.choice([0x00, 0x01, 0x03, 0x05, 0x0D]))
    put(lower, 98, 0xFF)
    put(first, 128, identifier, chance.choice([0x00, 0x40, 0x80, 0xC0]) | bits(chance, 0.5) & 0x1F)
    put(first, 130, 0x23 if copper else chance.choice([0x07, 0x0C, 0x0D]))
    put(
        first,
        131,
        chance.choice([0x80, 0x80, 0x80, 0x08, 0x04, 0x02, 0x70]),
        *[some(chance, 255) for _ in range(7)],
    )
    put(
        first,
        132,
        first[132 % 128] & 0x0F,
        first[133 % 128] & 0xF0,
        first[134 % 128] & 0x0F,
        first[135 % 128] & 0xFB,
        first[136 % 128] & 0xF0,
    )
    put(
        first,
        139,
        chance.choice([0x01, 0x03, 0x05, 0x07, 0x08]),
        chance.choice([0x67, 0x70, 0xFF]),
        chance.choice([0, 1, 2]),
    )
    put(first, 142, *[some(chance, 80) for _ in range(5)])
    put(
        first,
        147,
        (chance.randint(0x0A, 0x0F) if copper else chance.randint(0, 9)) << 4
        | bits(chance, 0.5) & 0x0F,
    )
    vendor_texts(chance, first, (148, 165, 168, 184, 2, 196, 212))
    put(first, 164, bits(chance, 0.2) & 0x3F)
    if copper:
        put(first, 186, *sorted(chance.randint(1, 30) for _ in range(4)))
    else:
        put_word(first, 186, chance.choice([17000, 26200, 31000]) + chance.randint(0, 400))
        put_word(first, 188, chance.randint(0, 3000))
    put(first, 190, chance.choice([0, 70, 85]))
    put(
        first,
        192,
        chance.choice([0x02, 0x03, 0x06, 0x07, 0x0B, 0x17, 0x18, 0x20, 0x25, 0x27])
        if first[3] & 0x80
        else 0,
    )
    put(first, 193, *[bits(chance, 0.5) for _ in range(3)])
    put(
        first,
        220,
        chance.choice([0x00, 0x08, 0x0C, 0x3C]),
        bits(chance, 0.2) & 0x1C,
        chance.choice([0x67, 0x70]),
    )
    put_sum(first, 191, 128)
    put_sum(first, 223, 192)
    module: Module = {(0xA0, None, None): lower, (0xA0, 0, 0): first}
    if not flat:
        for address, name in (
            (128, "temperature"),
            (144, "vcc"),
            (176, "rx_power"),
            (184, "bias"),
            (192, "tx_power"),
        ):
            put_limits(limits, address, has[name])
        module[(0xA0, 0, 3)] = limits
    return module
