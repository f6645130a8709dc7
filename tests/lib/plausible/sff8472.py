"""Modules of SFF-8472: SFP, SFP+ and SFP28."""
import random
import struct

from .parts import (
    Module,
    bits,
    flags,
    put,
    put_limits,
    put_sum,
    put_word,
    quantities,
    some,
    vendor_texts,
)


def sff8472(chance: random.Random) -> Module:
    """Optical or copper, with diagnostics or without, calibrated by itself or by the host."""
    copper = chance.random() < 0.25
    diagnostics = not copper and chance.random() < 0.9
    external = diagnostics and chance.random() < 0.15
    a0, a2 = bytearray(128), bytearray(128)
    has = quantities(chance)
    put(a0, 0, 0x03, 0x04, 0x21 if copper else chance.choice([0x07, 0x07, 0x22, 0x0B]))
    put(a0, 3, *[some(chance, 255) for _ in range(8)])
    put(a0, 8, a0[8] & 0xF0 | (chance.choice([4, 8]) if copper else 0), a0[9] & 0xFD)
    put(
        a0,
        11,
        chance.choice([0x01, 0x03, 0x06]),
        chance.choice([13, 85, 103, 255, 0]),
        chance.choice([0, 1, 2, 4]),
    )
    put(a0, 14, *[some(chance, 80) for _ in range(6)])
    vendor_texts(chance, a0, (20, 37, 40, 56, 4, 68, 84))
    put(a0, 36, chance.choice([0, 0x02, 0x03, 0x0B, 0x16, 0x1C, 0x45]))
    if copper:
        put(a0, 60, chance.choice([0, 1]))
    else:
        put_word(a0, 60, chance.choice([850, 1310, 1330, 1550, 1610]))
    put(a0, 64, bits(chance, 0.3) & 0x3F, bits(chance, 0.5) & 0xFE)
    put(a0, 66, chance.randint(0, 120), chance.randint(0, 50))
    put(a0, 92, (0x40 | (0x10 if external else 0x20) | chance.choice([0, 8])) if diagnostics else 0)
    put(a0, 93, 0x80 if chance.random() < 0.8 else 0, chance.randint(0, 9))
    put_sum(a0, 63, 0)
    put_sum(a0, 95, 64)
    module: Module = {(0xA0, None, None): a0}
    if diagnostics:
        for address, name in (
            (0, "temperature"),
            (8, "vcc"),
            (16, "bias"),
            (24, "tx_power"),
            (32, "rx_power"),
        ):
            put_limits(a2, address, has[name])
        calibrate(chance, a2, external)
        put_sum(a2, 95, 0)
        for address, name in (
            (96, "temperature"),
            (98, "vcc"),
            (100, "bias"),
            (102, "tx_power"),
            (104, "rx_power"),
        ):
            put_word(a2, address, has[name].reading())
        put(a2, 110, bits(chance, 0.2))
        flags(chance, a2, range(112, 114))
        flags(chance, a2, range(116, 118))
        module[(0xA2, None, None)] = a2
    return module


def calibrate(chance: random.Random, a2: bytearray, external: bool) -> None:
    """The constants of calibration, neutral ones if the module calibrates itself."""
    constants = [0.0, 0.0, 0.0, 1.0, 0.0]
    if external:
        constants = [
            chance.choice([0.0, chance.uniform(-1e-17, 1e-17)]),
            chance.choice([0.0, chance.uniform(-1e-12, 1e-12)]),
            chance.choice([0.0, chance.uniform(-1e-6, 1e-6)]),
            chance.uniform(0.9, 1.1),
            chance.choice([0.0, chance.uniform(-40, 40)]),
        ]
    put(a2, 56, *struct.pack(">5f", *constants))
    for address in (76, 80, 84, 88):
        put_word(a2, address, 256 + (chance.randint(-20, 20) if external else 0))
        put_word(a2, address + 2, chance.randint(-40, 40) if external else 0)
