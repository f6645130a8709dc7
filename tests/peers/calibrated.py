"""What a module of SFF-8472 measures if the host has to calibrate it, and its limits, in steps of each quantity, by the formulas of
SFF-8472, "External Calibration", in fractions. Said here anew, and not taken from the program."""
import math
import struct
from fractions import Fraction

# Where each quantity's value, its limits and its slope stand in device A2, and how many thousandths of the program's unit a step is.
PLACES = {
    "temperature": (96, 0, 84, Fraction(1000, 256)),
    "vcc": (98, 8, 88, Fraction(100)),
    "tx-bias": (100, 16, 76, Fraction(2)),
    "tx-power": (102, 24, 80, Fraction(100)),
    "rx-power": (104, 32, None, Fraction(100)),
}
LEVELS = ("high-alarm", "low-alarm", "high-warning", "low-warning")


def steps(half, quantity, address):
    """The exact steps of the reading at an address."""
    kind = ">h" if quantity == "temperature" else ">H"
    (reading,) = struct.unpack_from(kind, half, address)
    slope = PLACES[quantity][2]
    if slope is not None:
        factor, offset = struct.unpack_from(">Hh", half, slope)
        return Fraction(factor, 256) * reading + offset
    constants = struct.unpack_from(">5f", half, 56)
    return sum(Fraction(constant) * reading**power for constant, power in zip(constants, (4, 3, 2, 1, 0)))


def amount(half, quantity, address):
    """The same in thousandths of the program's unit, rounded down, as the program prints it."""
    thousandths = math.floor(steps(half, quantity, address) * PLACES[quantity][3])
    whole, rest = divmod(abs(thousandths), 1000)
    return f"{'-' if thousandths < 0 else ''}{whole}.{rest:03}"


def lines(first, half):
    """The lines of details that say such an amount, of which the module may leave out the limits."""
    for quantity, (value, limits, *_) in PLACES.items():
        line = {"tx-bias": "tx-bias-lane-1", "tx-power": "calibrated-tx-power-lane-1", "rx-power": "calibrated-rx-power-lane-1"}
        yield line.get(quantity, quantity), amount(half, quantity, value)
        if first[93] & 0x80:
            for number, level in enumerate(LEVELS):
                yield f"{quantity}-{level}-limit", amount(half, quantity, limits + 2 * number)
