"""What modules of all families are made of: bytes, words, texts and sums at addresses, and
quantities with readings and limits."""
import math
import random
from typing import Dict, Optional, Tuple

Key = Tuple[int, Optional[int], Optional[int]]
Module = Dict[Key, bytearray]

VENDORS = ["ACME OPTICS", "Example Photonics", "NORTHERN LIGHT", "LambdaWorks", "Co.Ax & Sons", "X"]


def put(half: bytearray, address: int, *numbers: int) -> None:
    """Bytes at an address, as the standards count: upper halves from 128."""
    for offset, number in enumerate(numbers):
        half[(address + offset) % 128] = number


def put_word(half: bytearray, address: int, number: int) -> None:
    put(half, address, number >> 8 & 0xFF, number & 0xFF)


def put_text(half: bytearray, address: int, length: int, text: str) -> None:
    put(half, address, *text[:length].ljust(length).encode("ascii"))


def put_sum(half: bytearray, address: int, first: int) -> None:
    """The sum of the bytes from the first to the one before the address."""
    put(half, address, sum(half[place % 128] for place in range(first, address)) % 256)


class Measured:
    """A measured quantity: its least and its greatest reading, in steps of its unit, and its limits
    around them: high and low alarm, high and low warning. Only a temperature can be below zero."""

    def __init__(self, chance: random.Random, low: int, high: int, least: int = 0) -> None:
        self.low, self.high, self.chance = low, high, chance
        alarm = (high - low) // 10
        self.limits = [high + alarm, max(least, low - alarm), high, low]

    def reading(self) -> int:
        """Within its limits, mostly."""
        if self.chance.random() < 0.9:
            return self.chance.randint(self.low, self.high)
        return self.chance.randint(self.limits[1], self.limits[0])


def quantities(chance: random.Random) -> Dict[str, Measured]:
    """Degrees Celsius by 256, volts by 10,000, milliamperes by 500, milliwatts by 10,000."""
    dimmest, brightest = sorted(10 ** chance.uniform(1, 4.6) for _ in range(2))
    return {
        "temperature": Measured(
            chance,
            chance.randint(-10, 10) * 256,
            chance.randint(40, 85) * 256 + chance.randint(0, 255),
            -32768,
        ),
        "vcc": Measured(chance, chance.randint(30000, 32000), chance.randint(33000, 36000)),
        "bias": Measured(chance, chance.randint(1000, 5000), chance.randint(5000, 40000)),
        "tx_power": Measured(chance, max(1, math.floor(dimmest)), math.ceil(brightest)),
        "rx_power": Measured(chance, max(1, math.floor(dimmest / 20)), math.ceil(brightest)),
    }


def put_limits(half: bytearray, address: int, quantity: Measured) -> None:
    for number, limit in enumerate(quantity.limits):
        put_word(half, address + 2 * number, limit)


def text(chance: random.Random, length: int) -> str:
    letters = "ABCDEFGHIJKLMNOPQRSTUVWXYZ0123456789-./ "
    return "".join(chance.choice(letters) for _ in range(chance.randint(1, length))).strip() or "0"


def date(chance: random.Random) -> str:
    year, month, day = chance.randint(10, 26), chance.randint(1, 12), chance.randint(1, 28)
    return f"{year:02}{month:02}{day:02}{chance.choice(['  ', '01', 'A '])}"


def bits(chance: random.Random, of: float) -> int:
    """A byte whose bits are 1 with this chance."""
    return sum((chance.random() < of) << bit for bit in range(8))


def some(chance: random.Random, most: int) -> int:
    """A number that is often 0."""
    return 0 if chance.random() < 0.4 else chance.randint(0, most)


def flags(chance: random.Random, half: bytearray, addresses: range) -> None:
    """Flags: none of most modules, few of others."""
    if chance.random() < 0.7:
        for address in addresses:
            put(half, address, bits(chance, 0.15))


def vendor_texts(chance: random.Random, half: bytearray, places: Tuple[int, ...]) -> None:
    """At the places of the vendor's name and number, of the part, of its revision and that one's
    length, of the serial number and of the date."""
    vendor, oui, part, revision, length, serial, day = places
    put_text(half, vendor, 16, chance.choice(VENDORS))
    put(half, oui, *[chance.randint(0, 255) for _ in range(3)])
    put_text(half, part, 16, text(chance, 16))
    put_text(half, revision, length, text(chance, length))
    put_text(half, serial, 16, text(chance, 16))
    put_text(half, day, 8, date(chance))
