"""A bench for links: makes PRBS31Q on a module's media lanes, loops them back, and measures each lane's
bit error ratio with each pattern that is named; prints a table, and draws it as SVG. Run it as
PYTHONPATH=python python3 examples/link_bench.py [--svg FILE] [/dev/i2c-N], after
tools/build-shared-library; without a bus it measures a module in software. The loopback disturbs what
is up on these lanes, so the test refuses to begin if a data path is."""
import argparse
import ctypes
import fcntl
import math
import os
import time

from dovecounter import LinkTest, Loopback, Pattern, Side

PATTERNS = (Pattern.PRBS31Q, Pattern.PRBS13Q)
LIMIT = 2.4e-4  # what the error correction of 100G lanes (KP4) can still mend


class I2cBus:
    """A module on an adapter of Linux."""

    class Message(ctypes.Structure):
        _fields_ = [
            ("address", ctypes.c_uint16),
            ("flags", ctypes.c_uint16),
            ("length", ctypes.c_uint16),
            ("data", ctypes.c_void_p),
        ]

    class Messages(ctypes.Structure):
        _fields_ = [("first", ctypes.c_void_p), ("count", ctypes.c_uint32)]

    READ, TRANSFER = 1, 0x0707  # I2C_M_RD, I2C_RDWR

    def __init__(self, name):
        self.file = os.open(name, os.O_RDWR)

    def transact(self, operation):
        """The reply: bytes, True, or False for a refusal."""
        fetched = bytearray(0 if operation.is_store else operation.count)
        parts = [bytearray([operation.offset, *(operation.data or b"")]), fetched]
        messages = (self.Message * 2)(
            *(
                self.Message(operation.address, flags, len(part), self._place_of(part))
                for part, flags in zip(parts, (0, self.READ))
            )
        )
        together = self.Messages(ctypes.addressof(messages), 1 if operation.is_store else 2)
        try:
            fcntl.ioctl(self.file, self.TRANSFER, together)
        except OSError:
            return False
        return True if operation.is_store else bytes(fetched)

    @staticmethod
    def _place_of(part):
        return ctypes.addressof((ctypes.c_char * len(part)).from_buffer(part)) if part else None


class SimulatedLinks:
    """A module in software that has patterns, loopbacks and error ratios (pages 01h, 11h, 13h, 14h)."""

    RATIOS = (3, 9, 12, 480, 2, 5, 1, 30)  # of lanes 1 to 8, in units of 1e-6

    def __init__(self):
        self.selection = bytearray(2)
        self.pages = {page: bytearray(128) for page in (0x01, 0x11, 0x13, 0x14)}
        self.pages[0x01][142 - 128] = 0x20  # it has pages 13h and 14h
        self.pages[0x11][0:4] = b"\x11\x11\x11\x11"  # each data path is down
        self.pages[0x13][0:12] = bytes([0x7F, 0xC0, 0x33, 0xFF, *[0xFF] * 8])  # it can do all
        for lane, ratio in enumerate(self.RATIOS):
            at = 208 - 128 + 2 * lane  # media lane 1 first
            self.pages[0x14][at : at + 2] = (18 << 11 | ratio).to_bytes(2, "big")

    def transact(self, operation):
        if operation.offset < 128:
            if not operation.is_store:
                return bytes(self.selection[operation.offset - 126 :][: operation.count])
            self.selection[operation.offset - 126 :] = operation.data
            return True
        half, at = self.pages[self.selection[1]], operation.offset - 128
        if not operation.is_store:
            return bytes(half[at : at + operation.count])
        half[at : at + len(operation.data)] = operation.data
        return True


def measure(transact, pause, pattern):
    """The bit error ratio of each media lane."""
    test = LinkTest(
        Side.MEDIA,
        generator=pattern,
        checker=pattern,
        loopback=Loopback.MEDIA_SIDE_OUTPUT,
        rounds=2,
    )
    try:
        test.run(transact, pause=pause)  # a LinkFault if anything is wrong, or stays on
    except KeyboardInterrupt:
        test.stop()  # switches off what is on, which the next test would take for the module's own
        test.run(transact, pause=pause)
        raise
    return [float(lane.ratio) for lane in test.results().media]


HIGH, WIDE, LOWEST = 180, 26, 9  # of the drawing: its bars begin at 1e-9


def rise(ratio):
    """How high a bar is: 20 for each tenfold."""
    return 20 * max(0.0, math.log10(ratio) + LOWEST) if ratio > 0 else 0.0


def drawing(measured):
    """A bar for each lane of each pattern, and a line at the limit, as SVG."""
    right = 30 + len(measured) * 240
    parts = [
        f'<svg xmlns="http://www.w3.org/2000/svg" width="{right + 10}" height="230"'
        ' font-family="sans-serif" font-size="11">'
    ]
    for place, (pattern, ratios) in enumerate(measured.items()):
        left = 40 + place * 240
        parts.append(f'<text x="{left}" y="222">{pattern.name}: lanes 1 to {len(ratios)}</text>')
        for lane, ratio in enumerate(ratios):
            x, y = left + lane * WIDE, HIGH + 10 - rise(ratio)
            colour = "#c33" if ratio > LIMIT else "#379"
            parts.append(
                f'<rect x="{x}" y="{y:.1f}" width="{WIDE - 4}" height="{rise(ratio):.1f}"'
                f' fill="{colour}"><title>lane {lane + 1}: {ratio:.2e}</title></rect>'
            )
            parts.append(f'<text x="{x + 7}" y="204">{lane + 1}</text>')
    y = HIGH + 10 - rise(LIMIT)
    parts.append(f'<line x1="36" y1="{y:.1f}" x2="{right}" y2="{y:.1f}" stroke="#c33"/>')
    for power in range(0, LOWEST + 1, 3):
        parts.append(f'<text x="4" y="{14 + 20 * power}">1e-{power}</text>')
    return "\n".join([*parts, "</svg>", ""])


def main():
    words = argparse.ArgumentParser(
        description="Measures each lane's bit error ratio in a loopback."
    )
    words.add_argument("bus", nargs="?", help="such as /dev/i2c-7; else a module in software")
    words.add_argument("--svg", help="draw what was measured into this file")
    asked = words.parse_args()
    bus = I2cBus(asked.bus) if asked.bus else SimulatedLinks()
    pause = time.sleep if asked.bus else lambda seconds: None
    measured = {pattern: measure(bus.transact, pause, pattern) for pattern in PATTERNS}
    print("lane", *(f"{pattern.name:>9}" for pattern in measured))
    for lane, ratios in enumerate(zip(*measured.values()), 1):
        note = ["beyond the limit"] if max(ratios) > LIMIT else []
        print(f"{lane:4}", *(f"{ratio:9.1e}" for ratio in ratios), *note)
    if asked.svg:
        with open(asked.svg, "w", encoding="utf-8") as file:
            file.write(drawing(measured))


if __name__ == "__main__":
    main()
