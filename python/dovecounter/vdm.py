"""Reading what a module lists itself (VDM) while its statistics are frozen (docs/observables.md)."""
from __future__ import annotations

from ctypes import byref
from dataclasses import dataclass
from enum import Enum
from typing import Dict, Optional, Tuple

from . import library
from .faults import look_at, look_at_type
from .image import LOWER, Image, Key, page
from .observables import Observable
from .procedures import Procedure
from .reports import Patience

_WAITED = 3
_LISTED = range(0x20, 0x30)  # pages of what a module lists itself, and of their control

_begin = library.function("vdm_begin")


class VdmStatistics(Enum):
    """What was read, by the library's numbers."""

    UNKNOWN = 0
    """page 01h or 2Fh couldn't be read: whether there are any isn't known"""
    UNSUPPORTED = 1
    """the module advertises none"""
    NOT_TAKEN = 2
    """it took no request to freeze: what was read may not belong together"""
    PENDING = 3
    """it took one, and didn't freeze in time: what was read may not belong together"""
    FROZEN = 4
    """they were frozen while they were read"""


class VdmRelease(Enum):
    """What became of a freeze, by the library's numbers."""

    NEVER_FROZEN = 0
    MAY_BE_FROZEN = 1
    """one was asked for, and no release was accepted since"""
    ACCEPTED = 2
    """a release was accepted; whether it is done wasn't seen"""
    RELEASED = 3


@dataclass(frozen=True)
class VdmEnd:
    """How a reading ended."""

    statistics: VdmStatistics
    release: VdmRelease
    missing: Tuple[int, ...]
    """the advertised pages of the bank that couldn't be read"""
    bank: int = 0
    """the bank that was read"""


class VdmFault(Exception):
    """A reading that isn't whole: not frozen, not read or not released."""

    def __init__(self, end: VdmEnd) -> None:
        super().__init__(end)
        self.end = end

    def __str__(self) -> str:
        parts = [f"statistics {self.end.statistics.name}", f"release {self.end.release.name}"]
        lost = ", ".join(f"{number:02X}h" for number in self.end.missing)
        of_bank = f"bank {self.end.bank}: " if self.end.bank else ""
        return of_bank + ", ".join(parts).lower().replace("_", " ") + (lost and f", without {lost}")


class VdmReading(Procedure):
    """Freezes the statistics of a bank of a CMIS module that has pages, reads what it lists on pages
    20h to 2Ch of this bank, and releases them, by 759 operations at most. Of a Patience only the pause
    counts. Raises a VdmFault while it is iterated if that isn't whole; `image` has what was read even
    so. If you give up before its end, `release` says whether the statistics may stay frozen. For all
    that a module lists make a reading of each of its banks, which `Image.banks` answers:

        for bank in image.banks():
            reading = VdmReading(bank=bank)
            reading.run(transact)
            image = reading.added_to(image)"""

    _calls = library.Calls("vdm_")

    def __init__(self, patience: Patience = Patience(), bank: int = 0) -> None:
        super().__init__(patience)
        self._bank = look_at("the bank", bank, 255)
        self._saved = library.Vdm()
        self._halves = (library.Half * library.MOST_VDM)()
        self._operations = 0
        self.end: Optional[VdmEnd] = None
        """how it ended; None before"""
        _begin(self._patience.pause, self._bank, byref(self._saved))

    @property
    def bank(self) -> int:
        """The bank that is read."""
        return self._bank

    @property
    def release(self) -> VdmRelease:
        """What became of a freeze so far."""
        return VdmRelease(self._saved.release)

    @property
    def image(self) -> Image:
        """The pages that were read so far."""
        halves: Dict[Key, bytes] = {}
        for half in self._halves[: self._saved.halves]:
            halves[page(half.page, half.bank)] = bytes(half.bytes)
        return Image(halves)

    def added_to(self, image: Image) -> Image:
        """Another image of the module with the pages that were read so far, in place of all that it
        has of pages 20h to 2Fh of this bank. Raises ValueError if these are more than 64 halves."""
        look_at_type("the image", image, Image)
        halves = {
            key: half
            for key, half in image.halves.items()
            if (key.device, key.bank) != (LOWER.device, self._bank) or key.page not in _LISTED
        }
        return Image({**halves, **self.image.halves})

    def observables(self, image: Image) -> Tuple[Observable, ...]:
        """What the module measures: monitors as another image has them, which has the lower half of
        0xA0, and after them what this reading has read of its bank. Raises a Fault as
        `Image.observables`."""
        look_at_type("the image", image, Image)
        monitored = image.monitored()
        listed = Image({LOWER: image.halves[LOWER], **self.image.halves})
        return monitored + listed.listed()

    def _made(self) -> int:
        return self._operations

    def _take(self, outcome: int, data: bytes) -> int:
        status = super()._take(outcome, data)
        self._operations += status == 0 and outcome != _WAITED
        return status

    def _has_ended(self) -> None:
        found = library.VdmEnd()
        self._put_end(found)
        statistics, release = VdmStatistics(found.statistics), VdmRelease(found.release)
        missing = tuple(number % 256 for number in found.missing[: found.missing_count])
        self.end = VdmEnd(statistics, release, missing, self._bank)
        whole = (VdmStatistics.FROZEN, VdmRelease.RELEASED)
        if statistics is VdmStatistics.UNSUPPORTED:
            return
        if (statistics, release) != whole or self.end.missing:
            raise VdmFault(self.end)
