"""What is known of a module's memory (docs/formats.md, "Image"), and what that says."""
from __future__ import annotations

import os
import re
import warnings
from ctypes import Array, byref, c_uint8, c_uint16
from dataclasses import dataclass
from typing import Callable, Dict, Iterable, List, Mapping, Tuple, Union

from .capabilities import LinkCapabilities, link_capabilities_of
from . import dumps, library
from .faults import (
    CODES,
    Fault,
    look_at,
    look_at_bytes,
    look_at_choice,
    look_at_mapping,
    look_at_text,
    look_at_type,
)
from .details import Details, details_of
from .observables import Observable, observable_of
from .reports import (
    Advertisement,
    Application,
    Durations,
    Flags,
    Inventory,
    Monitors,
    Patience,
    advertisement_of,
    durations_of,
    flags_of,
    inventory_of,
    monitors_of,
)
from .signals import ModuleSignals, SignalLimits, limits_of, signals_of

HALF, MOST_HALVES = dumps.HALF, dumps.MOST_HALVES

_FULL = {"module-image 1": "IM4", "module-image 2": "IM7"}
"""the fault of one page line too many, by the first line of a text"""
_END = b"end"
_PAGE_LINE = re.compile(
    rb"(?:lower A([02])|upper A([02]) ([0-9a-f]{2}) ([0-9a-f]{2})) ([0-9a-f]{256})"
)

_advertisement = library.function("advertisement")
_patience = library.function("patience")
_durations = library.function("durations")
_identity = library.function("identity")
_flags = library.function("flags")
_monitors = library.function("monitors")
_observables = library.function("observables")
_further_banks = library.function("further_banks")
_settings = library.function("settings")
_settings_limits = library.function("settings_limits")


@dataclass(frozen=True, order=True)
class Key:
    """Where a half is. Keys are in the order of an image's lines; `str` of a key is the beginning
    of its line."""

    device: int
    """the address on the bus in its 8-bit form: 0xA0, or 0xA2 for the diagnostics of an SFP
    module"""
    upper: bool = False
    """False for the addresses 0 to 127, True for 128 to 255"""
    bank: int = 0
    """0 for a lower half"""
    page: int = 0
    """0 for a lower half"""

    def __post_init__(self) -> None:
        if self.device not in (0xA0, 0xA2):
            raise ValueError(f"the device is {self.device}, and neither 0xA0 nor 0xA2")
        look_at_choice("upper", self.upper)
        for what, number in (("the bank", self.bank), ("the page", self.page)):
            look_at(what, number, 255 if self.upper else 0)

    def __str__(self) -> str:
        return (
            f"upper {self.device:X} {self.bank:02x} {self.page:02x}"
            if self.upper
            else f"lower {self.device:X}"
        )


LOWER = Key(0xA0)
"""the lower half of 0xA0"""
LOWER_A2 = Key(0xA2)


def page(number: int, bank: int = 0, device: int = 0xA0) -> Key:
    """The key of a page."""
    return Key(device, True, bank, number)


def _key_of(words: str) -> Key:
    half, device, *place = words.split()
    bank, number = (int(digits, 16) for digits in place or ("0", "0"))
    return Key(0xA0 + int(device[1]), half == "upper", bank, number)


# Which halves have to be there, by the code of the fault that says that one of them isn't.
_Needed = Mapping[str, Tuple[Key, ...]]
_OF_APPLICATIONS: _Needed = {
    "AD4": (LOWER, page(0x00), page(0x01), page(0x11)),
    "SM1": (LOWER, page(0x00), page(0x01), page(0x10), page(0x11)),
}
_OF_OBSERVABLES: _Needed = {"RP6": (LOWER,)}
_DIAGNOSTICS = 0x20  # of byte 142 of page 01h: it has pages 13h and 14h
# What calls that take halves need, besides what a module lists itself (VDM) and what a simulated
# one shows.
_OF_CALLS = (
    *(LOWER, *(_key_of(words) for it in dumps.FAMILIES.values() for words in it.halves)),
    *(page(0x11, bank) for bank in (1, 2, 3)),  # lanes from 9 on
)
_DESCRIPTORS = range(0x20, 0x24)  # pages of what a module lists itself, one of each group


class Image:
    """At most 64 halves of 128 bytes, each under its key. An image never changes."""

    def __init__(self, halves: Mapping[Key, bytes]) -> None:
        for key in look_at_mapping("the halves", halves):
            look_at_type("the key of a half", key, Key)
        if len(halves) > MOST_HALVES:
            raise ValueError(
                f"there are {len(halves)} halves, and an image has at most {MOST_HALVES}"
            )
        self._halves = {key: look_at_bytes(str(key), halves[key], HALF) for key in sorted(halves)}

    @property
    def halves(self) -> Dict[Key, bytes]:
        """The halves, in the order of their keys; a copy."""
        return dict(self._halves)

    def __eq__(self, other: object) -> bool:
        return isinstance(other, Image) and self._halves == other._halves

    def __hash__(self) -> int:
        return hash(tuple(self._halves.items()))

    def __repr__(self) -> str:
        return f"<Image of {', '.join(map(str, self._halves))}>"

    def changed(self, key: Key, address: int, data: bytes) -> Image:
        """The image with other bytes at an address, 0 to 255, of a half that it has: for tests."""
        start = look_at("the address", address, 256 - len(data)) - (HALF if key.upper else 0)
        half = bytearray(self._halves[key])
        if not 0 <= start <= HALF - len(data):
            raise ValueError(f"{len(data)} bytes from {address} on are not in {key}")
        half[start : start + len(data)] = data
        return Image({**self._halves, key: bytes(half)})

    def without(self, *keys: Key) -> Image:
        """The image without these halves: for tests."""
        return Image({key: half for key, half in self._halves.items() if key not in keys})

    @classmethod
    def from_text(cls, text: Union[str, bytes]) -> Image:
        """Reads the text of an image. Raises a Fault of IM1 to IM7."""
        lines = look_at_text("the text of an image", text).split(b"\n")
        if lines[-1] == b"":
            lines.pop()
        header = lines[0].decode("latin-1") if lines else ""
        if header not in dumps.VERSIONS:
            raise Fault("IM1")
        halves: Dict[Key, bytes] = {}
        for number, line in enumerate(lines[1:], 2):
            if line == _END:
                if number < len(lines):
                    raise Fault("IM6")
                return cls(halves)
            _take_page_line(header, halves, number, line)
        raise Fault("IM5")

    def to_text(self) -> str:
        """The text of the image, which reads back as this image."""
        return dumps.image_text({str(key): half for key, half in self._halves.items()})

    @classmethod
    def from_file(
        cls,
        name: Union[str, "os.PathLike[str]"],
        name_of_a2: Union[str, "os.PathLike[str]", None] = None,
    ) -> Image:
        """The image of a dump in a file, in any form that tools/module-image reads, which its
        contents tell (docs/formats.md, "Dumps"); of an SFP module the device A2h may be in a second
        file. Warns of each half that is left out or absent. Raises ValueError if the file is no dump
        of a module that is read, and OSError if it can't be read. For the file of a driver there is
        `from_port`, which reads each half once."""
        remarks: List[str] = []
        dump = dumps.parsed(_contents(name))
        halves = dumps.halves_of(dump, remarks.append)
        lower = halves.get(str(LOWER))
        if lower is None:
            raise ValueError(
                f"{os.fspath(name)} lacks the lower half of A0, which names the module"
            )
        if name_of_a2 is not None:
            if not dumps.family_of(lower[0]).has_a2 or str(LOWER_A2) in halves:
                raise ValueError(
                    "a second file is for an SFP module of whose A2h the first has nothing"
                )
            halves[str(LOWER_A2)] = dumps.half_of_a2(dumps.parsed(_contents(name_of_a2)), lower)
        image = cls(_by_key(dumps.image_halves(dump.form, halves, remarks.append)))
        for remark in remarks:
            warnings.warn(remark, stacklevel=2)
        return image

    @classmethod
    def from_dump(cls, dump: bytes) -> Image:
        """The image of the bytes of an eeprom file, which has a module's halves in a row, as the
        driver optoe and `ethtool -m PORT raw on` have them (docs/formats.md, "Dumps");
        `from_file` reads other forms too. Takes the halves of the module's family that are
        there. Raises ValueError if it is no dump of a module that is read, and TypeError for the
        name of a file."""
        if not isinstance(dump, (bytes, bytearray)):
            raise TypeError(f"the dump is {dump!r}, and no bytes: read the file first")
        dump = bytes(dump)
        if not dump or len(dump) % HALF:
            raise ValueError(
                f"a dump has whole halves of {HALF} bytes, and this one has {len(dump)} bytes"
            )
        if not dumps.is_known(dump[0]):
            raise ValueError(
                f"its first byte is 0x{dump[0]:02x}, the identifier of no module that is read"
            )
        if len(dump) == 2 * HALF and not dumps.shows_page_00h(dump):
            # a page was selected, and nothing says that the second half is that one
            dump = dump[:HALF]
        return cls(_halves_in_row(lambda offset, count: dump[offset : offset + count]))

    @classmethod
    def from_port(cls, name: Union[str, "os.PathLike[str]"]) -> Image:
        """Reads the module in a port by the file of the driver optoe, such as
        /sys/bus/i2c/devices/7-0050/eeprom. Each half is read once, since reading clears flags; one
        that can't be read is left out. Raises OSError if there is no such file, or the lower half
        of 0xA0 can't be read. For another bus there is Reading."""
        with open(name, "rb", buffering=0) as file:

            def read(offset: int, count: int) -> bytes:
                return os.pread(file.fileno(), count, offset)

            return cls(_halves_in_row(read))

    def advertisement(self, counts_by_id: bool = False) -> Advertisement:
        """What the module advertises, with the lane counts that it has, or with those by which
        `plan` goes with `counts_by_id`. Raises a Fault of AD1 to AD6."""
        look_at_choice("counts_by_id", counts_by_id)
        found = library.Advertisement()
        self.take(_advertisement(*self.arguments(), counts_by_id, byref(found)))
        return advertisement_of(found)

    def applications(self, counts_by_id: bool = False) -> Tuple[Application, ...]:
        """The Applications that the module advertises, by rising number. Raises a Fault of AD1 to
        AD6."""
        return self.advertisement(counts_by_id).applications

    def durations(self) -> Durations:
        """How long states of the module last at most, in milliseconds. Raises a Fault of AD1 to
        AD6."""
        found = library.Durations()
        self.take(_durations(*self.arguments(), byref(found)))
        return durations_of(found)

    def patience(self) -> Patience:
        """How long procedures pause for the module. Raises a Fault of AD1 to AD6."""
        found = library.Patience()
        self.take(_patience(*self.arguments(), byref(found)))
        return Patience(found.pause, found.limit)

    def inventory(self) -> Inventory:
        """What the module is. Needs the halves that `cmisctl inventory` needs (docs/formats.md,
        "Modules that are read"). Raises a Fault of RP1, RP4, RP6 or SF3."""
        found = library.Identity()
        self.take(_identity(*self.arguments(), byref(found)), self._needed_by("inventory"))
        return inventory_of(found)

    def flags(self) -> Flags:
        """The states of the module and the flags that it raises. Needs the halves that
        `cmisctl flags` needs. In memory that was read, most flags have become 0 by that. Raises a
        Fault of RP1, RP4, RP6, SF3, SF4 or SF6."""
        found = library.Flags()
        self.take(_flags(*self.arguments(), byref(found)), self._needed_by("flags"))
        return flags_of(found)

    def monitors(self) -> Monitors:
        """What the module measures. Needs the halves that `cmisctl monitors` needs. Raises a Fault
        of RP1, RP4, RP6 or SF3 to SF6."""
        found = library.Monitors()
        self.take(_monitors(*self.arguments(), byref(found)), self._needed_by("monitors"))
        return monitors_of(found)

    def observables(self) -> Tuple[Observable, ...]:
        """All that the module measures, with exact amounts, limits and flags, in the order of
        `cmisctl observables`; of CMIS also what it lists itself (VDM). Needs the lower half of 0xA0
        alone; what is in another half that is missing is left out, or None. Raises a Fault of RP1, RP4
        or RP6."""
        return self.monitored() + self.listed()

    def monitored(self) -> Tuple[Observable, ...]:
        """The first of them: those at fixed places."""
        return self._observed(0, library.FIRST_INSTANCE)

    def listed(self) -> Tuple[Observable, ...]:
        """The others, which a module lists itself (VDM). Each group is observed on its own."""
        listed: List[Observable] = []
        for key in self._halves:
            if key.device == LOWER.device and key.page in _DESCRIPTORS:
                pages = (key.page, key.page + 4, key.page + 8, 0x2C)  # samples, limits, flags
                group = (page(number, key.bank) for number in pages)
                listed += self._observed(library.FIRST_INSTANCE, 2**16, *group)
        return tuple(listed)

    def _observed(self, first: int, end: int, *others: Key) -> Tuple[Observable, ...]:
        """Those from a place of the library's list on, and before another one, by the halves that
        each call needs and these others."""
        halves, count = self.arguments(*others)
        observed: List[Observable] = []
        place, found = c_uint16(first), library.Observable()
        while True:
            self.take(_observables(halves, count, byref(place), byref(found)), _OF_OBSERVABLES)
            if place.value == 0 or place.value > end:
                return tuple(observed)
            observed.append(observable_of(found))

    def banks(self) -> Tuple[int, ...]:
        """The banks of eight lanes that the module advertises, from bank 0 on, whose statistics a
        `VdmReading` reads. Needs the lower half of 0xA0 and page 01h."""
        requested = c_uint8()
        self.take(_further_banks(*self.arguments(), byref(requested)))
        return (0, *(bank for bank in (1, 2, 3) if requested.value >> (bank - 1) & 1))

    def link_capabilities(self) -> LinkCapabilities:
        """What the module can do in tests of a link. Needs page 01h, and page 13h of a module that has
        it. Raises ValueError if one is missing."""
        advertised = self._page(0x01)[142 - 128]
        abilities = self._page(0x13)[:12] if advertised & _DIAGNOSTICS else bytes(12)
        return link_capabilities_of(advertised, abilities)

    def _page(self, number: int) -> bytes:
        key = page(number)
        if key not in self._halves:
            raise ValueError(f"the image lacks {key}")
        return self._halves[key]

    def signal_settings(self) -> ModuleSignals:
        """The signal integrity settings of each lane. Needs the lower half of 0xA0 and its pages 00h,
        01h and 11h; those that are staged need page 10h. Raises a Fault of AD1 to AD6."""
        found = library.Settings()
        self.take(_settings(*self.arguments(), byref(found)))
        return signals_of(found)

    def signal_limits(self) -> SignalLimits:
        """Which of them the module can have. Raises a Fault of AD1 to AD6."""
        found = library.SettingsLimits()
        self.take(_settings_limits(*self.arguments(), byref(found)))
        return limits_of(found)

    def details(self) -> Details:
        """All that the module has about itself, with names (docs/tables/details.md). Needs the halves
        that `cmisctl details` needs. Raises a Fault of RP1, RP4, RP6 or SF3."""
        return details_of(self._report("details"))

    def metrics(self, all_flags: bool = False) -> str:
        """What the inventory, the monitors and the flags say, in the text format of Prometheus; of
        flags those that are raised, or all. A report that can't be made is a metric, too."""
        look_at_choice("all_flags", all_flags)
        return self._report("metrics", all_flags).decode("ascii")

    def _report(self, call: str, *numbers: int) -> bytes:
        status, text = library.report(call, self.to_text().encode("ascii"), *numbers)
        if status == library.REPORT_FAULT:
            raise Fault.of_line(text.decode("ascii"))
        if status:
            raise AssertionError(f"the library answered status {status}")
        return text

    def arguments(self, *others: Key) -> Tuple[Array[library.Half], int]:
        """Those halves that the library's calls need, and these others, as it takes them, and their
        number: it takes fewer at once than an image may have."""
        halves = [
            bytes([key.device, key.upper, key.bank, key.page]) + self._halves[key]
            for key in dict.fromkeys((*_OF_CALLS, *others))
            if key in self._halves
        ]
        return (library.Half * len(halves)).from_buffer_copy(b"".join(halves)), len(halves)

    def _needed_by(self, command: str) -> _Needed:
        """The halves that a command of cmisctl needs of this module."""
        lower = self._halves.get(LOWER)
        others = dumps.wanted(lower) if lower else {}
        halves = (LOWER, *(_key_of(words) for words in others if command in others[words]))
        return {"RP6": halves, "SF3": halves}

    def take(self, status: int, needed: _Needed = _OF_APPLICATIONS) -> None:
        """Raises what a status says of these halves."""
        code = CODES.get(status)
        if code is None:
            if status:
                raise AssertionError(f"the library answered status {status}")
            return
        if code in needed:
            raise Fault(code, str(next(key for key in needed[code] if key not in self._halves)))
        if code in ("AD1", "AD6", "RP1"):
            raise Fault(code, self._halves[LOWER][0])
        if code in ("AD2", "RP4"):
            raise Fault(code, self._halves[LOWER][1])
        if code == "AD5":
            raise Fault(code, 1 if _has_right_sum(self._halves[page(0x00)]) else 0)
        raise Fault(code)


def _take_page_line(header: str, halves: Dict[Key, bytes], number: int, line: bytes) -> None:
    """Takes one more half; raises IM2 to IM4 or IM7 if the line of this number gives none."""
    found = _PAGE_LINE.fullmatch(line)
    if found is None:
        raise Fault("IM2", number)
    lower, upper, bank, number_of_page, digits = found.groups()
    device = 0xA0 + int(lower or upper)
    key = Key(device) if lower else page(int(number_of_page, 16), int(bank, 16), device)
    if halves and key <= max(halves):
        raise Fault("IM3", number)
    if len(halves) == dumps.VERSIONS[header]:
        raise Fault(_FULL[header])
    halves[key] = bytes.fromhex(digits.decode())


def _has_right_sum(half: bytes) -> bool:
    """Of page 00h: byte 222 is the sum of the bytes 128 to 221 (docs/fields.md, "Sums")."""
    return sum(half[: 222 - HALF]) % 256 == half[222 - HALF]


def _contents(name: Union[str, "os.PathLike[str]"]) -> bytes:
    """Of a file that may be a dump."""
    with open(name, "rb") as file:
        contents = file.read(dumps.MOST_BYTES + 1)
    if len(contents) > dumps.MOST_BYTES:
        raise ValueError(
            f"{os.fspath(name)} is longer than {dumps.MOST_BYTES} bytes, and no dump is"
        )
    return contents


def _by_key(halves: Mapping[str, bytes]) -> Dict[Key, bytes]:
    """Halves by their keys, of which each is given by the beginning of its line."""
    return {_key_of(words): half for words, half in halves.items()}


def _halves_in_row(read: Callable[[int, int], bytes]) -> Dict[Key, bytes]:
    lower = read(0, HALF)
    if len(lower) < HALF:
        raise OSError(f"the lower half of 0xA0 has {HALF} bytes, and {len(lower)} were read")
    halves = {str(LOWER): lower}
    places = {dumps.key_in_row(lower[0], number): HALF * number for number in range(1, 257)}

    def take(keys: Iterable[str]) -> None:
        for key in keys:
            try:
                half = read(places[key], HALF)
            except OSError:
                continue
            if len(half) == HALF:
                halves[key] = half

    take(dumps.wanted(lower))
    take(dumps.with_observables(halves))  # page 2Fh, which tells of the others
    if str(page(0x2F)) in halves:
        take(dumps.with_observables(halves)[1:])
    return _by_key(halves)
