"""Updating a module's firmware, and asking what its banks hold (docs/firmware_update.md)."""
from __future__ import annotations

from ctypes import byref
from dataclasses import dataclass
from enum import Enum
from typing import Any, Callable, Optional, Tuple

from . import library
from .faults import look_at, look_at_choice
from .image import Image, page
from .procedures import Procedure
from .reports import Patience

_ADVERTISED = slice(163 - 128, 167 - 128)

_progress = library.function("update_progress")
_banks = library.function("banks")
_command_block = library.function("command_block")


class FirmwareFailure(Enum):
    """Why an update or a command ended without success, by the library's numbers."""

    REFUSED = 1
    """by the module, with a status"""
    UNSENT = 2
    UNKNOWN = 3
    """what came of a command is not known"""
    UNSUPPORTED = 4
    """the module takes no blocks of the local payload, or too much at the start"""
    NOT_STANDING = 5
    """no bank alone runs, is committed and valid, so none may be overwritten"""
    GAVE_UP = 6
    LEFT_OPEN = 7
    """the module refuses to begin, with a status, as it does while an earlier download is open; begin
    again if it was ABORTED"""


class FirmwareKnown(Enum):
    """What is known of a module's firmware, by the library's numbers (docs/firmware_update.md)."""

    UNTOUCHED = 1
    BEGUN = 2
    ABORTED = 3
    MAY_BE_COMPLETE = 4
    COMPLETE = 5
    MAY_RUN = 6
    RUNS = 7
    MAY_BE_COMMITTED = 8
    COMMITTED = 9


class FirmwareFault(Exception):
    """An update or a command about firmware that ended without success."""

    def __init__(
        self, failure: FirmwareFailure, status: int, known: Optional[FirmwareKnown]
    ) -> None:
        super().__init__(failure, status, known)
        self.failure = failure
        self.status = status
        """the module's, if it refused (REFUSED, LEFT_OPEN); else 0"""
        self.known = known
        """None of a single command"""

    def __str__(self) -> str:
        name = self.failure.name.lower().replace("_", " ")
        status = f" with status {self.status:02X}h" if self.status else ""
        known = f", {self.known.name.lower().replace('_', ' ')}" if self.known else ""
        return f"{name}{status}{known}"


@dataclass(frozen=True)
class CommandBlock:
    """What a module advertises of its command data block."""

    instances: int
    """commands at once; 0: it has none, so its firmware can't be updated; 3 is reserved"""
    background_mode: bool
    auto_paging: bool
    epl_pages: int
    length_extension: int
    """of page 9Fh it gives 8 bytes, and 8 more for each of these, at once: fetch more in pieces"""
    max_busy_time: int
    """milliseconds for which it may refuse transactions"""

    @classmethod
    def of(cls, image: Image) -> CommandBlock:
        """Of a CMIS module whose page 01h is in the image. Raises KeyError if it isn't."""
        found = library.CommandBlock()
        _command_block(image.halves[page(0x01)][_ADVERTISED], byref(found))
        return cls(
            found.instances,
            bool(found.background_mode),
            bool(found.auto_paging),
            found.epl_pages,
            found.length_extension,
            found.max_busy_time,
        )


@dataclass(frozen=True)
class Bank:
    """What a bank holds."""

    runs: bool
    committed: bool
    """it runs after each reset"""
    valid: bool
    """it can run"""
    version: Optional[Tuple[int, int, int]]
    """major, minor, build; None if it isn't known"""


@dataclass(frozen=True)
class Banks:
    """What both banks hold."""

    a: Bank
    b: Bank
    running: Optional[str]
    """"A" or "B", the one that runs alone and is valid; None if none does"""
    committed: Optional[str]
    """the one that is committed alone"""


class _OfFirmware(Procedure):
    """A procedure about firmware: its own numbers, and the file that goes with them."""

    _calls = library.Calls("update_")

    def __init__(self, begin: Callable[..., None], file: bytes, *words: int) -> None:
        super().__init__(Patience())
        self._saved = library.Update()
        self._file = bytes(file)
        begin(*words, byref(self._saved))

    def _made(self) -> int:
        return int(self._saved.delivery.steps)

    def _kept(self) -> Tuple[Any, ...]:
        return self._file, len(self._file)

    def _has_ended(self) -> None:
        ending = library.UpdateEnding()
        self._put_end(ending)
        if ending.fault:
            known = FirmwareKnown(ending.known) if ending.known else None
            raise FirmwareFault(FirmwareFailure(ending.fault), ending.status, known)
        self._end(ending)

    def _end(self, ending: Any) -> None:
        pass


class FirmwareUpdate(_OfFirmware):
    """Updates a module to a file of 1 byte to 4 GiB: writes the bank that doesn't run, runs it by a
    reset, which takes all data paths down, and commits it once it runs. With `hold` it ends before
    the commit. Raises a FirmwareFault while it is iterated, which has what is known then."""

    _begin = staticmethod(library.function("update_begin"))

    def __init__(self, file: bytes, hold: bool = False) -> None:
        size = look_at("the size of the file", len(file), 2**32 - 1, least=1)
        super().__init__(self._begin, file, size, look_at_choice("whether it is held", hold))

    @property
    def known(self) -> FirmwareKnown:
        """What is known of the firmware if nothing more is done."""
        return FirmwareKnown(self._come().known)

    @property
    def sent(self) -> int:
        """How many bytes of the file the module has taken."""
        return int(self._come().sent)

    def _come(self) -> library.UpdateProgress:
        found = library.UpdateProgress()
        library.expect_done(_progress(byref(self._saved), *self._kept(), byref(found)))
        return found


class BanksReading(_OfFirmware):
    """Asks a module what its banks hold. Raises a FirmwareFault while it is iterated."""

    _begin = staticmethod(library.function("banks_begin"))

    def __init__(self) -> None:
        super().__init__(self._begin, b"")
        self._banks: Optional[Banks] = None

    @property
    def banks(self) -> Banks:
        """What they hold. Raises ValueError before the end."""
        if self._banks is None:
            raise ValueError("the question has not ended")
        return self._banks

    def _end(self, ending: Any) -> None:
        found = library.Banks()
        _banks(bytes(ending.reply[: ending.count]), ending.count, byref(found))
        names = (None, "A", "B")
        self._banks = Banks(
            _bank_of(found.banks[0]),
            _bank_of(found.banks[1]),
            names[found.running],
            names[found.committed],
        )


class FirmwareCommit(_OfFirmware):
    """Has the image that runs run after each reset. First ask whether `Banks.running` is that one.
    Raises a FirmwareFault while it is iterated."""

    _begin = staticmethod(library.function("commit_begin"))

    def __init__(self) -> None:
        super().__init__(self._begin, b"")


class FirmwareAbort(_OfFirmware):
    """Gives an open download up. Raises a FirmwareFault while it is iterated."""

    _begin = staticmethod(library.function("abort_begin"))

    def __init__(self) -> None:
        super().__init__(self._begin, b"")


class FirmwarePassword(_OfFirmware):
    """Gives a module its password, for one that refuses with status 46h. Raises a FirmwareFault while
    it is iterated."""

    _begin = staticmethod(library.function("password_begin"))

    def __init__(self, password: int) -> None:
        super().__init__(self._begin, b"", look_at("the password", password, 2**32 - 1))


def _bank_of(found: library.Bank) -> Bank:
    version = (found.major, found.minor, found.build) if found.has_version else None
    return Bank(bool(found.runs), bool(found.committed), bool(found.valid), version)
