"""Updates of firmware, and what banks hold, on a module with two banks that answers at once."""
from __future__ import annotations

import contextlib
import copy
from typing import Dict, List

import pytest

from dovecounter import (
    BanksReading,
    CommandBlock,
    FirmwareAbort,
    FirmwareCommit,
    FirmwareFailure,
    FirmwareFault,
    FirmwareKnown,
    FirmwarePassword,
    FirmwareUpdate,
    Image,
    Operation,
    Reply,
    Wait,
    page,
)

FILE = bytes(range(256)) * 3
FEATURES = bytes([1, 0, 16, 0xFF, 15, 1, 1, 0, *[0, 5] * 5])


class TwoBanks:
    """Byte 37 and page 9Fh."""

    def __init__(self) -> None:
        self.images = [bytes([1, 2, 0, 3]), bytes([9, 8, 7, 6])]
        self.valid = [True, False]
        self.running = self.committed = self.status = 0
        self.password = b""
        self.refusal = 0  # of a Start, while an earlier download is open
        self.selected, self.block = [0, 0], bytearray(128)
        self.download = b""
        self.sent: List[int] = []

    def transact(self, operation: Operation) -> Reply:
        if operation.data is None:
            first = operation.offset
            return bytes(self.fetch(it) for it in range(first, first + operation.count))
        for at, byte in enumerate(operation.data):
            self.store(operation.offset + at, byte)
        return True

    def fetch(self, address: int) -> int:
        if address < 126:
            return self.status if address == 37 else 0
        return self.selected[address - 126] if address < 128 else self.block[address - 128]

    def store(self, address: int, byte: int) -> None:
        if address < 128:
            self.selected[address - 126] = byte
            return
        assert self.selected == [0, 0x9F]
        self.block[address - 128] = byte
        if address == 129:
            self.status = self.carry_out(
                self.block[0] << 8 | byte, bytes(self.block[8:][: self.block[4]])
            )

    def reply(self, data: bytes) -> int:
        self.block[6:8] = [len(data), ~sum(data) & 255]
        self.block[8 : 8 + len(data)] = data
        return 1

    def carry_out(self, number: int, body: bytes) -> int:
        self.sent.append(number)
        other = 1 - self.running
        if number == 0x41:
            return self.reply(FEATURES)
        if number == 0x100:
            bits = [
                (self.running == it) | (self.committed == it) << 1 | (not self.valid[it]) << 2
                for it in (0, 1)
            ]
            versions = b"".join(it[:4].ljust(36, b"\0") for it in self.images)
            return self.reply(bytes([bits[0] | bits[1] << 4, 3]) + versions)
        if number == 1:
            self.password = b"" if body == self.password else self.password
        if self.password:
            return 0x46
        if number == 0x101 and self.refusal:
            return self.refusal
        if number == 0x102:
            self.refusal = 0
        actions: Dict[int, bytes] = {0x101: body[8:], 0x103: self.download + body[4:]}
        self.download = actions.get(number, self.download)
        if number == 0x107:
            self.images[other], self.valid[other] = self.download, True
        if number == 0x109:
            self.running = other
        if number == 0x10A:
            self.committed = self.running
        return 1


def test_an_update_is_carried_out_and_committed() -> None:
    module, update = TwoBanks(), FirmwareUpdate(FILE)
    assert (update.known, update.sent) == (FirmwareKnown.UNTOUCHED, 0)
    update.run(module.transact, lambda seconds: None)
    assert (update.known, update.sent) == (FirmwareKnown.COMMITTED, len(FILE))
    assert module.images[1] == FILE and (module.running, module.committed) == (1, 1)


def test_a_commit_is_held_back_and_made_later() -> None:
    module, update = TwoBanks(), FirmwareUpdate(FILE, hold=True)
    update.run(module.transact, lambda seconds: None)
    assert update.known == FirmwareKnown.RUNS and 0x10A not in module.sent
    reading = BanksReading()
    reading.run(module.transact, lambda seconds: None)
    banks = reading.banks
    assert (banks.running, banks.committed) == ("B", "A")
    assert (banks.a.runs, banks.a.committed) == (False, True)
    assert (banks.b.runs, banks.b.committed) == (True, False)
    FirmwareCommit().run(module.transact, lambda seconds: None)
    assert module.committed == 1


def test_banks_are_read() -> None:
    reading = BanksReading()
    with pytest.raises(ValueError):
        reading.banks
    reading.run(TwoBanks().transact, lambda seconds: None)
    banks = reading.banks
    assert (banks.running, banks.committed) == ("A", "A")
    assert (banks.a.runs, banks.a.committed, banks.a.valid) == (True, True, True)
    assert banks.a.version == (1, 2, 3)
    assert (banks.b.runs, banks.b.committed, banks.b.valid) == (False, False, False)
    assert banks.b.version is None
    module, reading = TwoBanks(), BanksReading()
    module.images[0] = bytes([0, 0, 0, 7])
    reading.run(module.transact, lambda seconds: None)
    assert reading.banks.a.version == (0, 0, 7)


def test_a_file_that_changes_meanwhile_is_sent_as_it_was_given() -> None:
    module, file = TwoBanks(), bytearray(FILE)
    update = FirmwareUpdate(file)
    file[:] = bytes(len(file))
    update.run(module.transact, lambda seconds: None)
    assert module.images[1] == FILE


def test_a_refusal_has_its_status() -> None:
    module = TwoBanks()
    module.password = bytes([0x12, 0x34, 0x56, 0x78])
    update = FirmwareUpdate(FILE)
    with pytest.raises(FirmwareFault) as fault:
        update.run(module.transact, lambda seconds: None)
    found = fault.value
    assert (found.failure, found.status) == (FirmwareFailure.REFUSED, 0x46)
    assert found.known == FirmwareKnown.UNTOUCHED
    assert str(found) == "refused with status 46h, untouched"
    with pytest.raises(FirmwareFault) as other:
        FirmwareAbort().run(module.transact, lambda seconds: None)
    assert other.value.known is None and str(other.value) == "refused with status 46h"
    FirmwarePassword(0x12345678).run(module.transact, lambda seconds: None)
    FirmwareAbort().run(module.transact, lambda seconds: None)
    assert module.sent[-2:] == [1, 0x102]


def test_an_earlier_download_is_given_up() -> None:
    module, update = TwoBanks(), FirmwareUpdate(FILE)
    module.refusal = 0x47
    with pytest.raises(FirmwareFault) as fault:
        update.run(module.transact, lambda seconds: None)
    found = fault.value
    assert (found.failure, found.known) == (FirmwareFailure.LEFT_OPEN, FirmwareKnown.ABORTED)
    assert str(found) == "left open with status 47h, aborted" and module.refusal == 0
    FirmwareUpdate(FILE).run(module.transact, lambda seconds: None)
    assert module.committed == 1


def test_a_silent_module_is_given_up() -> None:
    update = FirmwareUpdate(FILE)
    with pytest.raises(FirmwareFault) as fault:
        update.run(lambda operation: False, lambda seconds: None)
    assert str(fault.value) == "gave up, untouched"


@pytest.mark.parametrize(
    "number, known",
    [
        (0x101, FirmwareKnown.ABORTED),
        (0x107, FirmwareKnown.ABORTED),
        (0x109, FirmwareKnown.COMMITTED),
        (0x10A, FirmwareKnown.COMMITTED),
    ],
)
def test_a_command_that_was_interrupted_is_sent_once(number: int, known: FirmwareKnown) -> None:
    module, update = TwoBanks(), FirmwareUpdate(FILE)

    def interrupted(operation: Operation) -> Reply:
        before = len(module.sent)
        reply = module.transact(operation)
        if module.sent[before:] == [number]:
            raise KeyboardInterrupt
        return reply

    pytest.raises(KeyboardInterrupt, update.run, interrupted, lambda seconds: None)
    with contextlib.suppress(FirmwareFault):
        update.run(module.transact, lambda seconds: None)
    assert module.sent.count(number) == 1 and update.known is known


def test_steps_are_told_once() -> None:
    update = FirmwareUpdate(FILE)
    step = next(update)
    assert isinstance(step, Operation) and (step.offset, step.count) == (37, 1)
    with pytest.raises(ValueError):
        update.reply(True)
    with pytest.raises(ValueError):
        update.waited()
    twin = copy.copy(update)
    update.reply(False)
    assert isinstance(next(update), Wait)
    assert next(twin) == step
    assert repr(update) == "<FirmwareUpdate after 1 operations>"


class Long(bytes):
    """A file that says to be the longest there may be."""

    def __len__(self) -> int:
        return 2**32 - 1


class TooLong(bytes):
    def __len__(self) -> int:
        return 2**32


def test_a_file_has_a_byte_to_4_gib() -> None:
    assert FirmwareUpdate(b"1").known == FirmwareKnown.UNTOUCHED
    assert repr(FirmwareUpdate(Long())) == "<FirmwareUpdate after 0 operations>"
    with pytest.raises(ValueError, match="^the size of the file is 4294967296, and not from 1 to"):
        FirmwareUpdate(TooLong())


def test_what_is_given_is_looked_at() -> None:
    with pytest.raises(ValueError):
        FirmwareUpdate(b"")
    with pytest.raises(TypeError):
        FirmwareUpdate(FILE, hold=1)  # type: ignore[arg-type]
    with pytest.raises(ValueError):
        FirmwarePassword(2**32)
    module = TwoBanks()
    module.password = bytes([0xFF] * 4)
    FirmwarePassword(2**32 - 1).run(module.transact, lambda seconds: None)
    assert module.password == b""


def test_a_command_data_block_is_advertised() -> None:
    half = bytearray(128)
    half[163 - 128 : 167 - 128] = [0x76, 15, 0x02, 0x80]
    block = CommandBlock.of(Image({page(0x01): bytes(half)}))
    assert block == CommandBlock(1, True, True, 12, 15, 320)
    for bits, background, paging in ((0x60, True, False), (0x50, False, True)):
        half[163 - 128] = bits
        block = CommandBlock.of(Image({page(0x01): bytes(half)}))
        assert (block.background_mode, block.auto_paging) == (background, paging)
    with pytest.raises(KeyError):
        CommandBlock.of(Image({}))
