"""Readings of statistics, on the module of an example that freezes them after a few transactions."""
from __future__ import annotations

import asyncio
import copy
from typing import Dict, List, Tuple

import pytest

from dovecounter import (
    Image,
    Operation,
    Patience,
    Reply,
    VdmEnd,
    VdmFault,
    VdmReading,
    VdmRelease,
    VdmStatistics,
    Wait,
    page,
)
from shared import example

IMAGE = example("osfp_800g_vdm.txt")
WHOLE = VdmEnd(VdmStatistics.FROZEN, VdmRelease.RELEASED, ())


class Module:
    """Samples of each of its banks count its transactions until they are frozen. `slow` is how many
    freezing takes."""

    def __init__(self, slow: int = 2, image: Image = IMAGE) -> None:
        self.pages: Dict[Tuple[int, int], bytearray] = {
            (key.bank, key.page): bytearray(half) for key, half in image.halves.items() if key.upper
        }
        self.selected = 0, 0
        self.slow = slow
        self.left = {bank: 0 for bank, number in self.pages if number == 0x2F}
        self.stored: List[Tuple[int, int]] = []
        self.takes = True

    def pass_one(self) -> None:
        for bank in self.left:
            control, samples = self.pages[bank, 0x2F], self.pages[bank, 0x24]
            self.left[bank] = max(0, self.left[bank] - 1)
            asked = control[144 - 128] >= 0x80
            done = self.left[bank] == 0
            control[145 - 128] = (0x80 if asked else 0x40) if done else 0
            if not (asked and done):
                samples[1] = (samples[1] + 1) % 256

    def transact(self, operation: Operation) -> Reply:
        self.pass_one()
        if operation.data is None:
            if operation.offset < 128:
                return bytes(self.selected)
            at = operation.offset - 128
            return bytes(self.pages[self.selected][at : at + operation.count])
        if operation.offset < 128:
            wanted = operation.data[0], operation.data[1]
            self.selected = wanted if wanted in self.pages else (0, 0)
            return True
        bank, number = self.selected
        assert (number, operation.offset) == (0x2F, 144)
        self.stored.append((bank, operation.data[0]))
        if self.takes:
            self.left[bank] = self.slow
            self.pages[self.selected][144 - 128] = operation.data[0]
        return self.takes


def run(module: Module, bank: int = 0) -> VdmReading:
    reading = VdmReading(bank=bank)
    reading.run(module.transact, lambda seconds: None)
    return reading


def wide(code: int, *banks: int) -> Image:
    """The example with the lanes, and what it lists, of further banks too, each with limits of its own."""
    halves = IMAGE.changed(page(0x01), 142, bytes([0x40 | code])).halves
    for bank in banks:
        for number in (0x11, 0x20, 0x24, 0x28, 0x2C, 0x2F):
            halves[page(number, bank)] = IMAGE.halves[page(number)]
        halves[page(0x28, bank)] = bytes([bank]) + IMAGE.halves[page(0x28)][1:]
    return Image(halves)


def test_statistics_are_frozen_read_and_released() -> None:
    module = Module()
    reading = VdmReading()
    assert reading.end is None and reading.release.name == "NEVER_FROZEN"
    made = 0
    for step in reading:
        if isinstance(step, Wait):
            assert step == Wait(100)
            reading.waited()
        else:
            made += 1
            reading.reply(module.transact(step))
    assert reading.end == WHOLE and reading.release is VdmRelease.RELEASED
    assert module.stored == [(0, 0x80), (0, 0x00)]
    assert repr(reading) == f"<VdmReading after {made} operations>"


def test_what_is_read_is_what_is_observed() -> None:
    module = Module()
    reading = run(module)
    pages = [0x01, 0x20, 0x24, 0x28, 0x2C, 0x2F]
    assert list(reading.image.halves) == [page(number) for number in pages]
    frozen = reading.image.halves[page(0x24)]
    assert frozen[1] != bytes(IMAGE.halves[page(0x24)])[1]
    same = Image({**IMAGE.halves, page(0x24): frozen})
    bare = IMAGE.without(*(page(number) for number in pages[1:]))
    assert reading.observables(bare) == same.observables()
    assert len(reading.observables(IMAGE)) == len(IMAGE.observables()) > 64


def test_each_bank_is_read_by_itself() -> None:
    module = Module(image=wide(2, 1, 2, 3))
    reading = run(module, 2)
    assert reading.bank == 2 and reading.end == VdmEnd(WHOLE.statistics, WHOLE.release, (), 2)
    assert module.stored == [(2, 0x80), (2, 0x00)]
    pages = [page(number, 2) for number in (0x20, 0x24, 0x28, 0x2C, 0x2F)]
    assert list(reading.image.halves) == [page(0x01), *pages]
    assert reading.image.halves[page(0x28, 2)][0] == 2
    listed = reading.observables(IMAGE)[len(IMAGE.monitored()) :]
    assert len(listed) == 57 and all(it.lane is None or 17 <= it.lane <= 24 for it in listed)


def test_all_that_a_module_lists_is_read_bank_by_bank() -> None:
    whole = wide(2, 1, 2, 3)
    module = Module(image=whole)
    image = Image(
        {key: it for key, it in whole.halves.items() if key.page not in range(0x20, 0x30)}
    )
    banks = image.banks()
    assert banks == whole.banks() == (0, 1, 2, 3)
    for bank in banks:
        image = run(module, bank).added_to(image)
    assert module.stored == [(bank, byte) for bank in banks for byte in (0x80, 0x00)]
    assert list(image.halves) == list(whole.halves)
    assert len(image.observables()) == len(whole.observables()) == 26 + 24 * 3 + 57 * 4
    lanes = [it.lane for it in image.listed() if it.quantity == "laser-age"]
    assert lanes == list(range(1, 33))


def test_how_many_banks_there_are_is_what_page_01h_says() -> None:
    for code, banks in enumerate(((0,), (0, 1), (0, 1, 2, 3), (0,))):
        assert wide(code).banks() == banks
    assert IMAGE.without(page(0x01)).banks() == (0,)
    assert example("qsfp28_100g_sr4.txt").banks() == (0,)


def test_what_is_added_takes_the_place_of_what_was_there() -> None:
    old = wide(1, 1).changed(page(0x28, 1), 128, b"\x77")
    module = Module(image=wide(1, 1))
    del module.pages[1, 0x2C]
    reading = VdmReading(bank=1)
    with pytest.raises(
        VdmFault, match="^bank 1: statistics frozen, release released, without 2Ch$"
    ):
        reading.run(module.transact, lambda seconds: None)
    new = reading.added_to(old)
    assert page(0x2C, 1) in old.halves and page(0x2C, 1) not in new.halves
    assert new.halves[page(0x28, 1)][0] == 1
    assert all(new.halves[key] == half for key, half in old.halves.items() if key.bank == 0)
    assert page(0x11, 1) in new.halves
    other = reading.added_to(old.changed(page(0x01), 200, b"\x55"))
    assert other.halves[page(0x01)] == reading.image.halves[page(0x01)]
    assert VdmReading(bank=1).added_to(old) == old.without(
        *(page(number, 1) for number in (0x20, 0x24, 0x28, 0x2C, 0x2F))
    )


def test_a_module_without_statistics_has_none() -> None:
    module = Module()
    module.pages[0, 0x01][142 - 128] = 0
    reading = run(module)
    assert reading.end == VdmEnd(VdmStatistics.UNSUPPORTED, VdmRelease.NEVER_FROZEN, ())
    assert module.stored == []


def test_what_is_not_whole_is_a_fault() -> None:
    module = Module(slow=1000)
    del module.pages[0, 0x28]
    with pytest.raises(VdmFault) as fault:
        run(module)
    end = VdmEnd(VdmStatistics.PENDING, VdmRelease.ACCEPTED, (0x28,))
    assert fault.value.end == end
    assert str(fault.value) == "statistics pending, release accepted, without 28h"
    module, reading = Module(), VdmReading()
    del module.pages[0, 0x28]
    with pytest.raises(VdmFault, match="^statistics frozen, release released, without 28h$"):
        reading.run(module.transact, lambda seconds: None)
    bare = IMAGE.without(*(page(number) for number in (0x20, 0x24, 0x28, 0x2C)))
    assert reading.observables(IMAGE) == reading.observables(bare)
    del module.pages[0, 0x2C]
    with pytest.raises(VdmFault, match=", without 28h, 2Ch$"):
        run(module)
    module = Module()
    module.takes = False
    with pytest.raises(VdmFault, match="^statistics not taken, release may be frozen$"):
        run(module)


def test_a_silent_module_is_unknown() -> None:
    reading = VdmReading(Patience(7))
    pauses: List[float] = []
    with pytest.raises(VdmFault):
        reading.run(lambda operation: False, pauses.append)
    assert reading.end == VdmEnd(VdmStatistics.UNKNOWN, VdmRelease.NEVER_FROZEN, ())
    assert pauses == [0.007, 0.007]


def test_a_reading_under_way_names_a_freeze_and_can_be_copied() -> None:
    module, reading = Module(), VdmReading()
    for step in reading:
        if isinstance(step, Wait):
            reading.waited()
            continue
        reading.reply(module.transact(step))
        if reading.release is VdmRelease.MAY_BE_FROZEN:
            break
    assert module.pages[0, 0x2F][144 - 128] == 0x80
    other = copy.copy(reading)

    async def transact(operation: Operation) -> Reply:
        return module.transact(operation)

    async def pause(seconds: float) -> None:
        pass

    asyncio.run(other.run_async(transact, pause))
    assert other.end == WHOLE and reading.end is None
    assert module.pages[0, 0x2F][144 - 128] == 0


def test_replies_are_looked_at() -> None:
    reading = VdmReading()
    assert isinstance(next(reading), Operation)
    with pytest.raises(ValueError):
        reading.reply(b"\0")
    with pytest.raises(ValueError):
        reading.waited()
    assert repr(reading) == "<VdmReading after 0 operations>"
    with pytest.raises(TypeError):
        reading.observables("no image")  # type: ignore[arg-type]
    with pytest.raises(TypeError):
        reading.added_to("no image")  # type: ignore[arg-type]
