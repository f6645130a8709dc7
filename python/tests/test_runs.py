"""Procedures over simulated modules, against `cmisctl trace` line by line, and the examples."""
from __future__ import annotations

import copy
import os
import pathlib
import pickle
import random
import re
import subprocess
import sys
import time
from typing import Any, Callable, Dict, List, Optional, Tuple, Type

import pytest

from shared import (
    FOUR_GROUPS,
    IMAGES,
    ROOT,
    WEIGHTS,
    compare_with_trace,
    example,
    fault_of,
    image_of,
)
from dovecounter import (
    LOWER,
    Activation,
    Delays,
    Image,
    Key,
    LeftModuleReady,
    ModuleState,
    Operation,
    PathState,
    Patience,
    Provisioning,
    Reading,
    Reply,
    Request,
    SimulatedModule,
    Sleeping,
    Wait,
    Waking,
    library,
    page,
    plan,
)
from dovecounter.faults import sentence_of
from dovecounter.pytest_plugin import RefusingBus, refusing_bus, simulated_module

__all__ = ["refusing_bus", "simulated_module"]  # pytest finds them here

# what is planned here needn't be in use
pytestmark = pytest.mark.filterwarnings("ignore::dovecounter.KeptPathNotActive")

DR4 = example("qsfp_dd_400g_dr4.txt")
CMIS_ALONE = (
    Request.CMIS_PAGE_00 | Request.CMIS_PAGE_01 | Request.CMIS_PAGE_02 | Request.CMIS_PAGE_11
)


def test_runs_are_those_of_the_program_whatever_is_refused() -> None:
    chance = random.Random(5)
    ends = {compare_with_trace(chance)[-1].split(" ")[0] for _ in range(400)}
    assert ends == {"active", "fault"}


def nibbles(data: Optional[bytes]) -> List[int]:
    assert data is not None
    return [nibble for byte in data for nibble in (byte & 15, byte >> 4)]


def test_states_are_those_that_a_fetch_shows() -> None:
    chance = random.Random(7)
    module = SimulatedModule(DR4, Delays(1, 2, 3, 4, 5, 6, 7))
    best = plan(DR4, WEIGHTS)
    for procedure in (Provisioning(best), Activation(best)):
        for step in procedure:
            if isinstance(step, Wait):
                procedure.waited()
                continue
            procedure.reply(False if chance.random() < 0.2 else module.transact(step))
            seen = module.copy()
            assert seen.store(0xA0, 126, b"\x00\x11")
            assert nibbles(seen.fetch(0xA0, 128, 4)) == list(module.path_states)
            assert nibbles(seen.fetch(0xA0, 202, 4)) == list(module.statuses)
            assert seen.fetch(0xA0, 206, 8) == module.active
            state = seen.fetch(0xA0, 3, 1)
            assert state is not None and state[0] >> 1 & 7 == module.state
    assert module.active == best.control
    assert set(module.path_states) == {PathState.DPActivated}
    assert module.fetch(0xA2, 0, 1) is None


@pytest.mark.parametrize("most", [8, 31, 32, 128, 255])
def test_a_reading_gives_the_halves_that_are_read(most: int) -> None:
    chance = random.Random(most)
    for path in IMAGES:
        image = image_of(path)
        if page(0x11) not in image.halves:
            continue
        module, reading = SimulatedModule(image, Delays()), Reading(most)
        pytest.raises(ValueError, lambda: reading.image)
        for step in reading:
            if isinstance(step, Wait):
                assert step == Wait(20)
                reading.waited()
                continue
            assert step.count <= most
            reading.reply(False if chance.random() < 0.2 else module.transact(step))
        assert list(map(str, reading.image.halves)) == [
            "lower A0",
            *(f"upper A0 00 {number}" for number in ("00", "01", "02", "11")),
        ]
        for key in (page(0x00), page(0x01), page(0x02)):
            assert reading.image.halves[key] == image.halves[key]
        assert reading.image.applications() == image.applications()


def with_banks(code: int, *banks: int) -> Image:
    """A module that advertises banks by this code, and has the lanes of these."""
    advert = bytearray(DR4.halves[page(0x01)])
    advert[142 - 128] = code
    advert[127] = sum(advert[2:127]) % 256
    lanes = {page(0x11, bank): bytes([bank]) * 128 for bank in banks}
    return Image({**DR4.halves, page(0x01): bytes(advert), **lanes})


@pytest.mark.parametrize("most", [8, 128])
@pytest.mark.parametrize(
    "code, banks, read",
    [
        (0, (1,), ()),
        (1, (1,), (1,)),
        (1, (1, 2), (1,)),
        (1, (), ()),
        (2, (1, 2, 3), (1, 2, 3)),
        (2, (1, 3), (1, 3)),
        (3, (1, 2, 3), ()),
    ],
)
def test_a_reading_goes_on_with_the_further_banks_that_are_advertised(
    code: int, banks: Tuple[int, ...], read: Tuple[int, ...], most: int
) -> None:
    chance = random.Random(most)
    image = with_banks(code, *banks)
    module, reading = SimulatedModule(image), Reading(most)
    operations = 0
    while (step := next(reading, None)) is not None:
        reading = copy.copy(reading)
        if isinstance(step, Wait):
            reading.waited()
            continue
        operations += 1
        reading.reply(False if chance.random() < 0.1 else module.transact(step))
    assert repr(reading) == f"<Reading after {operations} operations>"
    found = reading.image.halves
    assert [key.bank for key in found if key.bank] == list(read)
    assert all(found[page(0x11, bank)] == bytes([bank]) * 128 for bank in read)
    assert len(found) == 5 + len(read)
    assert list(reading) == [] and reading.image.halves == found


def run_until_refused(reading: Reading, answered: int) -> List[Operation]:
    """Reads a module of four banks over a bus that refuses all after so many operations."""
    module = SimulatedModule(with_banks(2, 1, 2, 3))
    made: List[Operation] = []

    def transact(operation: Operation) -> Reply:
        made.append(operation)
        return module.transact(operation) if len(made) <= answered else False

    for _ in range(2):  # it goes on no further
        with pytest.raises(TimeoutError):
            reading.run(transact, pause=lambda seconds: None)
    return made


def test_what_was_read_of_bank_0_stays_if_further_banks_are_refused() -> None:
    reading = Reading()
    made = run_until_refused(reading, 17)
    assert [str(key) for key in reading.image.halves] == [
        "lower A0",
        *(f"upper A0 00 {number}" for number in ("00", "01", "02", "11")),
    ]
    assert made[13].offset == 0 and made[14].data == b"\x01\x11"


def test_no_further_banks_are_read_if_bank_0_is_refused() -> None:
    reading = Reading()
    made = run_until_refused(reading, 9)  # page 01h was read before
    assert b"\x01\x11" not in [operation.data for operation in made]
    pytest.raises(ValueError, lambda: reading.image)


def test_the_lower_half_is_that_of_the_first_reading() -> None:
    module, reading = SimulatedModule(with_banks(1, 1)), Reading()
    fetched: List[bytes] = []

    def transact(operation: Operation) -> Reply:
        reply = module.transact(operation)
        if operation.offset == 0 and isinstance(reply, bytes):
            reply = reply[:8] + bytes([len(fetched) + 1]) + reply[9:]
            fetched.append(reply)
        return reply

    reading.run(transact)
    assert len(fetched) == 2 and reading.image.halves[LOWER] == fetched[0]


def test_other_requests_are_for_bank_0_alone() -> None:
    module, reading = SimulatedModule(with_banks(1, 1)), Reading(requested=CMIS_ALONE)
    reading.run(module.transact)
    assert len(reading.image.halves) == 5 and repr(reading) == "<Reading after 13 operations>"


def test_a_module_shows_all_of_its_halves() -> None:
    others = {page(number, bank=1): bytes([number]) * 128 for number in range(40)}
    image = Image({**image_of(FOUR_GROUPS).halves, **others})
    module = SimulatedModule(image)
    for key in [key for key in image.halves if key.upper]:
        assert module.store(0xA0, 126, bytes([key.bank, key.page]))
        assert module.fetch(0xA0, 126, 2) == bytes([key.bank, key.page])
        if key not in (page(0x10), page(0x11)):  # which are the module's own
            assert module.fetch(0xA0, 128, 128) == image.halves[key]
    for address, data, shown in (
        (127, b"\x05", b"\x01\x05"),  # of the bank that was shown
        (126, b"\x00", b"\x01\x05"),
        (127, b"\x2b", b"\x00\x2b"),
        (127, b"\x2d", b"\x00\x00"),  # the image has no such page
    ):
        assert module.store(0xA0, address, data)
        assert module.fetch(0xA0, 126, 2) == shown
    for again in (copy.copy(module), module.copy(), pickle.loads(pickle.dumps(module))):
        assert again.store(0xA0, 126, b"\x01\x27")
        assert again.fetch(0xA0, 126, 2) == b"\x01\x27"
        assert again.fetch(0xA0, 128, 128) == others[page(0x27, bank=1)]


def window(image: Image) -> Callable[[Operation], Reply]:
    """A bus over memory that never changes, but for the page that is selected."""
    selected = bytearray(2)

    def transact(operation: Operation) -> Reply:
        if operation.data is not None:
            assert operation.offset + operation.count <= 128
            selected[operation.offset - 126 :] = operation.data
            return True
        is_upper = operation.offset >= 128
        key = page(selected[1]) if is_upper else Key(operation.device)
        half = bytearray(image.halves[key])
        if key == LOWER:
            half[126:] = selected
        return bytes(half[operation.offset % 128 :][: operation.count])

    return transact


@pytest.mark.parametrize(
    "name, flat, halves",
    [
        ("sfp_10g_lr.txt", False, [LOWER, Key(0xA2)]),
        ("qsfp28_100g_sr4.txt", False, [LOWER, page(0x00), page(0x03)]),
        ("qsfp_dd_400g_dr4.txt", True, [LOWER, page(0x00)]),
    ],
)
def test_a_reading_of_a_module_with_fewer_halves(name: str, flat: bool, halves: List[Key]) -> None:
    image = example(name)
    if flat:
        image = image.changed(LOWER, 2, b"\x80")
    reading = Reading(64)
    reading.run(window(image), lambda _: None)
    assert list(reading.image.halves) == halves
    for key in halves:
        assert reading.image.halves[key][:126] == image.halves[key][:126]


CMIS, QSFP28, SFP = "qsfp_dd_400g_dr4.txt", "qsfp28_100g_sr4.txt", "sfp_10g_lr.txt"


@pytest.mark.parametrize(
    "name, requested, pages, operations",
    [
        (CMIS, Request(0), [], 1),
        (CMIS, Request.CMIS_PAGE_00, [0x00], 4),
        (CMIS, Request.CMIS_PAGE_01, [0x01], 4),
        (CMIS, Request.CMIS_PAGE_02, [0x02], 4),
        (CMIS, Request.CMIS_PAGE_11, [0x11], 4),
        (CMIS, Request.CMIS_PAGE_11 | Request.CMIS_PAGE_00, [0x00, 0x11], 7),
        (CMIS, Request.SFF8636_PAGE_00 | Request.SFF8472_DIAGNOSTICS, [], 1),
        (CMIS, Request.EVERYTHING, [0x00, 0x01, 0x02, 0x11], 13),
        (QSFP28, Request.SFF8636_PAGE_00, [0x00], 4),
        (QSFP28, Request.SFF8636_PAGE_03, [0x03], 4),
        (QSFP28, ~Request.SFF8636_PAGE_03, [0x00], 4),
        (QSFP28, ~(Request.SFF8636_PAGE_00 | Request.SFF8636_PAGE_03), [], 1),
        (SFP, Request.SFF8472_DIAGNOSTICS, [0xA2], 2),
        (SFP, ~Request.SFF8472_DIAGNOSTICS, [], 1),
    ],
)
def test_a_reading_reads_what_is_requested_alone(
    name: str, requested: Request, pages: List[int], operations: int
) -> None:
    image, reading = example(name), Reading(requested=requested)
    reading.run(window(image), lambda _: None)
    halves = [Key(0xA2) if number == 0xA2 else page(number) for number in pages]
    assert list(reading.image.halves) == [LOWER, *halves]
    for key in halves:
        assert reading.image.halves[key] == image.halves[key]
    assert repr(reading) == f"<Reading after {operations} operations>"


def test_flags_need_one_page_of_a_reading() -> None:
    reading = Reading(32, Patience(20, 2000), Request.CMIS_PAGE_11)
    reading.run(SimulatedModule(DR4).transact, lambda _: None)
    assert reading.image.flags().lanes == 8
    assert fault_of(reading.image.inventory) == "RP6 upper A0 00 00"


def test_a_module_wakes_up_and_goes_to_sleep_whatever_is_refused() -> None:
    chance = random.Random(11)
    module = SimulatedModule(DR4, Delays(1, 2, 3, 4, 5, 6, 7))
    module.hold_low_power_pin(True)
    assert module.store(0xA0, 26, b"\xf0")
    for procedure, state, controls in (
        (Waking(), ModuleState.ModuleReady, b"\xa0"),
        (Sleeping(), ModuleState.ModuleLowPwr, b"\xb0"),
        (Waking(), ModuleState.ModuleReady, b"\xa0"),
    ):
        procedure.run(
            lambda operation: chance.random() < 0.8 and module.transact(operation),
            lambda _: module.tick(),
        )
        assert procedure.steps is not None and procedure.steps >= 3
        assert (module.state, module.fetch(0xA0, 26, 1)) == (state, controls)


def test_the_low_power_pin_is_held_and_left() -> None:
    module = SimulatedModule(DR4, Delays(power_up=3, power_down=5))
    assert module.store(0xA0, 26, b"\x40")
    module.hold_low_power_pin(True)
    states = []
    for pin in (True, False, True):
        module.hold_low_power_pin(pin)
        module.tick(100)
        states.append(module.state)
    low, ready = ModuleState.ModuleLowPwr, ModuleState.ModuleReady
    assert states == [low, ready, low]
    slow, fast = module.copy(), module.copy()
    for each in (slow, fast):
        each.hold_low_power_pin(False)
    for _ in range(2):
        slow.tick()
    fast.tick(2)
    assert fast.__getstate__() == slow.__getstate__() != module.__getstate__()
    fast.tick(0)
    assert fast.__getstate__() == slow.__getstate__()


def test_a_silent_bus_ends_in_a_fault() -> None:
    best = plan(DR4, WEIGHTS)
    changes = (Provisioning(best), Activation(best), Waking(), Sleeping())
    for procedure, pause in (
        *((change, 0.1) for change in changes),
        (Reading(8, Patience(20)), 0.02),
        (Waking(Patience(0, 0)), 0),  # no pause ever lasts longer than the limit
    ):
        pauses: List[float] = []
        assert fault_of(procedure.run, lambda _: False, pauses.append) == "PV4"
        assert fault_of(next, procedure) == "PV4"
        assert pauses == [pause] * 4096 and "after 4096 operations>" in repr(procedure)
    assert [change.steps for change in changes] == [None] * 4


@pytest.mark.parametrize(
    "offset, data, fault",
    [
        (202, b"\x21\x11\x11\x11", "PV1 2 2"),
        (145, bytes.fromhex("20 20 24 00 28 28 2c 2c"), "PV2 4"),
        (206, bytes.fromhex("00 20 24 24 28 28 2c 2c"), "PV3 1"),
        (3, b"\x02", "PV6 1"),
        (3, b"\x0e", "PV7 7"),
    ],
)
def test_a_fault_has_its_name_and_values(offset: int, data: bytes, fault: str) -> None:
    module, provisioning = SimulatedModule(DR4), Provisioning(plan(DR4, WEIGHTS))

    def transact(operation: Operation) -> Reply:
        reply = module.transact(operation)
        return reply if operation.is_store or operation.offset != offset else data

    for _ in range(2):
        assert fault_of(provisioning.run, transact, lambda _: None) == fault
    assert provisioning.steps is None


def test_patience_has_an_end() -> None:
    best = plan(DR4, WEIGHTS)
    short = Patience(10, 35)
    for procedure, wanted in (
        (Provisioning(best, short), [0.01] * 4),
        (Activation(best, short), [0.01] * 4),
        (Waking(short), [0.01] * 4),
        (Sleeping(Patience(10, 30)), [0.01] * 4),
        (Waking(Patience(10, 29)), [0.01] * 3),
        (Reading(8, short), [0.01] * 4),
        (Reading(), [0.02] * 101),
        (Waking(Patience(5, 0)), [0.005]),
        (Waking(Patience(2**32 - 1, 2**32 - 2)), [4294967.295]),
    ):
        pauses: List[float] = []
        with pytest.raises(TimeoutError) as told:
            procedure.run(lambda _: False, pauses.append)
        assert pauses == wanted
        assert str(told.value) == library.text("fault", 8)
        pytest.raises(TimeoutError, next, procedure)
        pytest.raises(ValueError, procedure.waited)
        assert getattr(procedure, "steps", None) is None
    reading = Reading(8, short)
    pytest.raises(TimeoutError, reading.run, lambda _: False, lambda _: None)
    pytest.raises(ValueError, lambda: reading.image)


def test_patience_begins_anew_where_something_comes_of_an_operation() -> None:
    replies = iter([*[False] * 4, *[b"\x06", True], *[False] * 5])
    waking, pauses = Waking(Patience(10, 35)), list[float]()
    pytest.raises(TimeoutError, waking.run, lambda _: next(replies), pauses.append)
    assert pauses == [0.01] * 8


def test_a_module_s_patience_outlasts_its_states() -> None:
    assert DR4.patience() == Patience(100, 10000, False)
    for code, patience in (
        (0x06, Patience(100, 10000)),
        (0x07, Patience(100, 15000)),
        (0x80, Patience(100, 30000)),
        (0x9A, Patience(225, 900000)),
        (0xC0, Patience(2250, 9000000)),
        (0x0F, Patience(2250, 9000000)),
    ):
        image = DR4.changed(page(0x01), 144, bytes([code]))
        total = sum(image.halves[page(0x01)][2:127]) % 256
        image = image.changed(page(0x01), 255, bytes([total]))
        assert image.patience() == patience
    assert fault_of(DR4.without(page(0x01)).patience) == "AD4 upper A0 00 01"


@pytest.mark.parametrize("cut", [0, 1, 8])
def test_a_run_that_was_interrupted_goes_on(cut: int) -> None:
    best, refused = plan(DR4, WEIGHTS), (2, 3, 9, 14)
    modules = [SimulatedModule(DR4, Delays(init=9)) for _ in range(2)]
    for procedure, other in (
        (Reading(), Reading()),
        (Provisioning(best), Provisioning(best)),
        (Activation(best), Activation(best)),
    ):
        bus, refusing = (RefusingBus(module, refused, cut) for module in modules)
        pauses: List[float] = []

        def transact(operation: Operation) -> Reply:
            """Interrupts what is refused."""
            reply = bus(operation)
            if len(bus.operations) in refused:
                raise KeyboardInterrupt
            return reply

        def pause(seconds: float) -> None:
            """Interrupts each first call."""
            pauses.append(seconds)
            if len(pauses) % 2:
                raise KeyboardInterrupt
            bus.module.tick()

        while True:
            try:
                procedure.run(transact, pause)
                break
            except KeyboardInterrupt:
                continue
        other.run(refusing, lambda _: refusing.module.tick())
        assert bus.operations == refusing.operations and repr(procedure) == repr(other)
        assert pauses[::2] == pauses[1::2] and len(pauses) > 0
    assert modules[0].__getstate__() == modules[1].__getstate__()
    assert modules[0].active == best.control


def test_a_store_that_may_have_been_made_is_not_repeated_at_once() -> None:
    module, provisioning = SimulatedModule(DR4), Provisioning(plan(DR4, WEIGHTS))
    made: List[Operation] = []

    def transact(operation: Operation) -> Reply:
        made.append(operation)
        return module.transact(operation)

    def interrupted(operation: Operation) -> Reply:
        reply = transact(operation)
        if operation.is_store and operation.offset >= 128:
            raise KeyboardInterrupt
        return reply

    pytest.raises(KeyboardInterrupt, provisioning.run, interrupted)
    store = made.pop()
    assert isinstance(next(provisioning), Wait)
    made.clear()
    provisioning.run(transact, lambda _: module.tick())
    assert made.index(Operation(0xA0, 126, 2, b"\x00\x10")) < made.index(store)


def test_a_wrong_reply_to_a_run_counts_as_refused() -> None:
    for wrong, error in ((b"", ValueError), (True, ValueError), (None, TypeError)):
        provisioning = Provisioning(plan(DR4, WEIGHTS))
        pytest.raises(error, provisioning.run, lambda _: wrong)
        assert next(provisioning) == Wait(100) and "after 1 operations>" in repr(provisioning)


def test_a_copy_of_a_reading_has_what_was_read() -> None:
    module, reading = SimulatedModule(DR4), Reading(32)
    for _ in range(6):
        step = next(reading)
        assert isinstance(step, Operation)
        reading.reply(module.transact(step))
    left = copy.copy(reading)
    for one in (reading, left):
        one.run(module.copy().transact, lambda _: None)
    assert left.image == reading.image and repr(left) == repr(reading)
    assert left.image.halves[page(0x00)] == DR4.halves[page(0x00)]


def test_run_sleeps_as_long_as_the_library_says() -> None:
    took = list[float]()
    for _ in range(3):  # one may take longer on a busy machine
        reading, begun = Reading(8, Patience(30, 59)), time.monotonic()
        pytest.raises(TimeoutError, reading.run, lambda _: False)
        took.append(time.monotonic() - begun)
    assert 0.06 <= min(took) < 10


def test_the_selection_is_doubted_after_a_refusal() -> None:
    best = plan(DR4, WEIGHTS)
    replies: List[Reply] = [b"\x06", True, b"\x00\x10", False]
    for trusts, offset in ((True, 128), (False, 126)):
        procedure = Provisioning(best, Patience(1, trusts=trusts))
        for reply in replies:
            next(procedure)
            procedure.reply(reply)
        assert next(procedure) == Wait(1)
        procedure.waited()
        if not trusts:
            assert next(procedure) == Operation(0xA0, 3, 1, None)
            procedure.reply(b"\x06")
        after = next(procedure)
        assert isinstance(after, Operation) and after.offset == offset


def test_a_module_that_leaves_module_ready_while_a_procedure_waits_is_told_of() -> None:
    best = plan(DR4, WEIGHTS)
    confirmed: List[Reply] = [b"\x06", True, b"\x00\x10", False]
    active: List[Reply] = [b"\x06", True, b"\x00\x11", False]
    for code, state, number in (
        (1, ModuleState.ModuleLowPwr, 9),
        (2, ModuleState.ModulePwrUp, 9),
        (4, ModuleState.ModulePwrDn, 9),
        (5, ModuleState.ModuleFault, 10),
    ):
        for procedure, replies in (
            (Provisioning(best, Patience(1)), confirmed),
            (Activation(best, Patience(1)), active),
        ):
            told = iter([*replies, bytes([code << 1])])
            with pytest.raises(LeftModuleReady) as left:
                procedure.run(lambda _: next(told), lambda _: None)
            assert left.value.state is state
            assert str(left.value) == library.text("fault", number)
            again = pickle.loads(pickle.dumps(left.value))
            assert (type(again), again.state, str(again)) == (
                LeftModuleReady,
                state,
                str(left.value),
            )
            pytest.raises(LeftModuleReady, next, procedure)
            assert procedure.steps is None
    for code in (0, 6, 7):
        told = iter([*confirmed, bytes([code << 1])])
        provisioning = Provisioning(best, Patience(1))
        assert (
            fault_of(lambda: provisioning.run(lambda _: next(told), lambda _: None))
            == f"PV7 {code}"
        )


def test_each_reply_is_looked_at_and_an_operation_without_one_is_given_again() -> None:
    provisioning = Provisioning(plan(DR4, WEIGHTS))
    first = next(provisioning)
    assert first == Operation(0xA0, 3, 1, None) == next(provisioning)
    assert isinstance(first, Operation)
    pytest.raises(ValueError, provisioning.waited)
    assert (first.address, first.is_store) == (0x50, False)
    for wrong in (True, b"", b"12"):
        pytest.raises(ValueError, provisioning.reply, wrong)
    pytest.raises(TypeError, provisioning.reply, 1)
    pytest.raises(TypeError, provisioning.reply, None)
    provisioning.reply(False)
    assert next(provisioning) == Wait(100) == next(provisioning) and Wait(100).seconds == 0.1
    pytest.raises(ValueError, provisioning.reply, False)
    provisioning.waited()
    assert next(provisioning) == first
    provisioning.reply(bytearray(b"\x06"))
    assert next(provisioning) == Operation(0xA0, 126, 2, b"\x00\x10")
    pytest.raises(ValueError, provisioning.reply, b"12")
    module, provisioning = SimulatedModule(DR4), Provisioning(plan(DR4, WEIGHTS))
    provisioning.run(module.transact, lambda _: module.tick())
    with pytest.raises(ValueError, match="^it has ended, and no operation is to be made$"):
        provisioning.reply(True)
    pytest.raises(ValueError, provisioning.waited)


def test_time_passes_while_a_bus_refuses() -> None:
    module = SimulatedModule(DR4)
    module.store(0xA0, 26, b"\x10")  # LowPwrRequestSW
    bus = RefusingBus(module, range(1, 11))
    assert [bus(Operation(0xA0, 3, 1, None)) for _ in range(10)] == [False] * 10
    assert module.state is ModuleState.ModuleLowPwr
    module.store(0xA0, 26, b"\x00")
    replies = [module.transact(Operation(0xA2, 0, 1, None)) for _ in range(10)]
    assert (replies, module.state) == ([False] * 10, ModuleState.ModuleReady)


def test_pauses_are_as_long_as_was_said() -> None:
    module, best = SimulatedModule(DR4, Delays(1, 900, 900, 1, 1, 1, 1)), plan(DR4, WEIGHTS)
    pauses: List[float] = []

    def pause(seconds: float) -> None:
        assert seconds == 0.1
        module.tick(100)
        pauses.append(seconds)

    Provisioning(best).run(module.transact, lambda _: module.tick())
    activation = Activation(best)
    activation.run(module.transact, pause)
    assert activation.steps is not None and 15 < len(pauses) < activation.steps < 60


@pytest.mark.parametrize("name", ["bench.py", "linear_file.py"])
def test_an_example_prints_what_it_should(name: str) -> None:
    path = os.pathsep.join([str(ROOT / "python"), os.environ.get("PYTHONPATH", "")])
    run = subprocess.run(
        [sys.executable, "-W", "error", str(ROOT / "examples" / name)],
        capture_output=True,
        text=True,
        check=False,
        env={**os.environ, "PYTHONPATH": path},
    )
    wanted = pathlib.Path(__file__).with_name("examples").joinpath(name).with_suffix(".txt")
    assert (run.stdout, run.stderr, run.returncode) == (wanted.read_text(), "", 0)


def test_the_page_s_code_runs(
    monkeypatch: pytest.MonkeyPatch,
    capsys: pytest.CaptureFixture[str],
    simulated_module: Callable[..., SimulatedModule],
    refusing_bus: Type[RefusingBus],
) -> None:
    monkeypatch.chdir(ROOT)
    blocks = re.findall(
        r"^```python\n(.*?)^```$", (ROOT / "docs/python.md").read_text(), re.MULTILINE | re.DOTALL
    )
    names: Dict[str, Any] = {}
    exec(compile("\n".join(blocks), "docs/python.md", "exec"), names)
    names["test_my_driver"](simulated_module, refusing_bus)
    assert capsys.readouterr().out.splitlines() == [
        "1: host 11h on 8 lanes",
        "2: host 0Dh on 2 lanes",
        "404 DataPath(application=2, host=1, media=1) 20 20 24 24 28 28 2c 2c",
        "17 operations",
        "13 operations",
        "20 20 24 24 28 28 2c 2c DPActivated",
        "EXAMPLE QDD-400G-DR4 MPO 1x12 12000 mW",
        "1310 nm EML",
        "912000 nW in lane 1",
        "temperature 35.0 C",
        "ModuleReady ()",
        f"{example('qsfp_dd_400g_dr4.txt').durations().path_init} ms for DPInit at most",
        f"KP3 (2,) {sentence_of('KP3')}",
    ]


def test_an_interruption_after_a_reply_counts_no_operation(monkeypatch: pytest.MonkeyPatch) -> None:
    module, procedure = SimulatedModule(DR4), Reading()
    tell = Reading.reply

    def interrupted(self: Reading, reply: Reply) -> None:
        tell(self, reply)
        raise KeyboardInterrupt

    with monkeypatch.context() as patched:
        patched.setattr(Reading, "reply", interrupted)
        with pytest.raises(KeyboardInterrupt):
            procedure.run(module.transact)
    assert repr(procedure) == "<Reading after 1 operations>"
