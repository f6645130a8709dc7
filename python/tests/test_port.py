"""The manager of a port over simulated modules."""
from __future__ import annotations

import asyncio
import copy
import dataclasses
import json
import time
from typing import Any, Callable, Dict, List, Optional, Type

import pytest

from shared import example
from dovecounter import (
    LOWER,
    ConfigStatus,
    FurtherLanes,
    Idle,
    Image,
    Key,
    ModuleState,
    Operation,
    PathState,
    Port,
    PortFlag,
    PortLane,
    PortOutcome,
    Reply,
    PortRequest,
    Presence,
    SimulatedModule,
    Stage,
    Times,
    Until,
    Wanted,
    page,
)
from dovecounter.port import Failure, Kind, Note

DR4 = example("qsfp_dd_400g_dr4.txt")
WANTED = Wanted({0x11: 400, 0x0D: 1})


class Machine:
    """A port, its module, and a clock."""

    def __init__(self, module: SimulatedModule) -> None:
        self.port, self.module, self.now, self.made = Port(Times(20, 100, 50, 400)), module, 0, 0
        self.stores = 0
        self.places: set[Key] = set()
        self.wanted = WANTED

    def drive(
        self, until: Callable[[PortOutcome], bool], refuse_each: int = 0
    ) -> Optional[PortOutcome]:
        for _ in range(5000):
            step = self.port.next(self.now)
            if isinstance(step, Until):
                self.module.tick(min(100, step.moment - self.now))
                self.now = step.moment
                continue
            if isinstance(step, Idle):
                return None
            assert isinstance(step, Operation)
            self.made += 1
            self.stores += step.is_store and step.offset not in (126, 127)
            if self.port.place is not None:
                self.places.add(self.port.place)
            refused = refuse_each and self.made % refuse_each == 0
            outcome = self.port.take(False if refused else self.reply(step), self.wanted, self.now)
            self.now += 1
            if until(outcome):
                return outcome
        raise AssertionError("it goes on for ever")

    def reply(self, operation: Operation) -> Reply:
        return self.module.transact(operation)

    def comes_up(self, refuse_each: int = 0) -> None:
        assert self.drive(lambda outcome: outcome.note is Note.CAME_UP, refuse_each) is not None


# not each third: a page is selected, read back and fetched from, so that would never be done
@pytest.mark.parametrize("refuse_each", [0, 4, 7])
def test_a_module_comes_up(refuse_each: int) -> None:
    machine = Machine(SimulatedModule(DR4))
    assert machine.port.next(0) is Idle.NOTHING
    machine.port.plug(0)
    assert machine.port.next(0) == Until(20)
    machine.comes_up(refuse_each)
    assert machine.port.stage is Stage.WATCHING
    assert PathState.DPActivated in machine.module.path_states
    goal = machine.port.goal
    assert goal is not None and goal[0] == machine.module.active
    assert {Key(0xA0), page(0x00), page(0x01), page(0x11)} <= machine.places


def test_a_restart_stores_nothing() -> None:
    machine = Machine(SimulatedModule(DR4))
    machine.port.plug(0)
    machine.comes_up()
    machine.port, machine.stores = Port(Times(20, 100, 50, 400)), 0
    machine.port.plug(machine.now)
    machine.comes_up()
    assert machine.drive(lambda outcome: outcome.note is Note.STILL_UP) is not None
    assert machine.stores == 0


def test_a_pull_leaves_nothing_and_a_held_port_asks_for_nothing() -> None:
    machine = Machine(SimulatedModule(DR4))
    machine.port.plug(0)
    machine.now = 20
    assert isinstance(machine.port.next(20), Operation)
    assert machine.port.next(20) is Idle.NO_REPLY
    machine.port.pull()
    assert machine.port.take(False, WANTED, 20).kind is Kind.DROPPED
    machine.port.hold(True)
    machine.port.plug(20)
    assert machine.port.held and machine.port.next(1000) is Idle.NOTHING
    machine.port.hold(False)
    machine.comes_up()


def test_what_it_says_is_json() -> None:
    machine = Machine(SimulatedModule(DR4))
    machine.port.plug(0)
    machine.comes_up()
    machine.module = SimulatedModule(DR4)
    failed = machine.drive(lambda outcome: outcome.kind is Kind.FAILED)
    assert failed is not None and failed.failure is Failure.CHANGED
    assert failed.to_dict()["failure"] == "CHANGED"
    said = machine.port.to_dict()
    assert json.loads(json.dumps(said)) == said
    assert said["lanes"] == [lane.to_dict() for lane in machine.port.lanes]
    assert said["lanes"][0]["state"] == "DPDeactivated" and said["stage"] == "READING"
    for flag in machine.port.flags:
        assert flag.count > 0
    machine.port.acknowledge(machine.now)
    assert machine.port.flags == ()


def test_what_it_says_is_how_it_is() -> None:
    machine = Machine(SimulatedModule(DR4))
    assert repr(machine.port) == "<Port ABSENT>" and machine.port.goal is None
    machine.port.plug(7)
    assert machine.port.due == machine.port.to_dict()["due"] == 27
    assert repr(machine.port) == "<Port READING>" and machine.port.goal is None
    machine.comes_up()
    assert machine.port.goal == (machine.module.active, 0xFF)
    told = {"control": machine.module.active.hex(), "lanes": 0xFF}
    assert machine.port.to_dict()["goal"] == told
    other = copy.copy(machine.port)
    other.hold(True)
    assert (other.held, other.to_dict()["held"]) == (True, True)
    assert (machine.port.held, machine.port.to_dict()["held"]) == (False, False)
    machine.port.request(PortRequest.DEACTIVATE, 0x0F)
    assert machine.port.to_dict()["requested"] == ["DEACTIVATE", 0x0F]


class Flagged(Machine):
    """One that raises flags of the module and of a lane whenever they are read."""

    def reply(self, operation: Operation) -> Reply:
        reply = super().reply(operation)
        if self.port.place == Key(0xA0) and isinstance(reply, bytes):
            return reply[:9] + b"\x20" + reply[10:]
        if self.port.place == page(0x11) and isinstance(reply, bytes):
            return reply[: 136 - 128] + b"\x08" + reply[137 - 128 :]
        return reply


def test_a_flag_has_its_place_and_moment() -> None:
    machine = Flagged(SimulatedModule(DR4))
    machine.port.plug(0)
    machine.drive(lambda _: machine.port.place == page(0x11))
    now = machine.now - 1
    lower, lane = machine.port.flags
    assert (lower.key, lower.address, lower.bit, lower.count) == ("lower", 9, 5, 1)
    assert lane == PortFlag("page 11h", 136, 3, 1, now)
    assert 0 < lower.last < now
    assert machine.port.to_dict()["flags"] == [lower.to_dict(), lane.to_dict()]
    machine.port.acknowledge(lower.last)
    assert machine.port.flags == (lane,)


STATES, FLAGS, STATUSES = 128 - 128, 134 - 128, 202 - 128  # where page 11h has them


def lanes_page(**parts: bytes) -> bytes:
    """Page 11h with these bytes."""
    data = bytearray(128)
    for name, part in parts.items():
        at = {"states": STATES, "flags": FLAGS, "statuses": STATUSES}[name]
        data[at : at + len(part)] = part
    return bytes(data)


def test_lanes_of_a_further_bank_are_counted() -> None:
    further = FurtherLanes(2)
    assert (further.bank, further.flags, repr(further)) == (2, (), "<FurtherLanes of bank 2>")
    assert [lane.lane for lane in further.lanes] == list(range(17, 25))
    assert all(lane.state is None and lane.state_since is None for lane in further.lanes)
    further.count(lanes_page(states=b"\x14", flags=b"\0\0\x08", statuses=b"\0\0\0\x10"), 7)
    further.count(lanes_page(states=b"\x14", flags=b"\0\0\x88", statuses=b"\0\0\0\x10"), 9)
    key = "page 11h of bank 2"
    assert further.flags == (PortFlag(key, 136, 3, 2, 9), PortFlag(key, 136, 7, 1, 9))
    first, second, last = further.lanes[0], further.lanes[1], further.lanes[7]
    assert (first.state, first.state_changes, first.state_since) == (PathState.DPActivated, 1, 7)
    assert (second.lane, second.state) == (18, PathState.DPDeactivated)
    assert (last.status, last.status_changes) == (ConfigStatus.ConfigSuccess, 1)
    said = further.to_dict()
    assert json.loads(json.dumps(said)) == said and said["bank"] == 2
    assert said["flags"] == [flag.to_dict() for flag in further.flags]
    assert said["lanes"] == [lane.to_dict() for lane in further.lanes]
    other = copy.copy(further)
    other.acknowledge(8)
    assert other.flags == further.flags
    other.acknowledge(9)
    assert other.flags == () and other.lanes == further.lanes and len(further.flags) == 2


def test_the_last_bank_has_lanes_25_to_32() -> None:
    further = FurtherLanes(3)
    further.count(lanes_page(statuses=b"\0\0\0\x10"), 7)
    assert [lane.lane for lane in further.lanes] == list(range(25, 33))
    assert [lane.status_since for lane in further.lanes] == [None] * 7 + [7]
    assert [lane.state_since for lane in further.lanes] == [None] * 8


def test_a_port_and_a_further_bank_count_alike() -> None:
    machine, further = Flagged(SimulatedModule(DR4)), FurtherLanes(1)
    machine.port.plug(0)
    machine.drive(lambda _: machine.port.place == page(0x11))
    at = machine.now - 1
    further.count(lanes_page(flags=b"\0\0\x08"), at)
    (flag,) = further.flags
    assert dataclasses.replace(flag, key="page 11h") == machine.port.flags[-1]


@pytest.mark.parametrize(
    "call, error",
    [
        (lambda: FurtherLanes(0), ValueError),
        (lambda: FurtherLanes(4), ValueError),
        (lambda: FurtherLanes(1).count(bytes(127), 0), ValueError),
        (lambda: FurtherLanes(1).count(bytes(128), -1), ValueError),
        (lambda: FurtherLanes(1).count("page", 0), TypeError),  # type: ignore[arg-type]
        (lambda: FurtherLanes(1).acknowledge(2**64), ValueError),
    ],
)
def test_what_is_no_page_of_a_further_bank(call: Callable[[], Any], error: Type[Exception]) -> None:
    with pytest.raises(error):
        call()


class Rejecting(Machine):
    """One that rejects each configuration, or tells for ever that one is in progress."""

    status = b"\x22" * 4

    def reply(self, operation: Operation) -> Reply:
        reply = super().reply(operation)
        is_of_statuses = operation.offset == 202 and not operation.is_store
        return self.status if is_of_statuses and reply is not False else reply


@pytest.mark.parametrize("status, fault", [(0x22, "PV1"), (0xCC, "overdue")])
def test_a_failure_has_its_fault_and_moment(status: int, fault: str) -> None:
    machine = Rejecting(SimulatedModule(DR4))
    machine.status = bytes([status] * 4)
    machine.port.plug(0)
    failed = machine.drive(lambda outcome: outcome.kind is Kind.FAILED)
    assert failed is not None and failed.failure is Failure.NOT_PROVISIONED
    assert (failed.fault, failed.note, failed.left) == (fault, None, None)
    assert failed.moment == machine.port.due == machine.now - 1 + 50
    assert failed.to_dict()["moment"] == failed.moment


def test_a_pause_has_its_moment() -> None:
    port = Port(Times(20, 100, 50, 400))
    port.plug(0)
    assert isinstance(port.next(20), Operation)
    paused = port.take(False, WANTED, 20)
    assert paused == PortOutcome(Kind.PAUSED, None, None, None, None, port.due)
    assert port.next(20) == Until(port.due) and port.due > 20


def test_a_port_has_a_goal_while_it_works_for_it() -> None:
    machine, goals = Machine(SimulatedModule(DR4)), dict[Stage, bool]()

    def is_still_up(outcome: PortOutcome) -> bool:
        goals[machine.port.stage] = machine.port.goal is not None
        return outcome.note is Note.STILL_UP

    machine.port.plug(0)
    assert machine.drive(is_still_up, 4) is not None
    working = (Stage.PROVISIONING, Stage.ACTIVATING, Stage.CONFIRMING, Stage.WATCHING)
    assert goals == {Stage.READING: False, **dict.fromkeys(working, True)}


class Placed(Machine):
    """One whose port says where each whole half lies, and nothing of other operations."""

    def reply(self, operation: Operation) -> Reply:
        assert (self.port.place is not None) == (operation.count == 128)
        return super().reply(operation)


def test_an_operation_on_less_than_a_half_has_no_place() -> None:
    machine = Placed(SimulatedModule(DR4))
    machine.port.plug(0)
    machine.comes_up()


class Still(Machine):
    """One whose memory never changes, but for the selection."""

    def __init__(self, image: Image) -> None:
        super().__init__(SimulatedModule(DR4))
        self.image, self.selected = image, bytearray(2)

    def reply(self, operation: Operation) -> Reply:
        if operation.data is not None:
            self.selected[operation.offset - 126 :] = operation.data
            if page(self.selected[1]) not in self.image.halves:
                self.selected[:] = bytes(2)
            return True
        key = page(self.selected[1]) if operation.offset >= 128 else LOWER
        half = bytearray(self.image.halves[key])
        if operation.offset < 128:
            half[126:] = self.selected
        return bytes(half[operation.offset % 128 :][: operation.count])


@pytest.mark.parametrize(
    "changes, most_power, why",
    [
        ({}, 255, "AD4"),
        ({2: 0x80}, 255, "AD3"),
        ({0: 0x11}, 255, "AD1"),
        ({3: 0x02, 26: 0x10}, 47, "needs power"),
    ],
)
def test_each_reason_has_its_name(changes: Dict[int, int], most_power: int, why: str) -> None:
    image = DR4 if changes else DR4.without(page(0x11))
    for address, byte in changes.items():
        image = image.changed(LOWER, address, bytes([byte]))
    machine = Still(image)
    machine.wanted = dataclasses.replace(WANTED, most_power=most_power)
    machine.port.plug(0)
    left = machine.drive(lambda outcome: outcome.kind is Kind.LEAVES)
    assert left is not None and left.left == machine.port.left == why


def with_pairs() -> Image:
    """A module that can't have both Applications at once if it pairs first lanes."""
    image = DR4.changed(LOWER, 86, bytes.fromhex("111c44100d144411"))
    image = image.changed(page(0x01), 176, b"\x01\x11").changed(page(0x00), 210, b"\0")
    for number, first, place in ((0x00, 128, 222), (0x01, 130, 255)):
        half = image.halves[page(number)]
        total = sum(half[first - 128 : place - 128]) % 256
        image = image.changed(page(number), place, bytes([total]))
    return image


PAIRS = with_pairs()


@pytest.mark.parametrize(
    "members, control",
    [
        ({"weights": {0x11: 405, 0x0D: 101}}, "10 10 10 10 10 10 10 10"),
        ({"weights": {0x11: 405, 0x0D: 101}, "stay": 1}, "20 20 24 24 28 28 2c 2c"),
        ({"paired": True}, "00 00 00 00 18 18 18 18"),
        ({"paired": False}, "20 20 20 20 18 18 18 18"),
        ({"counts_by_id": True}, "10 10 10 10 10 10 10 10"),
    ],
)
def test_what_is_wanted_is_planned(members: Dict[str, Any], control: str) -> None:
    image = DR4.changed(page(0x11), 206, bytes.fromhex("20 20 24 24 00 00 00 00"))
    if "counts_by_id" in members:
        image = image.changed(LOWER, 88, b"\0").changed(LOWER, 92, b"\0")
    if "paired" in members:
        image = PAIRS
    machine = Machine(SimulatedModule(image))
    machine.wanted = dataclasses.replace(WANTED, **members, may_take_down=0xFF)
    machine.port.plug(0)
    machine.comes_up()
    assert machine.module.active.hex(" ") == control


def test_lanes_are_known_since_they_changed() -> None:
    machine = Machine(SimulatedModule(DR4))
    assert machine.port.lanes[7] == PortLane(
        8, None, 0, None, ConfigStatus.ConfigUndefined, 0, None
    )
    machine.port.plug(0)
    machine.comes_up()
    for lane in machine.port.lanes:
        assert lane.state == PathState.DPActivated and lane.status == ConfigStatus.ConfigSuccess
        assert lane.state_changes > 0 and lane.status_changes > 0
        assert lane.state_since is not None and lane.status_since is not None
        assert lane.status_since < lane.state_since <= machine.now
    before = machine.port.lanes
    machine.module = SimulatedModule(DR4)
    assert machine.drive(lambda outcome: outcome.kind is Kind.FAILED) is not None
    first = machine.port.lanes[0]
    assert first.state == PathState.DPDeactivated
    assert first.state_changes == before[0].state_changes + 1
    assert first.state_since is not None and first.state_since > (before[0].state_since or 0)


def test_each_lane_has_its_own_changes() -> None:
    machine = Machine(SimulatedModule(DR4))
    machine.wanted = Wanted({0x0D: 1})
    machine.port.plug(0)
    machine.comes_up()
    before = machine.port.lanes
    machine.port.request(PortRequest.DEACTIVATE, 0x0F)
    machine.comes_up()
    for lane, old in zip(machine.port.lanes, before):
        is_down = lane.lane <= 4
        assert (lane.state == PathState.DPDeactivated) == is_down
        assert (lane.state_changes > old.state_changes) == is_down
        assert (lane.state_since != old.state_since) == is_down


class EachItsOwn(Machine):
    """One whose lanes show the statuses 0 to 7 when page 11h is read as a whole."""

    def reply(self, operation: Operation) -> Reply:
        reply = super().reply(operation)
        if self.port.place != page(0x11):
            return reply
        assert isinstance(reply, bytes)
        return reply[: 202 - 128] + bytes.fromhex("10325476") + reply[206 - 128 :]


def test_each_lane_has_its_own_status() -> None:
    machine = EachItsOwn(SimulatedModule(DR4))
    machine.port.plug(0)
    machine.drive(lambda _: machine.port.place == page(0x11))
    for lane in machine.port.lanes:
        assert lane.status == ConfigStatus(lane.lane - 1)
        assert lane.status_changes == (0 if lane.lane == 1 else 1)
        assert lane.status_since == (None if lane.lane == 1 else machine.now - 1)


def test_wrong_replies_and_numbers_are_refused() -> None:
    port = Port()
    with pytest.raises(ValueError):
        port.take(False, WANTED, 0)
    port.plug(0)
    assert isinstance(port.next(2000), Operation)
    with pytest.raises(ValueError):
        port.take(b"", WANTED, 2000)
    with pytest.raises(ValueError):
        port.plug(-1)
    with pytest.raises(ValueError):
        Port(Times(settle=2**32))
    with pytest.raises(TypeError):
        port.take(None, WANTED, 0)  # type: ignore[arg-type]
    assert port.take(bytes(128), WANTED, 2000).kind in (Kind.WENT, Kind.LEAVES, Kind.PAUSED)


def test_what_is_said_to_a_port_is_not_cut() -> None:
    port, most = Port(), 2**64 - 1
    for call in (
        lambda: port.request(PortRequest.SLEEP, 256),
        lambda: port.request(PortRequest.SLEEP, -1),
        lambda: port.plug(most + 1),
        lambda: port.acknowledge(most + 1),
        lambda: port.hear(True, 0, most + 1),
        lambda: port.hear(True, most + 1, 0),
    ):
        pytest.raises(ValueError, call)
    for wrong in (
        lambda: port.hold(1),  # type: ignore[arg-type]
        lambda: port.hear(1, 0, 0),  # type: ignore[arg-type]
    ):
        pytest.raises(TypeError, wrong)
    assert (port.stage, port.held, port.requested) == (Stage.ABSENT, False, (PortRequest.WAKE, 0))


@pytest.mark.parametrize(
    "members, error, what",
    [
        ({"most_power": 256}, ValueError, "the most power"),
        ({"may_take_down": 256}, ValueError, "the lanes that may be taken down"),
        ({"may_take_down": -1}, ValueError, "the lanes that may be taken down"),
        ({"paired": 1}, TypeError, "first lanes are paired"),
        ({"counts_by_id": 256}, TypeError, "lanes are counted by ID"),
    ],
)
def test_what_is_wanted_is_not_cut(
    members: Dict[str, Any], error: Type[Exception], what: str
) -> None:
    with pytest.raises(error, match=what):
        Port().take(False, dataclasses.replace(WANTED, **members), 0)


def test_why_a_module_is_left_alone() -> None:
    machine = Machine(SimulatedModule(DR4))
    machine.port.plug(0)
    while machine.port.stage is not Stage.LEFT:
        step = machine.port.next(machine.now)
        if isinstance(step, Until):
            machine.now = step.moment
            continue
        assert isinstance(step, Operation)
        outcome = machine.port.take(machine.module.transact(step), Wanted({}), machine.now)
    assert machine.port.left == outcome.left == "no plan"


def test_a_module_that_was_left_alone_is_judged_anew_when_somebody_asks() -> None:
    machine = Machine(SimulatedModule(DR4))
    machine.port.plug(0)
    machine.wanted = Wanted({})
    assert machine.drive(lambda outcome: outcome.kind is Kind.LEAVES) is not None
    machine.wanted = WANTED
    assert machine.port.next(machine.now + 10**6) is Idle.NOTHING
    machine.port.reconsider()
    machine.comes_up()
    assert machine.port.left is None


class Served(Machine):
    """One whose bus and clock are coroutines."""

    async def disturb(self) -> None:
        """What comes before an operation."""
        await asyncio.sleep(0)

    async def transact(self, operation: Operation) -> Reply:
        await self.disturb()
        self.made += 1
        self.now += 1
        return self.module.transact(operation)

    async def pause(self, seconds: float) -> None:
        assert 0 < seconds <= 1
        await asyncio.sleep(0)
        self.module.tick(min(100, round(seconds * 1000)))
        self.now += round(seconds * 1000)

    async def notes(self, last: Note) -> List[Note]:
        """Those of its outcomes, up to this one; all, if it ends before."""
        found: List[Note] = []
        async for outcome in self.port.run_async(
            self.transact, WANTED, lambda: self.now, self.pause
        ):
            if outcome.note not in (None, Note.QUIET):
                assert outcome.note is not None
                found.append(outcome.note)
            if outcome.note is last:
                break
        return found


def test_ports_are_kept_side_by_side_by_coroutines() -> None:
    machines = [Served(SimulatedModule(DR4)) for _ in range(2)]
    for machine in machines:
        machine.port.plug(0)

    async def all_of_them() -> List[List[Note]]:
        return await asyncio.gather(*(machine.notes(Note.CAME_UP) for machine in machines))

    first, second = asyncio.run(all_of_them())
    assert first == second == [Note.IDENTIFIED, Note.PROVISIONED, Note.CAME_UP]
    for machine in machines:
        assert machine.port.goal is not None and machine.port.goal[0] == machine.module.active


class Slow(Served):
    """One whose pauses are kept."""

    def __init__(self) -> None:
        super().__init__(SimulatedModule(DR4))
        self.port, self.pauses = Port(Times(3500, 100, 50, 400)), list[float]()

    async def pause(self, seconds: float) -> None:
        self.pauses.append(seconds)
        await super().pause(seconds)


def test_a_long_pause_is_made_in_parts() -> None:
    machine = Slow()
    machine.port.plug(0)
    assert asyncio.run(machine.notes(Note.CAME_UP))[-1] is Note.CAME_UP
    assert machine.pauses[:4] == [1, 1, 1, 0.5]


def test_a_port_has_the_clock_of_the_system() -> None:
    module, took = SimulatedModule(DR4), list[float]()

    async def transact(operation: Operation) -> Reply:
        return module.transact(operation)

    async def first(port: Port) -> None:
        async for _ in port.run_async(transact, WANTED):
            return

    for _ in range(3):  # one may take longer on a busy machine
        port, begun = Port(Times(100, 100, 50, 400)), time.monotonic()
        port.plug(time.monotonic_ns() // 1_000_000)
        asyncio.run(first(port))
        took.append(time.monotonic() - begun)
    assert 0.09 <= min(took) < 10


def test_a_module_that_is_left_alone_is_read_anew() -> None:
    machine = Machine(SimulatedModule(DR4))
    for recheck, step in ((0, Idle.NOTHING), (1000, None)):
        machine.port = Port(Times(20, 100, 50, 400, recheck))
        assert machine.port.recheck_at is None
        machine.port.plug(machine.now)
        machine.wanted = Wanted({})
        assert (left := machine.drive(lambda outcome: outcome.kind is Kind.LEAVES)) is not None
        assert left.left == machine.port.left and machine.port.stage is Stage.LEFT
        moment = machine.now - 1 + recheck  # it was taken a millisecond ago
        assert machine.port.recheck_at == (moment if recheck else None)
        assert machine.port.next(machine.now) == (step or Until(moment))
        assert machine.port.to_dict()["recheck_at"] == machine.port.recheck_at
    assert machine.port.next(moment - 1) == Until(moment)
    assert isinstance(machine.port.next(moment), Operation) and machine.port.stage is Stage.READING
    assert machine.port.recheck_at is None


class Pulled(Served):
    async def disturb(self) -> None:
        if self.made == 5:
            self.port.pull()


def test_a_port_without_a_module_ends_by_itself() -> None:
    machine = Pulled(SimulatedModule(DR4))
    assert asyncio.run(machine.notes(Note.CAME_UP)) == []
    machine.port.plug(0)
    assert asyncio.run(machine.notes(Note.CAME_UP)) == []
    assert machine.made == 6 and machine.port.stage is Stage.ABSENT


class Stuck(Served):
    is_stuck = True

    async def disturb(self) -> None:
        if self.made == 5 and self.is_stuck:
            await asyncio.Event().wait()


def test_an_operation_of_a_cancelled_task_counts_as_refused() -> None:
    machine = Stuck(SimulatedModule(DR4))
    machine.port.plug(0)

    async def cancelled() -> None:
        task = asyncio.ensure_future(machine.notes(Note.CAME_UP))
        while machine.made < 5:
            await asyncio.sleep(0.01)
        await asyncio.sleep(0.1)
        task.cancel()
        with pytest.raises(asyncio.CancelledError):
            await task
        assert machine.made == 5
        machine.is_stuck = False
        assert (await machine.notes(Note.CAME_UP))[-1] is Note.CAME_UP

    asyncio.run(cancelled())
    assert machine.port.stage is Stage.WATCHING


class Wrong(Served):
    wrong: Any = None

    async def transact(self, operation: Operation) -> Reply:
        reply = await super().transact(operation)
        return self.wrong if self.made == 6 else reply


@pytest.mark.parametrize(
    "wrong, error", [(b"", ValueError), (bytes(7), ValueError), (None, TypeError)]
)
def test_a_wrong_reply_counts_as_refused(wrong: object, error: Type[Exception]) -> None:
    machine = Wrong(SimulatedModule(DR4))
    machine.wrong = wrong
    machine.port.plug(0)
    with pytest.raises(error):
        asyncio.run(machine.notes(Note.CAME_UP))
    assert machine.made == 6 and isinstance(machine.port.next(machine.now), Until)
    assert asyncio.run(machine.notes(Note.CAME_UP))[-1] is Note.CAME_UP


def test_what_is_wanted_is_looked_at_before_an_operation() -> None:
    machine = Served(SimulatedModule(DR4))
    machine.port.plug(0)

    async def run(wanted: Any) -> None:
        async for _ in machine.port.run_async(
            machine.transact, wanted, lambda: machine.now, machine.pause
        ):
            raise AssertionError("something was made")

    for wanted, error in (({0x11: 400}, TypeError), (Wanted({0x11: -1}), ValueError)):
        with pytest.raises(error):
            asyncio.run(run(wanted))
    assert machine.made == 0 and machine.port.next(machine.now + 20) is not Idle.NO_REPLY


def test_a_module_is_put_to_sleep_and_woken_up_again() -> None:
    machine = Machine(SimulatedModule(DR4))
    machine.port.plug(0)
    machine.comes_up()
    machine.port.request(PortRequest.SLEEP)
    left = machine.drive(lambda outcome: outcome.kind is Kind.LEAVES)
    assert left is not None and left.left == "needs permission"
    machine.port.request(PortRequest.SLEEP, 0xFF)
    assert machine.port.requested == (PortRequest.SLEEP, 0xFF)
    left = machine.drive(lambda outcome: outcome.kind is Kind.LEAVES)
    assert left is not None and left.left == machine.port.left == "asleep"
    assert machine.module.state == ModuleState.ModuleLowPwr
    machine.port.request(PortRequest.WAKE)
    machine.comes_up()
    assert machine.module.state == ModuleState.ModuleReady


def test_lanes_are_deactivated() -> None:
    machine = Machine(SimulatedModule(DR4))
    machine.port.plug(0)
    machine.comes_up()
    machine.port.request(PortRequest.DEACTIVATE, 0xFF)
    machine.comes_up()
    assert (
        machine.module.active == bytes(8)
        and PathState.DPActivated not in machine.module.path_states
    )
    machine.port.request(PortRequest.PROVISION)
    machine.comes_up()
    assert PathState.DPActivated in machine.module.path_states
    assert machine.port.requested == (PortRequest.WAKE, 0)


def test_a_module_is_there_while_it_answers() -> None:
    port = Port()
    assert port.hear(False, 0, 5000) is Presence.SAME and port.to_dict()["stage"] == "ABSENT"
    assert port.hear(True, 5000, 5001) is Presence.PLUGGED and port.to_dict()["stage"] == "READING"
    heard = [port.hear(False, now, now + 1) for now in (6000, 6500, 7000, 7002)]
    assert heard == [Presence.SAME, Presence.SAME, Presence.SAME, Presence.PULLED]
    assert port.stage is Stage.ABSENT
    assert port.hear(True, 8000, 8001) is Presence.PLUGGED
    spans = [(8002, 8900), (8900, 8910), (8910, 8920), (8995, 9010)]  # 1008 ms from the first begin
    assert [port.hear(False, *span) for span in spans][-1] is Presence.PULLED
    with pytest.raises(TypeError):
        port.request("sleep")  # type: ignore[arg-type]


def test_staying_may_weigh_as_much_as_a_weight() -> None:
    for stay, why in ((2**32 - 1, "no operation that is outstanding"), (2**32, "of staying")):
        with pytest.raises(ValueError, match=why):
            Port().take(False, Wanted({}, stay=stay), 0)


def test_the_greatest_numbers_are_taken() -> None:
    port = Port(Times(*[2**32 - 1] * 5))
    port.acknowledge(2**64 - 1)
    port.plug(2**64 - 1)
    port.request(PortRequest.PROVISION, 255)
    assert port.requested == (PortRequest.PROVISION, 255)
    wanted = Wanted({}, most_power=255, may_take_down=255)
    with pytest.raises(ValueError, match="no operation that is outstanding"):
        port.take(False, wanted, 2**64 - 1)
