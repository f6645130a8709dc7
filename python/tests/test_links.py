"""Tests of a link, on a module with pages 01h, 11h, 13h and 14h that answers at once. Its checkers hear
the generators of their lanes if the output of that side is looped back."""
from __future__ import annotations

import copy
from typing import Dict, List, Optional, Tuple

import pytest

from dovecounter import (
    LOWER,
    Amount,
    Image,
    LinkChange,
    LinkEnd,
    LinkFault,
    LinkOutcome,
    LinkTest,
    Loopback,
    Operation,
    Patience,
    Pattern,
    Reply,
    Shown,
    Side,
    page,
)
from dovecounter.capabilities import link_capabilities_of

ABILITIES = bytes([0x7F, 0xC0, 0x33, 0xFF, *[0xFF] * 8])


class Links:
    """A module whose error ratios are given, in units of 10^-15; all paths are down but these."""

    def __init__(self, ratios: Dict[int, int] = {}, up: int = 0) -> None:
        self.pages: Dict[int, bytearray] = {it: bytearray(128) for it in (0x01, 0x11, 0x13, 0x14)}
        self.pages[0x01][142 - 128] = 0x20
        self.pages[0x13][:12] = ABILITIES
        for lane in range(8):
            state = 4 if up >> lane & 1 else 1
            self.pages[0x11][lane // 2] |= state << 4 * (lane % 2)
        for lane, ratio in ratios.items():
            at = 192 - 128 + 16 + 2 * (lane - 1)
            self.pages[0x14][at : at + 2] = (9 << 11 | ratio).to_bytes(2, "big")
        self.selected = [0, 0]
        self.stored: List[int] = []
        self.held = 0

    def transact(self, operation: Operation) -> Reply:
        if operation.offset < 128:
            if operation.data is None:
                return bytes(self.selected[operation.offset - 126 :][: operation.count])
            self.selected[operation.offset - 126 :] = operation.data
            return True
        half, at = self.pages[self.selected[1]], operation.offset - 128
        if operation.data is None:
            return bytes(half[at : at + operation.count])
        if self.selected[1] == 0x13:
            self.stored.append(operation.offset)
        if operation.offset != self.held or operation.data[0]:
            half[at] = operation.data[0]
        return True

    @property
    def on(self) -> Dict[int, int]:
        return {at + 128: it for at, it in enumerate(self.pages[0x13]) if it and at >= 144 - 128}


def run(test: LinkTest, links: Links) -> LinkTest:
    test.run(links.transact, lambda seconds: None)
    return test


def looped(**arguments: object) -> LinkTest:
    return LinkTest(
        Side.MEDIA,
        0x03,
        Pattern.PRBS31Q,
        Pattern.PRBS31Q,
        Loopback.MEDIA_SIDE_OUTPUT,
        0x03,
        **arguments,  # type: ignore[arg-type]
    )


def test_each_lane_has_its_error_ratio() -> None:
    links = Links({1: 1234, 2: 7})
    test = looped(rounds=3)
    assert test.end is None and test.results().media[0].ratio is None
    results = run(test, links).results()
    assert [lane.ratio for lane in results.media[:2]] == [Amount(1234, -15, 1), Amount(7, -15, 1)]
    assert float(results.media[0].ratio or 0) == 1.234e-12
    assert results.media[0].errors is None and results.media[0].signal_to_noise is None
    assert test.end is not None and test.end.outcome is LinkOutcome.TESTED
    assert test.changes == () and links.on == {}
    assert links.stored == [180, 152, 168, 168, 152, 180]  # PRBS31Q is code 0


def test_counts_and_noise_are_exact() -> None:
    links = Links()
    lane = run(looped(shown=Shown.COUNTS_OF_MEDIA_1_TO_4), links).results().media[0]
    assert (lane.errors, lane.bits) == (0, 0)
    links.pages[0x14][64 : 64 + 16] = (3).to_bytes(8, "little") + (1 << 50).to_bytes(8, "little")
    lane = run(looped(shown=Shown.COUNTS_OF_MEDIA_1_TO_4), links).results().media[0]
    assert (lane.errors, lane.bits, lane.ratio) == (3, 1 << 50, None)
    links.pages[0x14][64 + 48 : 64 + 50] = (5000).to_bytes(2, "big")
    noise = run(looped(shown=Shown.SIGNAL_TO_NOISE_OF_MEDIA), links).results(big_endian=True)
    assert noise.media[0].signal_to_noise == Amount(5000, 0, 256)
    assert noise.host[0].signal_to_noise is None


def test_lost_lock_is_told() -> None:
    links = Links()
    links.pages[0x14][132 - 128 : 140 - 128] = bytes([0x80, 0, 0, 0, 1, 2, 4, 8])
    found = run(looped(), links).results()
    assert found.lost_clock and (found.host_generator, found.media_generator) == (1, 2)
    assert (found.host_checker, found.media_checker) == (4, 8)


def test_a_test_that_is_stopped_switches_all_off() -> None:
    links, test = Links(), looped(rounds=255)
    for _ in range(40):
        step = next(test)
        if isinstance(step, Operation):
            test.reply(links.transact(step))
        else:
            test.waited()
    assert links.on and {change.control for change in test.changes} == {180, 152, 168}
    twin = copy.copy(test)
    test.stop()
    run(test, links)
    assert links.on == {} and test.end is not None and test.end.outcome is LinkOutcome.STOPPED
    assert twin.changes and twin.end is None


def test_what_stays_on_is_a_fault() -> None:
    links, test = Links(), looped()
    links.held = 180
    with pytest.raises(LinkFault) as fault:
        run(test, links)
    assert fault.value.end == test.end and str(fault.value) == "tested: byte 180 on"
    (left,) = fault.value.end.still_on
    assert (left.control, left.mask, left.original) == (180, 0x03, 0)


def test_paths_that_are_up_need_permission() -> None:
    links, test = Links(up=0x80), looped()
    with pytest.raises(LinkFault) as fault:
        run(test, links)
    assert str(fault.value) == "not permitted" and fault.value.end.control == 180
    assert links.stored == []
    run(looped(permitted=0x80), links)
    run(looped(media_paths=[1] * 8), links)


def test_patience_ends() -> None:
    test = looped(patience=Patience(10, 50))
    with pytest.raises(TimeoutError):
        test.run(lambda operation: False, lambda seconds: None)
    assert test.end is not None and test.end.outcome is LinkOutcome.OVERDUE


def test_capabilities() -> None:
    found = link_capabilities_of(0x20, ABILITIES)
    assert found.diagnostics and found.media_checker == tuple(Pattern)
    assert found.loopbacks == tuple(Loopback) and found.single_host_lanes and found.gates
    assert not link_capabilities_of(0, ABILITIES).loopbacks
    links = Links()
    halves = {page(number): bytes(half) for number, half in links.pages.items()}
    image = Image({LOWER: bytes(128), **halves})
    assert image.link_capabilities() == found
    with pytest.raises(ValueError):
        image.without(page(0x13)).link_capabilities()
    with pytest.raises(ValueError):
        image.without(page(0x01)).link_capabilities()
    none = image.changed(page(0x01), 142, b"\0").without(page(0x13)).link_capabilities()
    assert not none.diagnostics


def test_each_capability_has_its_bit() -> None:
    found = link_capabilities_of(0x20, bytes([6, 0, 0, 0, 1, 0, 2, 0, 4, 0, 0, 0x80]))
    assert found.loopbacks == (Loopback.MEDIA_SIDE_INPUT, Loopback.HOST_SIDE_OUTPUT)
    assert (found.host_generator, found.media_generator) == ((Pattern.PRBS31Q,), (Pattern.PRBS31,))
    assert (found.host_checker, found.media_checker) == ((Pattern.PRBS23Q,), (Pattern.USER,))
    for place, bits in (
        (0, {0x10: "single_host_lanes", 0x20: "single_media_lanes", 0x40: "both_sides"}),
        (1, {0x40: "gates", 0x80: "gates"}),
        (2, {0x01: "ratios", 0x02: "counts", 0x10: "host_noise", 0x20: "media_noise"}),
    ):
        for bit, name in bits.items():
            each = vars(link_capabilities_of(0x20, bytes(place) + bytes([bit]) + bytes(11 - place)))
            assert [it for it, has in each.items() if has and it != "diagnostics"] == [name]


class Recorded(Links):
    """One that keeps what is stored: the page, the address and the byte."""

    def __init__(self) -> None:
        super().__init__()
        self.stores: List[Tuple[int, int, int]] = []

    def transact(self, operation: Operation) -> Reply:
        if operation.data is not None and operation.offset >= 128:
            self.stores.append((self.selected[1], operation.offset, operation.data[0]))
        return super().transact(operation)


def test_each_argument_has_its_control() -> None:
    links = Recorded()
    pauses: List[float] = []
    links.pages[0x13][183 - 128] = 0x81
    test = LinkTest(
        Side.HOST,
        0x30,
        Pattern.PRBS9,
        Pattern.PRBS7,
        Loopback.HOST_SIDE_INPUT,
        0x0C,
        Shown.COUNTS_OF_HOST_5_TO_8,
        period=2500,
        rounds=3,
    )
    on: Dict[int, LinkChange] = {}

    def pause(seconds: float) -> None:
        pauses.append(seconds)
        on.update({change.control: change for change in test.changes})

    test.run(links.transact, pause)
    assert pauses == [2.5] * 3
    assert on[183] == LinkChange(183, 0x0C, 0x81)
    assert (on[144].mask, on[160].mask) == (0x30, 0x30)
    stored = {(number, address): byte for number, address, byte in reversed(links.stores)}
    assert stored[0x13, 183] == 0x8D and stored[0x14, 128] == 3
    assert (stored[0x13, 150], stored[0x13, 166]) == (0x99, 0xBB)
    assert links.pages[0x13][183 - 128] == 0x81


def test_results_are_those_of_the_last_gate_time() -> None:
    links = Recorded()
    links.pages[0x13][129 - 128] = 0xFF
    run(looped(shown=Shown.GATED_ERROR_RATIOS, gate=2), links)
    assert (0x14, 128, 17) in links.stores
    assert [byte >> 1 & 7 for number, at, byte in links.stores if at == 177][:1] == [2]


def test_counts_have_their_highest_byte_first_where_the_caller_says_so() -> None:
    links = Links()
    links.pages[0x14][64 : 64 + 16] = (3).to_bytes(8, "big") + (1 << 50).to_bytes(8, "big")
    test = run(looped(shown=Shown.COUNTS_OF_MEDIA_1_TO_4), links)
    lane = test.results(big_endian=True).media[0]
    assert (lane.errors, lane.bits) == (3, 1 << 50)
    assert test.results().media[0].errors == 3 << 56


@pytest.mark.parametrize("tries", [0, 5])
def test_a_control_is_stored_again(tries: int) -> None:
    links = Recorded()
    keeps = links.transact

    def forgetful(operation: Operation) -> Reply:
        reply = keeps(operation)
        links.pages[0x13][144 - 128 :] = bytes(128 - 16)
        return reply

    test = looped(tries=tries)
    with pytest.raises(LinkFault, match="^not switched"):
        test.run(forgetful, lambda seconds: None)
    assert len([at for number, at, byte in links.stores if byte]) == tries + 1


@pytest.mark.parametrize(
    "wrong",
    [
        {"rounds": 256},
        {"gate": 8},
        {"period": 1 << 32},
        {"permitted": 256},
        {"tries": 256},
        {"media_paths": [0] * 7},
        {"media_paths": [0] * 9},
        {"media_paths": [256] * 8},
    ],
)
def test_numbers_are_looked_at(wrong: Dict[str, Optional[object]]) -> None:
    with pytest.raises(ValueError):
        looped(**wrong)


def test_the_greatest_numbers_are_taken() -> None:
    greatest = looped(period=2**32 - 1, rounds=255, gate=7, permitted=255, tries=255)
    assert isinstance(next(greatest), Operation)


def test_each_control_that_stays_on_is_named() -> None:
    on = tuple(LinkChange(control, 1, 0) for control in (180, 152))
    assert str(LinkFault(LinkEnd(LinkOutcome.TESTED, 0, on))) == "tested: byte 180, 152 on"


def test_bytes_of_lanes_are_looked_at() -> None:
    with pytest.raises(ValueError):
        LinkTest(Side.HOST, 256)
    with pytest.raises(ValueError):
        LinkTest(Side.HOST, loopback=Loopback.HOST_SIDE_INPUT, looped=256)


def test_types_are_looked_at() -> None:
    with pytest.raises(TypeError):
        LinkTest(1)  # type: ignore[arg-type]
    with pytest.raises(TypeError):
        LinkTest(Side.HOST, generator=0)  # type: ignore[arg-type]
    with pytest.raises(TypeError):
        LinkTest(Side.HOST, loopback=1)  # type: ignore[arg-type]
    with pytest.raises(TypeError):
        LinkTest(Side.HOST).results(1)  # type: ignore[arg-type]
