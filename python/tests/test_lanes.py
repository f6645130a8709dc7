"""Changes of single lanes, on a module with pages 10h and 11h that answers at once."""
from __future__ import annotations

import copy
from typing import Dict, List, Optional

import pytest

from dovecounter import (
    LaneChange,
    LaneControl,
    LaneEnd,
    LaneFault,
    LaneOutcome,
    Operation,
    Patience,
    Reply,
    Wait,
)


class Lanes:
    """The controls of page 10h, and the states of data paths on page 11h: all down but these."""

    def __init__(self, byte: int = 0x81, up: int = 0) -> None:
        self.pages: Dict[int, bytearray] = {0x10: bytearray(128), 0x11: bytearray(128)}
        self.pages[0x10][130 - 128] = self.pages[0x10][138 - 128] = byte
        for lane in range(8):
            state = 4 if up >> lane & 1 else 1
            self.pages[0x11][lane // 2] |= state << 4 * (lane % 2)
        self.selected = [0, 0]
        self.stored: List[int] = []
        self.keeps: Optional[bool] = True  # None if it refuses
        self.made = 0

    def transact(self, operation: Operation) -> Reply:
        self.made += 1
        if operation.data is None:
            if operation.offset >= 128:
                at = operation.offset - 128
                return bytes(self.pages[self.selected[1]][at : at + operation.count])
            return bytes(self.selected[operation.offset - 126 :][: operation.count])
        if operation.offset < 128:
            self.selected[operation.offset - 126 :] = operation.data
            return True
        assert self.selected == [0, 0x10] and operation.count == 1
        self.stored.append(operation.offset)
        if self.keeps:
            self.pages[0x10][operation.offset - 128] = operation.data[0]
        return self.keeps is not None


def run(change: LaneChange, lanes: Lanes) -> Optional[LaneEnd]:
    change.run(lanes.transact, lambda seconds: None)
    return change.end


def test_outputs_are_switched() -> None:
    lanes = Lanes()
    off = LaneChange(LaneControl.OUTPUT_DISABLE_TX, 0x0C, True)
    assert off.end is None
    assert run(off, lanes) == LaneEnd(LaneOutcome.CHANGED, 0x8D, 0, 1)
    assert lanes.made > 2 and repr(off) == f"<LaneChange after {lanes.made} operations>"
    again = LaneChange(LaneControl.OUTPUT_DISABLE_TX, 0x0C, True)
    assert run(again, lanes) == LaneEnd(LaneOutcome.UNCHANGED, 0x8D, 0, 0)
    on = LaneChange(LaneControl.OUTPUT_DISABLE_TX, 0x05, False)
    assert run(on, lanes) == LaneEnd(LaneOutcome.CHANGED, 0x88, 0, 1)
    assert lanes.stored == [130, 130]


@pytest.mark.parametrize(
    "control, address", zip(LaneControl, [129, 130, 131, 132, 134, 137, 138, 139])
)
def test_each_control_has_its_byte(control: LaneControl, address: int) -> None:
    lanes = Lanes(0)
    run(LaneChange(control, 0x80, True), lanes)
    assert lanes.stored == [address] and lanes.pages[0x10][address - 128] == 0x80


def test_paths_that_are_up_need_permission() -> None:
    lanes = Lanes(up=0x10)
    change = LaneChange(LaneControl.OUTPUT_DISABLE_TX, 0x0C, True, permitted=0xEF)
    with pytest.raises(LaneFault) as fault:
        run(change, lanes)
    assert fault.value.end == change.end == LaneEnd(LaneOutcome.NOT_PERMITTED, 0x81, 0x10, 0)
    assert str(fault.value) == "not permitted: 5 up" and lanes.stored == []
    run(LaneChange(LaneControl.OUTPUT_DISABLE_TX, 0x0C, True, permitted=0x10), lanes)
    paths = [0x10, 0x10, 0x01, 0x02, 0x10, 0x10, 0x10, 0x10]
    run(LaneChange(LaneControl.OUTPUT_DISABLE_TX, 0x0C, False, media_paths=paths), lanes)
    run(LaneChange(LaneControl.OUTPUT_DISABLE_RX, 0xEF, True), lanes)
    assert lanes.stored == [130, 130, 138]


@pytest.mark.parametrize(
    "keeps, outcome", [(False, LaneOutcome.IGNORED), (None, LaneOutcome.REFUSED)]
)
def test_a_store_without_effect_is_a_fault(keeps: Optional[bool], outcome: LaneOutcome) -> None:
    lanes = Lanes()
    lanes.keeps = keeps
    with pytest.raises(LaneFault) as fault:
        run(LaneChange(LaneControl.OUTPUT_DISABLE_TX, 0x02, True, most_stores=2), lanes)
    assert fault.value.end == LaneEnd(outcome, 0x81, 0, 2)
    assert str(fault.value) == outcome.name.lower()
    with pytest.raises(LaneFault) as fault:
        run(LaneChange(LaneControl.OUTPUT_DISABLE_TX, 0x02, True), lanes)
    assert fault.value.end.stores == 3


def test_patience_ends() -> None:
    change = LaneChange(LaneControl.OUTPUT_DISABLE_TX, 1, True, patience=Patience(10, 50))
    with pytest.raises(TimeoutError):
        change.run(lambda operation: False, lambda seconds: None)
    assert change.end == LaneEnd(LaneOutcome.OVERDUE, 0, 0, 0)


def test_operations_end() -> None:
    change = LaneChange(LaneControl.OUTPUT_DISABLE_TX, 1, True, patience=Patience(10))
    with pytest.raises(LaneFault, match="gave up"):
        change.run(lambda operation: False, lambda seconds: None)
    assert change.end == LaneEnd(LaneOutcome.GAVE_UP, 0, 0, 0)


def test_steps_are_told_once() -> None:
    change = LaneChange(LaneControl.OUTPUT_DISABLE_TX, 1, True)
    step = next(change)
    assert isinstance(step, Operation) and step.is_store
    with pytest.raises(ValueError):
        change.reply(b"\0")
    with pytest.raises(ValueError):
        change.waited()
    twin = copy.copy(change)
    change.reply(False)
    assert isinstance(next(change), Wait)
    assert next(twin) == step
    assert repr(change) == "<LaneChange after 1 operations>"


def test_what_is_given_is_looked_at() -> None:
    with pytest.raises(TypeError):
        LaneChange(1, 1, True)  # type: ignore[arg-type]
    with pytest.raises(TypeError):
        LaneChange(LaneControl.OUTPUT_DISABLE_TX, 1, 1)  # type: ignore[arg-type]
    for lanes, permitted, paths, stores in [
        (256, 0, [0] * 8, 1),
        (1, 256, [0] * 8, 1),
        (1, 0, [0] * 7, 1),
        (1, 0, [0] * 9, 1),
        (1, 0, [256] * 8, 1),
        (1, 0, [0] * 8, 256),
    ]:
        with pytest.raises(ValueError):
            LaneChange(
                LaneControl.OUTPUT_DISABLE_TX,
                lanes,
                True,
                permitted=permitted,
                media_paths=paths,
                most_stores=stores,
            )


def test_the_greatest_numbers_are_taken() -> None:
    lanes, paths = Lanes(0, up=0xFF), [0xFF] * 8
    change = LaneChange(
        LaneControl.OUTPUT_DISABLE_RX, 255, True, 255, media_paths=paths, most_stores=255
    )
    assert run(change, lanes) == LaneEnd(LaneOutcome.CHANGED, 0xFF, 0, 1)


def test_each_lane_that_is_up_is_named() -> None:
    lanes = Lanes(up=0x81)
    with pytest.raises(LaneFault, match="^not permitted: 1, 8 up$"):
        run(LaneChange(LaneControl.OUTPUT_DISABLE_RX, 0xFF, True), lanes)
