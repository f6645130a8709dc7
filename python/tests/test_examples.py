"""What the examples' buses do where they are refused, cut short or at a page that isn't there."""

from __future__ import annotations

import pathlib
import runpy
from typing import Any, Dict, List, Optional, Tuple

import pytest

from dovecounter import Operation, Provisioning, plan

EXAMPLES = pathlib.Path(__file__).resolve().parents[2] / "examples"
SELECT_20, SELECTED = Operation(0xA0, 126, 2, b"\0\x20"), Operation(0xA0, 126, 2, None)


class Driver:
    """One that refuses whatever is on page 20h."""

    def __init__(self) -> None:
        self.seen: List[Tuple[int, int]] = []

    def read_eeprom(self, offset: int, size: int) -> Optional[bytes]:
        self.seen.append((offset, size))
        return None if offset >= 128 * 0x21 else bytes(size)

    def write_eeprom(self, offset: int, size: int, data: bytes) -> bool:
        self.seen.append((offset, len(data)))
        return offset < 128 * 0x21


@pytest.fixture(scope="module")
def linear() -> Dict[str, Any]:
    return runpy.run_path(str(EXAMPLES / "linear_file.py"))


def test_a_page_that_is_not_there_is_not_selected(linear: Dict[str, Any]) -> None:
    bus = linear["LinearBus"](Driver())
    assert bus.transact(Operation(0xA0, 127, 1, b"\x10")) and bus.transact(SELECT_20)
    assert bus.transact(SELECTED) == b"\0\0"


def test_what_a_driver_refuses_is_refused(linear: Dict[str, Any]) -> None:
    bus = linear["LinearBus"](Driver())
    bus.selection[:] = b"\0\x20"
    assert bus.transact(Operation(0xA0, 130, 4, None)) is False
    assert bus.transact(Operation(0xA0, 130, 2, b"12")) is False
    assert bus.transact(Operation(0xA0, 26, 1, b"1")) is True
    assert bus.driver.seen == [(128 * 0x20 + 130, 4), (128 * 0x20 + 130, 2), (26, 1)]


def test_the_simulated_driver_leaves_page_00h_selected(linear: Dict[str, Any]) -> None:
    driver = linear["SimulatedDriver"](linear["module"])
    assert driver.read_eeprom(128 * 0x12, 1) is not None
    assert driver.module.fetch(0xA0, 126, 2) == b"\0\0"


class Cut:
    """A module of which only is seen what is stored and that time passes."""

    def __init__(self) -> None:
        self.stores: List[bytes] = []
        self.ticks = 0

    def store(self, device: int, offset: int, data: bytes) -> bool:
        self.stores.append(data)
        return True

    def tick(self) -> None:
        self.ticks += 1


def test_the_bench_cuts_stores_and_sees_what_goes_down() -> None:
    bench = runpy.run_path(str(EXAMPLES / "bench.py"))
    module = Cut()
    transact = bench["refusing"](module, 100, 1)
    assert [transact(Operation(0xA0, 143, 3, b"123")) for _ in range(20)] == [False] * 20
    assert 0 < len(module.stores) < 20 == module.ticks and {*module.stores} == {b"1"}
    other = Provisioning(plan(bench["image"], {bench["GAUI_400_4"]: 400}))
    with pytest.raises(AssertionError):
        bench["carry_out"](other, 0)
