"""The bench for links of the examples: what it prints and draws, and its bus of Linux."""
from __future__ import annotations

import ctypes
import errno
import fcntl
import os
import pathlib
import runpy
import sys
import time
import xml.etree.ElementTree
from typing import Any, List, Optional, Tuple

import pytest

from dovecounter import LinkFault, Operation, Pattern, Reply

EXAMPLE = pathlib.Path(__file__).resolve().parents[2] / "examples/link_bench.py"
WANTED = """\
lane   PRBS31Q   PRBS13Q
   1   3.0e-06   3.0e-06
   2   9.0e-06   9.0e-06
   3   1.2e-05   1.2e-05
   4   4.8e-04   4.8e-04 beyond the limit
   5   2.0e-06   2.0e-06
   6   5.0e-06   5.0e-06
   7   1.0e-06   1.0e-06
   8   3.0e-05   3.0e-05
"""


def run(monkeypatch: pytest.MonkeyPatch, *words: str) -> None:
    monkeypatch.setattr(sys, "argv", [str(EXAMPLE), *words])
    runpy.run_path(str(EXAMPLE), run_name="__main__")


def test_it_prints_and_draws_each_lane(
    monkeypatch: pytest.MonkeyPatch, capsys: pytest.CaptureFixture[str], tmp_path: pathlib.Path
) -> None:
    run(monkeypatch, "--svg", str(tmp_path / "lanes.svg"))
    assert capsys.readouterr().out == WANTED
    drawn = xml.etree.ElementTree.parse(tmp_path / "lanes.svg").getroot()
    bars = [it for it in drawn if it.tag.endswith("rect")]
    titles = ["".join(it.itertext()) for it in bars]
    assert titles[:4] == [
        "lane 1: 3.00e-06",
        "lane 2: 9.00e-06",
        "lane 3: 1.20e-05",
        "lane 4: 4.80e-04",
    ]
    assert [it.get("fill") for it in bars].count("#c33") == 2 and len(bars) == 16
    for bar in bars:
        assert float(bar.get("y", "")) + float(bar.get("height", "")) == pytest.approx(
            190, abs=0.11
        )
    assert float(bars[0].get("height", "")) == pytest.approx(20 * (9 - 5.523), abs=0.05)
    (limit,) = [it for it in drawn if it.tag.endswith("line")]
    assert float(limit.get("y1", "")) == pytest.approx(190 - 20 * (9 - 3.62), abs=0.1)
    marks = {it.text: it.get("y") for it in drawn if (it.text or "").startswith("1e-")}
    assert marks == {"1e-0": "14", "1e-3": "74", "1e-6": "134", "1e-9": "194"}
    run(monkeypatch, "--svg", str(tmp_path / "lanes.svg"))
    xml.etree.ElementTree.parse(tmp_path / "lanes.svg")


def test_a_ratio_below_the_drawing_has_no_bar_and_one_pattern_is_enough_for_a_note(
    capsys: pytest.CaptureFixture[str],
) -> None:
    bench = runpy.run_path(str(EXAMPLE))
    assert [bench["rise"](ratio) for ratio in (0, 1e-12, 1e-9, 1)] == [0, 0, 0, 180]
    ratios = iter(([1e-3, 1e-9], [1e-9, 2.4e-4]))
    bench["main"].__globals__["measure"] = lambda *_: next(ratios)
    with pytest.MonkeyPatch.context() as patched:
        patched.setattr(sys, "argv", [str(EXAMPLE)])
        bench["main"]()
    lines = capsys.readouterr().out.splitlines()[1:]
    assert ["beyond" in line for line in lines] == [True, False]


def test_it_measures_the_module_on_a_bus_that_is_named(monkeypatch: pytest.MonkeyPatch) -> None:
    opened: List[Tuple[str, int]] = []
    pauses: List[float] = []

    def open_bus(name: str, flags: int) -> int:
        opened.append((name, flags))
        return 5

    def refuse(*_: Any) -> None:
        raise OSError(errno.ENXIO, "no answer")

    monkeypatch.setattr(os, "open", open_bus)
    monkeypatch.setattr(fcntl, "ioctl", refuse)
    monkeypatch.setattr(time, "sleep", pauses.append)
    with pytest.raises(LinkFault):
        run(monkeypatch, "/dev/i2c-7")
    assert opened == [("/dev/i2c-7", os.O_RDWR)] and len(pauses) > 1000


def test_it_loops_media_lanes_back_and_reads_twice() -> None:
    bench = runpy.run_path(str(EXAMPLE))
    links, loops, pauses = bench["SimulatedLinks"](), set(), list[float]()

    def transact(operation: Operation) -> Reply:
        loops.add(bytes(links.pages[0x13][180 - 128 : 184 - 128]))
        reply: Reply = links.transact(operation)
        return reply

    bench["measure"](transact, pauses.append, Pattern.PRBS31Q)
    assert loops == {bytes(4), b"\xff\0\0\0"} and pauses == [1, 1]


def test_whenever_it_is_interrupted_it_switches_all_off() -> None:
    bench = runpy.run_path(str(EXAMPLE))

    def measured(interrupted: int) -> Tuple[bytes, List[bytes]]:
        """Page 13h at the end of a measurement, and after each of its steps before."""
        links, seen = bench["SimulatedLinks"](), list[bytes]()

        def stepped(_: float = 0) -> None:
            seen.append(bytes(links.pages[0x13]))
            if len(seen) == interrupted:
                raise KeyboardInterrupt

        def transact(operation: Operation) -> Reply:
            reply: Reply = links.transact(operation)
            stepped()
            return reply

        try:
            bench["measure"](transact, stepped, Pattern.PRBS31Q)
            assert not interrupted
        except KeyboardInterrupt:
            assert interrupted
        return bytes(links.pages[0x13]), seen

    off, steps = measured(0)
    assert steps[0] == off and len({*steps}) > 3
    for number in range(1, len(steps) + 1):
        assert measured(number)[0] == off


class Adapter:
    """What the kernel does with two messages, which are looked at as it finds them."""

    def __init__(self, answer: Optional[bytes]) -> None:
        self.answer, self.seen = (
            answer,
            [],
        )  # type: Tuple[Optional[bytes], List[Tuple[int, int, bytes]]]

    def ioctl(self, file: int, request: int, messages: Any) -> int:
        assert (file, request) == (5, 0x0707)
        if self.answer is None:
            raise OSError(errno.ENXIO, "no answer")
        kind = ctypes.c_uint16 * 3
        for number in range(messages.count):
            at = messages.first + number * 16
            address, flags, length = kind.from_address(at)
            data = ctypes.c_void_p.from_address(at + 8).value
            if flags:
                ctypes.memmove(data or 0, self.answer, length)
            part = (ctypes.c_char * length).from_address(data or 0) if length else b""
            self.seen.append((address, flags, bytes(part)))
        return int(messages.count)


def bus(monkeypatch: pytest.MonkeyPatch, answer: Optional[bytes]) -> Tuple[Any, Adapter]:
    adapter = Adapter(answer)
    monkeypatch.setattr(os, "open", lambda name, flags: 5)
    monkeypatch.setattr(fcntl, "ioctl", adapter.ioctl)
    return runpy.run_path(str(EXAMPLE))["I2cBus"]("/dev/i2c-7"), adapter


def test_a_fetch_is_two_messages(monkeypatch: pytest.MonkeyPatch) -> None:
    made, adapter = bus(monkeypatch, b"abc")
    assert made.transact(Operation(0xA0, 128, 3, None)) == b"abc"
    assert adapter.seen == [(0x50, 0, b"\x80"), (0x50, 1, b"abc")]


def test_a_store_is_one_message(monkeypatch: pytest.MonkeyPatch) -> None:
    made, adapter = bus(monkeypatch, b"")
    assert made.transact(Operation(0xA0, 126, 2, b"\x00\x13")) is True
    assert adapter.seen == [(0x50, 0, b"\x7e\x00\x13")]


def test_a_refusal_is_false(monkeypatch: pytest.MonkeyPatch) -> None:
    assert bus(monkeypatch, None)[0].transact(Operation(0xA0, 128, 3, None)) is False
