"""Procedures of several modules in one thread, by asyncio."""
from __future__ import annotations

import asyncio
from typing import List

import pytest

from shared import WEIGHTS, example
from dovecounter import (
    Activation,
    Operation,
    Provisioning,
    Reading,
    Reply,
    SimulatedModule,
    Wait,
    plan,
)
from dovecounter.pytest_plugin import RefusingBus

DR4 = example("qsfp_dd_400g_dr4.txt")
BEST = plan(DR4, WEIGHTS)


class Port:
    """A simulated module in a port, whose bus lets others go on before it answers."""

    def __init__(self, name: str, said: List[str]) -> None:
        self.module, self.name, self.said = SimulatedModule(DR4), name, said
        self.pauses: List[float] = []

    async def transact(self, operation: Operation) -> Reply:
        await asyncio.sleep(0)
        self.said.append(self.name)
        return self.module.transact(operation)

    async def pause(self, seconds: float) -> None:
        self.pauses.append(seconds)
        await asyncio.sleep(0)
        self.module.tick()


async def bring_up(port: Port) -> None:
    for procedure in (Provisioning(BEST), Activation(BEST)):
        await procedure.run_async(port.transact, port.pause)


def test_two_modules_are_brought_up_side_by_side() -> None:
    said: List[str] = []
    ports = [Port("one", said), Port("other", said)]

    async def all_ports() -> None:
        await asyncio.gather(*map(bring_up, ports))

    asyncio.run(all_ports())
    for port in ports:
        assert port.module.active == BEST.control
        assert {state.name for state in port.module.path_states} == {"DPActivated"}
        assert {*port.pauses} == {0.1}
    assert said.count("one") == said.count("other") and said[:4] == ["one", "other", "one", "other"]


def test_a_reading_is_the_same_by_coroutines() -> None:
    port, by_steps, by_coroutines = Port("one", []), Reading(), Reading()
    by_steps.run(SimulatedModule(DR4).transact, lambda _: None)
    asyncio.run(by_coroutines.run_async(port.transact, port.pause))
    assert by_coroutines.image == by_steps.image


def test_an_operation_of_a_cancelled_task_counts_as_refused() -> None:
    port, procedure, held = Port("one", []), Provisioning(BEST), asyncio.Event

    async def stuck(operation: Operation) -> Reply:
        if len(port.said) == 5:
            await held().wait()
        return await port.transact(operation)

    async def cancelled() -> None:
        task = asyncio.ensure_future(procedure.run_async(stuck, port.pause))
        while len(port.said) < 5:
            await asyncio.sleep(0)
        for _ in range(3):
            await asyncio.sleep(0)
        task.cancel()
        with pytest.raises(asyncio.CancelledError):
            await task
        assert isinstance(next(procedure), Wait)
        await procedure.run_async(port.transact, port.pause)

    asyncio.run(cancelled())
    bus, other = RefusingBus(SimulatedModule(DR4), {6}), Provisioning(BEST)
    other.run(bus, lambda _: bus.module.tick())
    assert port.module.active == bus.module.active == BEST.control
    assert (procedure.steps, len(port.said) + 1) == (other.steps, len(bus.operations))


def test_a_wait_of_a_cancelled_task_is_asked_for_again() -> None:
    port, procedure = Port("one", []), Provisioning(BEST)

    async def cut_short(_: float) -> None:
        raise asyncio.CancelledError

    with pytest.raises(asyncio.CancelledError):
        asyncio.run(procedure.run_async(port.transact, cut_short))
    assert isinstance(next(procedure), Wait)
    asyncio.run(procedure.run_async(port.transact, port.pause))
    assert port.module.active == BEST.control


def test_what_a_bus_raises_reaches_the_caller() -> None:
    procedure = Provisioning(BEST)

    async def broken(_: Operation) -> Reply:
        raise OSError(5, "Input/output error")

    with pytest.raises(OSError):
        asyncio.run(procedure.run_async(broken))
    assert repr(procedure).endswith("after 1 operations>")
    assert isinstance(next(procedure), Wait)
