"""Fixtures for tests of one's own (docs/python.md, "In your tests"). Where the package is installed, pytest
finds them by dovecounter_pytest."""
from __future__ import annotations

from typing import Callable, Iterable

import pytest

from .image import Image
from .procedures import Operation, Reply
from .simulated import Delays, SimulatedModule


class RefusingBus:
    """The bus of a simulated module that refuses the operations of these numbers, from 1 on. A refused
    store may have stored `cut` bytes. Keeps the operations."""

    def __init__(self, module: SimulatedModule, refused: Iterable[int] = (), cut: int = 0) -> None:
        self.module = module
        self.refused = frozenset(refused)
        self.cut = cut
        self.operations: list[Operation] = []

    def __call__(self, operation: Operation) -> Reply:
        self.operations.append(operation)
        if len(self.operations) not in self.refused:
            return self.module.transact(operation)
        if operation.data is not None and self.cut:
            self.module.store(operation.device, operation.offset, operation.data[: self.cut])
        self.module.tick()
        return False


def module_of(image: Image | str, **delays: int) -> SimulatedModule:
    """The simulated module of an image, or of the text of one, with these delays."""
    return SimulatedModule(
        Image.from_text(image) if isinstance(image, str) else image, Delays(**delays)
    )


@pytest.fixture
def simulated_module() -> Callable[..., SimulatedModule]:
    """Makes the simulated module of an image, or of the text of one: simulated_module(image, init=30)
    has these delays."""
    return module_of


@pytest.fixture
def refusing_bus() -> type[RefusingBus]:
    """Makes a bus to a simulated module, for `run` of a procedure: refusing_bus(module, {3, 4}, cut=2)
    refuses the third operation and the fourth, and of a store takes two bytes."""
    return RefusingBus
