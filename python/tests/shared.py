"""What the tests share: the program, the images of examples, a bus that does as a script says, and
runs by chance."""
from __future__ import annotations

import os
import pathlib
import random
import subprocess
import unittest
from typing import Any, Callable, Dict, List, Sequence, Tuple

from dovecounter import (
    LOWER,
    Activation,
    DataPath,
    Fault,
    Image,
    Operation,
    Patience,
    Provisioning,
    Reply,
    SimulatedModule,
    page,
    plan,
)

ROOT = pathlib.Path(__file__).parents[2]
PROGRAM = pathlib.Path(os.environ.get("CMISCTL", ROOT / "crates/cmisctl/out/cmisctl"))
FOUR_GROUPS = ROOT / "tests/lib/inputs/vdm_of_four_groups.txt"  # which has more than 16 halves
IMAGES = sorted(
    [*ROOT.glob("examples/*.txt"), *ROOT.glob("tests/lib/inputs/*sfp*.txt"), FOUR_GROUPS]
)
WEIGHTS = {0x0D: 101, 0x11: 400, 0x4F: 400}

Script = List[Tuple[str, int]]


def cmisctl(command: str, *parts: str) -> List[str]:
    """What the proved program prints."""
    if not PROGRAM.exists():
        raise unittest.SkipTest(f"there is no {PROGRAM}, which ./build makes")
    run = subprocess.run(
        [PROGRAM, *command.split()],
        input="---\n".join(parts),
        capture_output=True,
        text=True,
        check=False,
    )
    return run.stdout.splitlines()


def image_of(path: pathlib.Path) -> Image:
    """The first part of an input."""
    return Image.from_text(path.read_text().partition("---\n")[0])


def example(name: str) -> Image:
    return image_of(ROOT / "examples" / name)


def table(weights: Dict[int, int]) -> str:
    """The text of weights."""
    return "".join(
        ["[host]\n", *(f"{host_id:02X}h = {weight}\n" for host_id, weight in weights.items())]
    )


def fault_of(function: Callable[..., object], *arguments: Any) -> str:
    """The fault that a function raises, as the program prints it."""
    try:
        function(*arguments)
    except Fault as fault:
        return str(fault)
    raise AssertionError("no fault was raised")


class ScriptedBus:
    """A bus that does as a script says (docs/bus.md, "Scripted bus"), and keeps the lines of
    `cmisctl trace`."""

    def __init__(self, module: SimulatedModule, script: Script) -> None:
        self.module = module
        self.script = list(reversed(script))
        self.lines: List[str] = []

    def transact(self, operation: Operation) -> Reply:
        word, number = self._directive()
        if word == "ok":
            reply = self.module.transact(operation)
        else:
            reply = False
            if word == "cut" and number and operation.data is not None:
                self.module.store(operation.device, operation.offset, operation.data[:number])
            self.module.tick()
        self.lines.append(f"{len(self.lines) + 1} {line_of(operation, reply)}")
        return reply

    def _directive(self) -> Tuple[str, int]:
        """What becomes of the next transaction, after time has passed and the pin was set."""
        while self.script:
            word, number = self.script.pop()
            if word == "tick":
                self.module.tick(number)
            elif word == "lpmode":
                self.module.hold_low_power_pin(number == 1)
            else:
                if word != "cut" and number > 1:
                    self.script.append((word, number - 1))
                return word, number
        return "ok", 1


def line_of(operation: Operation, reply: Reply) -> str:
    device = f"{operation.device:X} {operation.offset}"
    asked = (
        f"fetch {device} {operation.count}"
        if operation.data is None
        else f"store {device} {operation.data.hex(' ')}"
    )
    if isinstance(reply, bytes):
        return f"{asked} = {reply.hex(' ')}"
    return f"{asked} = {'done' if reply else 'refused'}"


def traced(
    image: Image, weights: Dict[int, int], kept: Sequence[DataPath], script: Script
) -> List[str]:
    """What `cmisctl trace --keep --activate` prints, by the package. As there, time doesn't pass in a
    pause, and the selection is taken for known after a refusal."""
    best = plan(image, weights, kept)
    try:
        bus = ScriptedBus(SimulatedModule(image), script)
    except Fault as fault:
        return [f"fault {fault}"]
    ends: List[str] = []
    try:
        for name, procedure in (
            ("provisioned", Provisioning(best, Patience(trusts=True))),
            ("activated", Activation(best, Patience(trusts=True))),
        ):
            procedure.run(bus.transact, pause=lambda _: None)
            ends.append(f"{name} {procedure.steps}")
        ends.append(f"active {bus.module.active.hex(' ')}")
    except Fault as fault:
        ends.append(f"fault {fault}")
    return bus.lines + ends


def random_script(chance: random.Random) -> Script:
    most = {"ok": 6, "nack": 3, "cut": 8, "tick": 9, "lpmode": 1}
    script: Script = []
    for _ in range(chance.randrange(60)):
        word = chance.choice(["ok", "ok", "nack", "cut", "tick", "lpmode"])
        number = chance.randint(0 if word in ("cut", "lpmode") else 1, most[word])
        script.append((word, 5000 if word == "nack" and chance.random() < 0.02 else number))
    return script


def random_image(chance: random.Random) -> Image:
    """An example's, with another byte 26 of lower memory (low power by the pin or by software),
    staged or active bytes."""
    image = example(
        chance.choice(
            [
                "qsfp_dd_400g_dr4.txt",
                "osfp_800g_dr8.txt",
                "osfp_800g_many_apps.txt",
                "add_800g_dr8.txt",
            ]
        )
    )
    if chance.random() < 0.3:
        image = image.changed(LOWER, 26, bytes([chance.choice([0x00, 0x40, 0x50, 0x10])]))
    for key, address, often in (
        (page(0x10), 128, 0.1),
        (page(0x10), 145, 0.1),
        (page(0x11), 206, 0.02),
    ):
        for lane in range(1 if address == 128 else 8):
            if key in image.halves and chance.random() < often:
                byte = chance.choice([0x00, 0x10, 0x20, 0x24, chance.randrange(256)])
                image = image.changed(key, address + lane, bytes([byte]))
    return image


def image_by_chance(chance: random.Random) -> Image:
    """An image of any family, most often with other bytes, and perhaps without a half; the bytes
    that decide what is read are often good ones."""
    image = image_of(chance.choice(IMAGES))
    for key, half in image.halves.items():
        changed = bytearray(half)
        for _ in range(chance.choice([0, 3, 60])):
            changed[chance.randrange(128)] = chance.choice([0x00, 0xFF, chance.randrange(256)])
        if key == LOWER:
            for place, good in (
                (1, b"\x40\x5A"),
                (2, b"\x00\x80\x04"),
                (92, b"\x00\x40\x44\x50\x68"),
            ):
                if chance.random() < 0.7:
                    changed[place] = chance.choice(good)
            if chance.random() < 0.8:
                changed[0] = chance.choice([half[0], 0x18, 0x19, 0x1E, 0x0C, 0x0D, 0x11, 0x03])
        if key == page(0x00) and chance.random() < 0.9:
            changed[222 - 128] = sum(changed[: 222 - 128]) % 256
        if key == page(0x01) and chance.random() < 0.9:
            changed[255 - 128] = sum(changed[130 - 128 : 255 - 128]) % 256
        image = image.changed(key, 128 if key.upper else 0, bytes(changed))
    absent = [key for key in image.halves if chance.random() < 0.03]
    return image.without(*absent)


def random_weights(chance: random.Random, image: Image) -> Dict[int, int]:
    return {
        application.host_id: chance.randrange(1000)
        for application in image.applications()
        if chance.random() < 0.8
    }


def random_kept(chance: random.Random, image: Image, weights: Dict[int, int]) -> List[DataPath]:
    """Often none; else paths that are in use, if the module has them, or some of a plan, most of
    which can't stay."""
    if chance.random() < 0.6:
        return []
    if image.halves[page(0x11)][206 - 128 : 210 - 128] == bytes.fromhex("80808484"):
        return [DataPath(8, 1, 1), DataPath(8, 3, 2)]
    return [path for path in plan(image, weights).paths if chance.random() < 0.3]


def compare_with_trace(chance: random.Random) -> List[str]:
    """Compares a run by chance with the program's, line by line; gives the lines."""
    image, script = random_image(chance), random_script(chance)
    weights = random_weights(chance, image)
    kept = random_kept(chance, image, weights)
    parts = [
        image.to_text(),
        table(weights),
        "".join(f"keep {path.application} {path.host} {path.media}\n" for path in kept),
        "".join(f"{word} {number}\n" for word, number in script),
    ]
    lines = traced(image, weights, kept, script)
    assert lines == cmisctl("trace --keep --activate", *parts), "---\n".join(parts)
    return lines
