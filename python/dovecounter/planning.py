"""Plans of a module's lanes, and what a certificate of one is worth (docs/planning.md)."""
from __future__ import annotations

import warnings
from ctypes import Array, byref, c_size_t, c_uint8, c_uint32
from dataclasses import dataclass
from enum import IntEnum
from typing import Any, Callable, Dict, Mapping, Optional, Sequence, Tuple, Union

from . import library
from .faults import (
    CODES,
    Fault,
    first_refused,
    look_at,
    look_at_bytes,
    look_at_choice,
    look_at_mapping,
    look_at_text,
    look_at_type,
    sentence_of,
)
from .image import HALF, LOWER, Image, page
from .showing import Record, picture
from .states import ModuleState, known

_plan = library.function("plan")
_check = library.function("check")
_certificate = library.function("certificate")
_read_weights = library.function("weights")
_judge = library.function("judge")


_ACTIVE = 206 - HALF  # where page 11h has the Active Control Set
_OF_CHANGES = {"AD4": (LOWER, page(0x11))}  # the halves that a change is judged by


class KeptPathNotActive(UserWarning):
    """A path is to be kept, but the module doesn't have it: its Active Control Set has other control
    bytes for the path's lanes. A Provisioning of such a plan ends in a fault, most often PV1 or PV3,
    and only after it has taken down all lanes that aren't kept. With them goes each data path that
    has one of these lanes and one of the kept path's."""


@dataclass(frozen=True)
class DataPath(Record):
    """A data path: an Application on consecutive host lanes and consecutive media lanes."""

    application: int
    """its number"""
    host: int
    """the first host lane, 1 to 8"""
    media: int
    """the first media lane, 1 to 8"""


@dataclass(frozen=True)
class Plan(Record):
    """A division of a module's lanes into data paths. In a byte of lanes, bit i-1 stands for lane
    i."""

    weight: int
    """the sum of the weights of its paths"""
    paths: Tuple[DataPath, ...]
    """by rising host lane"""
    control: bytes
    """the control bytes of host lanes 1 to 8"""
    lanes: int
    """the byte of host lanes that the paths take"""
    outside: int
    """the byte of host lanes that no kept path takes; 0xFF if nothing is kept"""

    def _repr_svg_(self) -> str:
        paths = [(path.application, path.host, path.media) for path in self.paths]
        return picture(self.control, paths)


@dataclass(frozen=True)
class Judgement(Record):
    """What a certificate is worth."""

    reason: Optional[str]
    """None if it is good: no plan with the paths that it keeps weighs more than its own. Else "VR1"
    to "VR10" """
    number: int
    """for VR1 and VR2 of the path from 1, for VR8 and VR9 of the kept path, for VR5 and VR6 of the
    entry, else 0"""

    @property
    def is_good(self) -> bool:
        return self.reason is None

    @property
    def sentence(self) -> str:
        """What is wrong and what to do, or nothing if it is good."""
        return sentence_of(self.reason) if self.reason else ""


def weights_of(weights: Mapping[int, int]) -> Array[c_uint32]:
    found = library.Weights()
    for host_id, weight in look_at_mapping("the weights", weights).items():
        look_at("a HostInterfaceID", host_id, 255)
        found[host_id] = look_at(f"the weight of 0x{host_id:02X}", weight, 2**32 - 1)
    return found


def read_weights(text: Union[str, bytes]) -> Dict[int, int]:
    """How much each HostInterfaceID is worth, as the lines of a text say: `[host]`, and after it
    lines such as `0Dh = 101`, comments and empty lines (docs/firmware.md, "Weights"). IDs that
    weigh nothing are left out. Raises ValueError, with the number of the line, for another text."""
    written = look_at_text("the text of weights", text)
    found, line = library.Weights(), c_size_t()
    status = int(_read_weights(written, len(written), found, byref(line)))
    if status:
        place = f"line {line.value}: " if line.value else ""
        raise ValueError(place + library.text("status", status))
    return {host_id: weight for host_id, weight in enumerate(found) if weight}


def _kept(paths: Sequence[DataPath]) -> Any:
    for path in paths:
        look_at_type("a kept path", path, DataPath)
        for what in ("application", "host", "media"):
            look_at(f"{what} of {path}", getattr(path, what), 255)
    return (library.Path * len(paths))(
        *(library.Path(path.application, path.host, path.media) for path in paths)
    )


def _look_at_conventions(paired: bool, counts_by_id: bool, stay: int) -> None:
    look_at_choice("paired", paired)
    look_at_choice("counts_by_id", counts_by_id)
    look_at("the weight of staying", stay, 2**32 - 1)


def _arguments(
    image: Image, weights: Mapping[int, int], paired: bool, counts_by_id: bool, stay: int
) -> Tuple[Any, ...]:
    """What each function that plans takes first."""
    look_at_type("the image", image, Image)
    halves, table = image.arguments(), weights_of(weights)
    _look_at_conventions(paired, counts_by_id, stay)
    return (*halves, paired, counts_by_id, table, stay)


def _expect_plan(
    image: Image, keep: Sequence[DataPath], status: Callable[[Tuple[Any, int]], int]
) -> None:
    """Raises what there is instead of a plan, by the status with the paths that are kept."""

    def answered(count: int) -> int:
        return status((_kept(keep[:count]), count))

    answer = answered(len(keep))
    if CODES.get(answer) == "KP3":
        raise Fault(
            "KP3", first_refused(len(keep), lambda count: CODES.get(answered(count)) == "KP3")
        )
    image.take(answer)


def plan(
    image: Image,
    weights: Mapping[int, int],
    keep: Sequence[DataPath] = (),
    paired: bool = False,
    counts_by_id: bool = False,
    stay: int = 0,
) -> Plan:
    """The best plan for the module: its paths are allowed, no two share a lane, the kept ones are
    among them, and no such plan weighs more; of several the first (docs/planning.md). A path weighs
    what `weights` has at its HostInterfaceID, 0 to 4294967295, and nothing if it isn't there.
    `paired` says that the module pairs an Application's first host lanes with its first media lanes
    in their order, which no register tells; else each may go with each. `counts_by_id` says that a
    lane count of 0 is the one that the interface ID implies, as far as that is known; else an
    Application without a lane count is not planned. `stay` is what a path weighs more if the module
    has it already, by its Active Control Set (page 11h), 0 to 4294967295.
    Raises a Fault of AD1 to AD6, KP2 or KP3; ValueError for a number that is out of range. Warns by
    KeptPathNotActive of each kept path that the module doesn't have, if the image has page 11h."""
    found = library.Plan()
    arguments = _arguments(image, weights, paired, counts_by_id, stay)
    _expect_plan(image, keep, lambda kept: int(_plan(*arguments, *kept, byref(found))))
    paths = tuple(
        DataPath(path.application, path.host, path.media) for path in found.paths[: found.count]
    )
    best = Plan(found.weight, paths, bytes(found.control), found.lanes, found.outside)
    for path in _not_active(image, best, keep):
        told = f"{path} is to be kept, but the module's Active Control Set doesn't have it"
        warnings.warn(told, KeptPathNotActive, stacklevel=2)
    return best


def certificate(
    image: Image,
    weights: Mapping[int, int],
    keep: Sequence[DataPath] = (),
    paired: bool = False,
    counts_by_id: bool = False,
    stay: int = 0,
) -> str:
    """The certificate of the plan that `plan` gives for the same, as `cmisctl plan` prints it: a text
    by which `check` finds that no such plan weighs more. Raises what `plan` does, and warns of
    nothing."""
    arguments = _arguments(image, weights, paired, counts_by_id, stay)
    text, length = (c_uint8 * library.CERTIFICATE_SIZE)(), c_size_t()
    room = (text, len(text), byref(length))
    _expect_plan(image, keep, lambda kept: int(_certificate(*arguments, *kept, *room)))
    return bytes(text[: length.value]).decode("ascii")


def _not_active(image: Image, best: Plan, keep: Sequence[DataPath]) -> Tuple[DataPath, ...]:
    """The kept paths that the Active Control Set lacks; none if the image doesn't have it."""
    half = image.halves.get(page(0x11))
    if half is None:
        return ()
    other = {
        byte for byte, active in zip(best.control, half[_ACTIVE : _ACTIVE + 8]) if byte != active
    }
    return tuple(path for path in keep if best.control[path.host - 1] in other)


def check(
    image: Image,
    weights: Mapping[int, int],
    certificate: Union[str, bytes],
    paired: bool = False,
    counts_by_id: bool = False,
    stay: int = 0,
) -> Judgement:
    """Judges the certificate with this text, as `cmisctl plan` prints it, for the module and these
    weights. The text says which paths are kept, and whether it is for a module that pairs first
    lanes, as `paired` says of this one: if they differ, the reason is VR10. By which lane counts it
    was made only `counts_by_id` says, and how much staying weighed only `stay`: they have to be as
    they were for `plan`. Raises a Fault of AD1 to
    AD6 or CT1 to CT4; ValueError for a number that is out of range."""
    text = look_at_text("the certificate", certificate)
    found, lines = library.Judgement(), text.split(b"\n")
    arguments = _arguments(image, weights, paired, counts_by_id, stay)

    def status(count: int) -> int:
        beginning = b"".join(line + b"\n" for line in lines[:count]) if count < len(lines) else text
        return int(_check(*arguments, beginning, len(beginning), byref(found)))

    answer = status(len(lines))
    code = CODES.get(answer)
    if code in ("CT1", "CT2"):
        raise Fault(code, first_refused(len(lines), lambda count: status(count) == answer))
    image.take(answer)
    return Judgement(f"VR{found.reason}" if found.reason else None, found.number)


class Hindrance(IntEnum):
    """What stands against a change."""

    UNHINDERED = 0
    OTHER_BYTES = 1
    """lanes are to stay, but have other control bytes than the plan's"""
    OTHER_STATE = 2
    """the module is in a state from which it can't be provisioned"""
    WOULD_COME_UP = 3
    """lanes are down, would come up, and may not"""
    NO_PATH = 4
    """the plan has no path, and has to have one"""
    WOULD_GO_DOWN = 5
    """lanes aren't down, would go down, and may not"""


@dataclass(frozen=True)
class Effect(Record):
    """What a change to a plan does to a module's lanes. In a byte of lanes, bit i-1 stands for lane
    i."""

    taken: int
    """the byte of lanes that provisioning takes"""
    goes_down: int
    """of those that aren't DPDeactivated and are taken down, even if they come up again"""
    comes_up: int
    """of those that are DPDeactivated and come up"""
    stays: int
    """of those that aren't DPDeactivated and are left as they are"""
    is_active: bool
    """the plan's control bytes are active, so that nothing is to be provisioned"""
    is_done: bool
    """there is nothing to do"""
    hindrance: Hindrance
    """what stands against it first"""
    lanes: int
    """the byte of lanes on which it is, or 0"""
    state: Union[ModuleState, int, None]
    """of OTHER_STATE"""


def judge(
    image: Image,
    plan: Plan,
    activates: bool = False,
    wakes: bool = False,
    spares: bool = False,
    may_take_down: int = 0,
    may_bring_up: int = 0,
    may_have_no_path: bool = False,
) -> Effect:
    """What a change from the memory as read to this plan does, and what stands against it: call it
    before anything is stored. `activates` says that the plan's lanes are to come up, `wakes` that a
    module in low power is woken up first, `spares` that a path of the plan stays if it is active and
    not down, even if it isn't kept. If nothing stands against it, provisioning and activation name no
    lane that isn't DPDeactivated, except those of `may_take_down`. Raises a Fault of AD4 without the
    lower half or page 11h; ValueError for a number that is out of range."""
    look_at_type("the image", image, Image)
    look_at_type("the plan", plan, Plan)
    for name, choice in (("activates", activates), ("wakes", wakes), ("spares", spares)):
        look_at_choice(name, choice)
    look_at_choice("may_have_no_path", may_have_no_path)
    for name, lanes in (("may_take_down", may_take_down), ("may_bring_up", may_bring_up)):
        look_at(name, lanes, 255)
    change = library.Change(
        library.Lanes(*look_at_bytes("the control bytes", plan.control, 8)),
        look_at("the plan's lanes", plan.lanes, 255),
        look_at("the lanes outside of kept paths", plan.outside, 255),
        *(spares, activates, wakes),
        *(may_take_down, may_bring_up, may_have_no_path),
    )
    found = library.Effect()
    image.take(int(_judge(*image.arguments(), byref(change), byref(found))), _OF_CHANGES)
    hindrance = Hindrance(found.hindrance)
    return Effect(
        *(found.taken, found.goes_down, found.comes_up, found.stays),
        *(bool(found.is_active), bool(found.is_done), hindrance, found.lanes),
        known(ModuleState, found.state) if hindrance == Hindrance.OTHER_STATE else None,
    )
