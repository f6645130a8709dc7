"""Why there is no answer: the faults that the program cmisctl prints too (docs/faults.md)."""
from __future__ import annotations

from typing import Any, Callable, Mapping, Tuple, Type, TypeVar, Union

from . import library
from .states import ModuleState, known

Value = Union[int, str]

_Kind = TypeVar("_Kind")
_MappingOf = TypeVar("_MappingOf", bound=Mapping[Any, Any])

# By the statuses of the library (include/dovecounter.h).
CODES = {
    11: "AD1",
    12: "AD2",
    13: "AD3",
    14: "AD4",
    15: "AD5",
    16: "AD6",
    21: "CT1",
    22: "CT2",
    23: "CT3",
    24: "CT4",
    42: "KP2",
    43: "KP3",
    51: "SM1",
    53: "SM3",
    54: "SM4",
    71: "RP1",
    74: "RP4",
    76: "RP6",
    83: "SF3",
    84: "SF4",
    85: "SF5",
    86: "SF6",
}

_STATUSES = {code: status for status, code in CODES.items()}

# The library reads no texts of images, so these are here, as in docs/faults.md; a test compares them.
_OF_IMAGES = {
    "IM1": (
        "the image does not begin with the line 'module-image 1': if it is a dump of a module, "
        "'tools/module-image FILE' makes an image of it"
    ),
    "IM2": (
        "the line is neither a page line nor 'end': write 'lower A0' or 'upper A0 BANK PAGE', a "
        "space and 256 hexadecimal digits in lower case, and nothing after them"
    ),
    "IM3": (
        "the key of the line is not above that of the line before: put page lines in the order of "
        "their keys, and each key once"
    ),
    "IM4": (
        "a 17th page line stands there, and an image has at most 16: leave out pages that the "
        "command does not need"
    ),
    "IM5": "the text ends before a line 'end', so it was cut off: make the image anew",
    "IM6": (
        "a line stands after 'end': delete it, or put a line '---' before it if another part of "
        "the input begins there"
    ),
    "IM7": (
        "a 65th page line stands there, and an image has at most 64: leave out pages that the "
        "command does not need"
    ),
}


def sentence_of(code: str) -> str:
    """What is wrong and what to do, in the library's words."""
    if code in _OF_IMAGES:
        return _OF_IMAGES[code]
    if code.startswith("PV"):
        return library.text("fault", int(code[2:]))
    if code.startswith("VR"):
        return library.text("verdict", int(code[2:]))
    return library.text("status", _STATUSES[code])


class Fault(Exception):
    """Why there is no answer. `code` and `values` are those of the program's line, as in `fault PV1
    3 5`: "PV1" and (3, 5), or "AD4" and ("upper A0 00 01",); `str` of the fault is what stands
    after the word `fault`. `sentence` says what is wrong and what to do."""

    def __init__(self, code: str, *values: Value) -> None:
        super().__init__(" ".join([code, *map(str, values)]))
        self.code = code
        self.values: Tuple[Value, ...] = values
        self.sentence = sentence_of(code)

    @classmethod
    def of_line(cls, line: str) -> Fault:
        """The fault that the program's line says."""
        _, code, *values = line.split()
        if all(value.isdigit() for value in values):
            return cls(code, *map(int, values))
        return cls(code, " ".join(values))

    def __reduce__(self) -> Tuple[object, ...]:
        return Fault, (self.code, *self.values)


class LeftModuleReady(Exception):
    """A procedure that waited has found the module in another state than ModuleReady: it was reset,
    or went to ModuleFault. It may hold any part of the change. `state` is where it is, and `str`
    says what to do."""

    def __init__(self, code: int, state: int) -> None:
        super().__init__(library.text("fault", code))
        self._code = code
        self.state: Union[ModuleState, int] = known(ModuleState, state)

    def __reduce__(self) -> Tuple[object, ...]:
        return LeftModuleReady, (self._code, int(self.state))


def look_at(what: str, number: int, most: int, least: int = 0) -> int:
    """The number; refuses one that ctypes would cut to size without a word."""
    if not isinstance(number, int) or isinstance(number, bool):
        raise TypeError(f"{what} is {number!r}, and no whole number")
    if not least <= number <= most:
        raise ValueError(f"{what} is {number}, and not from {least} to {most}")
    return number


def look_at_type(what: str, value: _Kind, kind: Type[_Kind]) -> _Kind:
    """The value; refuses one of another type."""
    if not isinstance(value, kind):
        raise TypeError(f"{what} is {value!r}, and no {kind.__name__}")
    return value


def look_at_mapping(what: str, values: _MappingOf) -> _MappingOf:
    """The mapping; refuses a list, say."""
    if not isinstance(values, Mapping):
        raise TypeError(f"{what} are {values!r}, and no mapping, such as a dict")
    return values


def look_at_choice(what: str, choice: bool) -> bool:
    """The choice; refuses a number, of which ctypes would take the last byte alone."""
    if not isinstance(choice, bool):
        raise TypeError(f"{what} is {choice!r}, and neither True nor False")
    return choice


def look_at_text(what: str, text: Union[str, bytes]) -> bytes:
    """The bytes of a text; refuses what is none, such as the name of a file as a path."""
    if isinstance(text, str):
        return text.encode("utf-8", "surrogateescape")
    if not isinstance(text, (bytes, bytearray)):
        raise TypeError(f"{what} is {text!r}, and no text")
    return bytes(text)


def look_at_bytes(what: str, data: bytes, count: int) -> bytes:
    """The bytes; refuses others than so many."""
    if not isinstance(data, (bytes, bytearray)):
        raise TypeError(f"{what} are {data!r}, and no bytes")
    if len(data) != count:
        raise ValueError(f"{what} are {len(data)} bytes, and not {count}")
    return bytes(data)


def first_refused(count: int, is_refused: Callable[[int], bool]) -> int:
    """The number of the thing, from 1 to `count`, for which the first things up to it are refused,
    and those before it aren't."""
    least, most = 1, count
    while least < most:
        middle = (least + most) // 2
        if is_refused(middle):
            most = middle
        else:
            least = middle + 1
    return least
