"""How records are shown: as members of JSON, as a table of a notebook, and a plan as a picture."""
from __future__ import annotations

from dataclasses import fields, is_dataclass
from enum import IntEnum
from html import escape
from typing import Any, Dict, Iterator, Sequence, Tuple


class Record:
    """A record whose members are known by their names."""

    def to_dict(self) -> Dict[str, Any]:
        """Its members, which json.dumps takes: a code with a name as that name, bytes in hexadecimal,
        a tuple as a list, a record as such a dictionary."""
        return {name: _plain(getattr(self, name)) for name in _members(self)}


class Report(Record):
    """A record that a notebook shows as a table."""

    def _repr_html_(self) -> str:
        rows = "".join(
            f"<tr><th>{escape(name)}</th><td>{escape(text)}</td></tr>"
            for name, text in _rows(self.to_dict())
        )
        return f"<table><caption>{type(self).__name__}</caption>{rows}</table>"


def _members(record: object) -> Iterator[str]:
    assert is_dataclass(record)
    return (member.name for member in fields(record))


def _plain(value: object) -> Any:
    if isinstance(value, IntEnum):
        return value.name
    if isinstance(value, bytes):
        return value.hex()
    if isinstance(value, (tuple, list)):
        return [_plain(one) for one in value]
    if is_dataclass(value):
        return {name: _plain(getattr(value, name)) for name in _members(value)}
    return value


def _rows(members: Dict[str, Any], of: str = "") -> Iterator[Tuple[str, str]]:
    """What a table says of members, those of a record under its name."""
    for name, value in members.items():
        name = f"{of}{name.replace('_', ' ')}"
        if isinstance(value, dict):
            yield from _rows(value, f"{name}, ")
        elif isinstance(value, list) and value and isinstance(value[0], dict):
            for number, one in enumerate(value, 1):
                yield from _rows(one, f"{name} {number}, ")
        elif value not in (None, []):
            yield name, " ".join(map(str, value)) if isinstance(value, list) else str(value)


_WIDTH, _HEIGHT = 64, 36  # of a lane


def picture(control: bytes, paths: Sequence[Tuple[int, int, int]]) -> str:
    """The host lanes with their control bytes, as SVG, and over them the data paths: of each its
    Application, its first host lane and its first media lane. A path has the lanes whose control
    byte names its Application and its first lane."""
    shapes = []
    for lane, byte in enumerate(control):
        shapes.append(_box(lane, 1, 1, "none", f"{lane + 1}: {byte:02x}"))
    for application, host, media in paths:
        lanes = [
            lane for lane, byte in enumerate(control) if byte >> 1 == application << 3 | host - 1
        ]
        text = f"app {application}, media {media}"
        shapes.append(_box(lanes[0], 0, len(lanes), "#d8e8f8", text))
    size = f"{8 * _WIDTH + 2} {2 * _HEIGHT + 2}"
    return (
        f'<svg xmlns="http://www.w3.org/2000/svg" viewBox="-1 -1 {size}" width="{8 * _WIDTH + 2}"'
        f' font-family="sans-serif" font-size="12" text-anchor="middle">{"".join(shapes)}</svg>'
    )


def _box(lane: int, row: int, lanes: int, fill: str, text: str) -> str:
    left, top, width = lane * _WIDTH, row * _HEIGHT, lanes * _WIDTH
    return (
        f'<rect x="{left}" y="{top}" width="{width}" height="{_HEIGHT}" fill="{fill}"'
        f' stroke="#444"/><text x="{left + width // 2}" y="{top + 22}">{text}</text>'
    )
