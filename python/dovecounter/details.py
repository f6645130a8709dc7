"""All that a module has about itself (docs/details.md)."""
from __future__ import annotations

import json
from typing import Any, Dict, Iterator, Mapping, Tuple, Union

from .showing import Report

Detail = Union[bool, int, float, str, Tuple[str, ...]]

_FORM = 1  # docs/formats.md, "JSON"


class Details(Report, Mapping[str, Detail]):
    """A mapping with a member for each line of `cmisctl details`, named as in its JSON: `connector` and
    `connector_name`, or `temperature_c`. A number with a fraction is a float, such as of dBm, and
    `-inf` there a word; several names are a tuple. What the module doesn't have has no member."""

    def __init__(self, members: Mapping[str, Detail]) -> None:
        self._members = dict(members)

    def __getitem__(self, name: str) -> Detail:
        return self._members[name]

    def __iter__(self) -> Iterator[str]:
        return iter(self._members)

    def __len__(self) -> int:
        return len(self._members)

    def __repr__(self) -> str:
        return f"Details({self._members})"

    def to_dict(self) -> Dict[str, Any]:
        """Its members, which json.dumps takes: a tuple as a list."""
        return {
            name: list(value) if isinstance(value, tuple) else value
            for name, value in self._members.items()
        }


def details_of(text: bytes) -> Details:
    """What the library's JSON says."""
    members: Dict[str, Any] = json.loads(text)
    if members.pop("dovecounter", None) != _FORM:
        raise AssertionError("the library's JSON has another form than this package reads")
    return Details(
        {
            name: tuple(value) if isinstance(value, list) else value
            for name, value in members.items()
        }
    )
