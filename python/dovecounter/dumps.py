"""Dumps of a module's memory, as other tools make them, and the halves that they hold (docs/formats.md, "Dumps").

It needs nothing of this package, and no library: tools/module-image is a script over it too. A half is named as the line of an image
begins that holds it, such as `lower A0` or `upper A0 00 11`."""
from __future__ import annotations

import re
from typing import (
    Callable,
    Dict,
    List,
    Mapping,
    NamedTuple,
    Optional,
    Pattern,
    Sequence,
    Tuple,
    Union,
)

HALF = 128  # bytes
MOST_BYTES = (
    1 << 22
)  # of a dump; that of all pages of eight banks by hexdump -C has a third of them
MOST_CHARACTERS = 1000  # of a line; one of Intel hex has 521
MOST_HALVES = 64  # of an image
VERSIONS = {"module-image 1": 16, "module-image 2": MOST_HALVES}
"""how many halves an image's text has at most, by its first line"""
BANKS = (1, 2, 4, 1)
"""how many banks of eight lanes a module has, by the code on page 01h, of which the last one is reserved"""

BYTE = "[0-9a-fA-F]{2}"

Halves = Dict[str, bytes]
Row = List[Optional[int]]
"""bytes that follow one another, which are None if they were not read"""
Content = Union[Row, Halves]
Lines = Sequence[Tuple[int, str]]
"""lines of text, each with its number, without spaces at its ends; empty ones are left out"""
Remark = Callable[[str], None]
"""what is done with a sentence on a dump that is read all the same"""


class Refused(ValueError):
    """Why a dump gives no image, in a sentence."""


class Dump(NamedTuple):
    """A dump whose form is known."""

    form: str
    content: Content


def _quoted(line: str) -> str:
    return f"'{line if len(line) <= 60 else line[:60] + '..'}'"


def _listed(words: Sequence[str]) -> str:
    return " and ".join(filter(None, [", ".join(words[:-1]), words[-1]]))


# Halves, by the words that begin their lines in an image.


def upper(page: int, bank: int = 0, device: str = "A0") -> str:
    """The words for a page."""
    return f"upper {device} {bank:02x} {page:02x}"


def order(key: str) -> Tuple[str, str, List[str]]:
    """By what an image orders its halves: by device, the lower half first, by bank, by page."""
    half, device, *place = key.split()
    return device, half, place


# Families of modules, by the standard that says what is where.


class Family(NamedTuple):
    """What is read of the modules of a standard."""

    identifiers: Sequence[int]
    """those of SFF-8024"""
    halves: Mapping[str, Sequence[str]]
    """the halves besides lower A0, each with the commands of cmisctl that need it"""
    flat: int = 0
    """the bit of byte 2 that is 1 if the memory has page 00h alone"""
    has_banks: bool = False
    """whether byte 126 selects a bank, and byte 142 of page 01h advertises others and VDM"""

    @property
    def has_a2(self) -> bool:
        """Whether A0 has one page, and A2 the diagnostics, if byte 92 says that there are any."""
        return "lower A2" in self.halves


REPORTS = ("inventory", "monitors", "flags", "details", "metrics")
PROVISIONING = ("provision", "trace")
PLANNING = ("apps", "plan", "check", "draw", *PROVISIONING)
EIGHT_LANES = (0x18, 0x19)  # of CMIS, and there are plans for them alone
DETAILS_ALONE = (0x1B, *range(0x1F, 0x26))  # of CMIS, and no other command reads them

FAMILIES = {
    "CMIS": Family(
        (*EIGHT_LANES, 0x1E, *DETAILS_ALONE),
        {
            upper(0x00): ("inventory", "details", "metrics", *PLANNING),
            upper(0x01): ("monitors", "details", "metrics", *PLANNING),
            upper(0x02): ("monitors", "metrics"),
            upper(0x10): PROVISIONING,
            upper(0x11): ("monitors", "flags", "details", "metrics", *PROVISIONING),
        },
        flat=0x80,
        has_banks=True,
    ),
    "SFF-8636": Family(
        (0x0C, 0x0D, 0x11),
        {upper(0x00): ("inventory", "details", "metrics"), upper(0x03): ("monitors", "metrics")},
        flat=0x04,
    ),
    "SFF-8472": Family((0x03,), {"lower A2": ("monitors", "flags", "details", "metrics")}),
}
_UNKNOWN = Family((), {})


def family_of(identifier: int) -> Family:
    """The family of modules with this identifier; one without halves if they are not read."""
    return next((it for it in FAMILIES.values() if identifier in it.identifiers), _UNKNOWN)


def is_known(identifier: int) -> bool:
    """Whether modules with this identifier are read."""
    return family_of(identifier) is not _UNKNOWN


def is_flat(lower: bytes) -> bool:
    """Whether the memory has page 00h alone."""
    return bool(lower[2] & family_of(lower[0]).flat)


def shows_page_00h(lower: bytes) -> bool:
    """Whether page 00h is behind this half, since no other page is selected or can be."""
    return lower[127] == 0 or is_flat(lower) or family_of(lower[0]).has_a2


def wanted(lower: bytes) -> Dict[str, List[str]]:
    """The halves that are read of a module besides this one, each with the commands of cmisctl that need it."""
    halves, reading = family_of(lower[0]).halves, _commands_for(lower)
    keys = [upper(0x00)] if is_flat(lower) else list(halves)
    return {key: [command for command in halves[key] if command in reading] for key in keys}


def _commands_for(lower: bytes) -> Sequence[str]:
    """The commands for which more than this half is read."""
    if lower[0] in DETAILS_ALONE:
        return ("details",)
    if family_of(lower[0]).has_a2 and not lower[92] & 0x40:
        return ()
    return REPORTS if is_flat(lower) or lower[0] not in EIGHT_LANES else REPORTS + PLANNING


def with_observables(halves: Mapping[str, bytes], bank: int = 0) -> List[str]:
    """The halves of the observables that a CMIS module lists itself (VDM) in a bank, as far as those tell that are known already: page
    01h whether there are any, page 2Fh of the bank how many groups there are."""
    lower, advert = halves["lower A0"], halves.get(upper(0x01))
    control = halves.get(upper(0x2F, bank))
    if not family_of(lower[0]).has_banks or is_flat(lower) or advert is None:
        return []
    if not advert[142 - HALF] & 0x40:
        return []
    if control is None:
        return [upper(0x2F, bank)]
    groups = range(control[0] % 4 + 1)
    described = [upper(first + group, bank) for first in (0x20, 0x28, 0x24) for group in groups]
    return [upper(0x2F, bank), *described, upper(0x2C, bank)]


def of_further_banks(halves: Mapping[str, bytes]) -> List[str]:
    """The halves of the lanes above 8, as far as those tell that are known already: page 01h how many banks a CMIS module has."""
    lower, advert = halves["lower A0"], halves.get(upper(0x01))
    if not family_of(lower[0]).has_banks or is_flat(lower) or advert is None:
        return []
    return [upper(0x11, bank) for bank in range(1, BANKS[advert[142 - HALF] & 3])]


def banks_of(halves: Mapping[str, bytes]) -> List[int]:
    """The banks that are there: bank 0, and each further one of which these have the lanes."""
    of_banks = of_further_banks(halves)
    return [0, *(bank for bank, key in enumerate(of_banks, 1) if key in halves)]


def image_text(halves: Mapping[str, bytes]) -> str:
    """The text of an image with these halves, in the first version that has room for them."""
    header = next(line for line, most in VERSIONS.items() if len(halves) <= most)
    lines = [f"{key} {halves[key].hex()}" for key in sorted(halves, key=order)]
    return "\n".join([header, *lines, "end", ""])


# Bytes in a row: what dumps have that name no pages.


def key_in_row(identifier: int, number: int) -> Optional[str]:
    """The half of this number in a row, from 0 on; None for one that an image has no place for."""
    if family_of(identifier).has_a2:
        first = ["lower A0", upper(0x00), "lower A2"]
        page, device = number - len(first), "A2"
    else:
        first = ["lower A0"]
        page, device = number - len(first), "A0"
    if page < 0:
        return first[number]
    return upper(page, device=device) if page <= 0xFF else None


def _whole(cells: Row) -> Optional[bytes]:
    """The bytes, if all were read."""
    read = [cell for cell in cells if cell is not None]
    return bytes(read) if len(read) == len(cells) else None


def _halves_of_row(row: Row, shows_selection: bool, remark: Remark) -> Halves:
    """`shows_selection`: the upper half of 256 bytes is the page that was selected."""
    if len(row) % HALF != 0:
        raise Refused(
            f"it has {len(row)} bytes, which are no halves of {HALF} bytes: it is cut off, or no dump of a module"
        )
    pieces = [row[start : start + HALF] for start in range(0, len(row), HALF)]
    lower = _whole(pieces[0])
    if lower is None:
        raise Refused(
            f"{pieces[0].count(None)} bytes of lower A0 were not read (is a module in the port?)"
        )
    keys = [key_in_row(lower[0], number) for number in range(len(pieces))]
    if len(pieces) == 2:
        keys[1] = _key_of_upper(lower, shows_selection, remark)
    halves: Halves = {}
    for key, piece in zip(keys, pieces):
        half = _whole(piece)
        if key and half is None:
            remark(f"{key} is left out: {piece.count(None)} of its bytes were not read")
        elif key and half is not None:
            halves[key] = half
    return halves


def _key_of_upper(lower: bytes, shows_selection: bool, remark: Remark) -> Optional[str]:
    """Which half the upper one of 256 bytes is, or None if these don't tell."""
    page = lower[127]
    bank = lower[126] if family_of(lower[0]).has_banks and page >= 0x10 else 0
    if shows_page_00h(lower):
        return upper(0x00)
    selected = upper(page, bank)
    if not shows_selection:
        remark(
            f"the upper half is left out: byte 127 of the lower one says that it is {selected}, and the dump may be made by pages"
        )
        return None
    remark(f"its upper half is {selected}, which was selected when it was read")
    return selected


# Lines of text.


def _line_refused(number: int, line: str, why: str) -> Refused:
    return Refused(f"line {number}: {why}: {_quoted(line)}")


def _characters_for(cell: Optional[int], pattern: Pattern[str]) -> str:
    """What may be there for a byte in the column of characters."""
    if cell is None:
        return "X "
    if 0x20 <= cell <= 0x7E:
        return chr(cell)
    if pattern is not _I2CDUMP_LINE:
        return "."
    return ".?" if cell in (0x00, 0xFF) else "?"


def _check_characters(number: int, cells: Row, characters: str, pattern: Pattern[str]) -> None:
    """Refuses a line whose column of characters is not that of its bytes."""
    for cell, character in zip(cells, characters):
        if character not in _characters_for(cell, pattern):
            digits = "XX" if cell is None else f"{cell:02x}"
            raise Refused(
                f"line {number}: its digits and its characters differ: {digits} and {_quoted(character)}"
            )


_HEXDUMP_LINE = re.compile(rf"([0-9a-f]{{8}}) {{1,2}}((?:{BYTE} {{1,2}}){{16}})\|(.{{16}})\|")
_XXD_LINE = re.compile(
    rf"([0-9a-f]{{7,8}}): ((?:(?:{BYTE}){{2}} ){{8}}|(?:{BYTE} ){{16}}) (.{{16}}) *"
)
_ETHTOOL_LINE = re.compile(rf"0x([0-9a-f]{{4,}}):\s+((?:{BYTE} ){{15}}{BYTE})()")
_I2CDUMP_LINE = re.compile(rf"([0-9a-f]0): ((?:(?:{BYTE}|XX|  ) ){{16}})   (.{{16}}) *")
_END_OF_HEXDUMP = re.compile("([0-9a-f]{8})()()")


def _cells_of(number: int, line: str, *patterns: Pattern[str]) -> Tuple[int, Row]:
    """The address and the bytes of a line, by the first pattern that it has."""
    padded = line + " " * 18  # what may have been lost at the end of a column of characters
    found = next(
        filter(None, (pattern.fullmatch(text) for pattern in patterns for text in (line, padded))),
        None,
    )
    if found is None:
        raise _line_refused(number, line, "no whole line of sixteen bytes")
    address, digits, characters = found.groups()
    cells: Row
    if "X" in digits or "   " in digits:
        cells = [
            None if cell in ("XX", "  ") else int(cell, 16) for cell in re.findall("(..) ", digits)
        ]
    else:
        cells = list(bytes.fromhex(digits))
    if characters:
        _check_characters(number, cells, characters, found.re)
    return int(address, 16), cells


def _address_refused(number: int, address: int, next_address: int) -> Refused:
    return Refused(
        f"line {number}: its address is {address:04x}h, and {next_address:04x}h comes next"
    )


def _row_of(lines: Lines, *patterns: Pattern[str], start: int = 0) -> Row:
    """The bytes of lines whose addresses follow one another from `start` on."""
    row: Row = []
    for number, line in lines:
        address, cells = _cells_of(number, line, *patterns)
        if address != start + len(row):
            raise _address_refused(number, address, start + len(row))
        row += cells
    return row


def _row_with_stars(lines: Lines, *patterns: Pattern[str]) -> Row:
    """The same from 0 on, where a line `*` is for copies of the line before it, and an address alone for the end."""
    row: Row = []
    star: Optional[int] = None
    is_ended = False
    for number, line in lines:
        if is_ended:
            raise _line_refused(number, line, "it stands after the end address")
        if line == "*":
            if star or not row:
                raise _line_refused(number, line, "no line stands before it that it could repeat")
            star = number
            continue
        address, cells = _cells_of(number, line, *patterns)
        if star:
            row += _copies(row, address, number)
        if address != len(row):
            raise _address_refused(number, address, len(row))
        row += cells
        star, is_ended = None, not cells
    if star:
        raise Refused(
            f"line {star}: no address says how often the line before is repeated: the dump is cut off"
        )
    return row


def _copies(row: Row, address: int, number: int) -> Row:
    """What a `*` behind this row is for, if the next address is this one."""
    repeated = address - len(row)
    if repeated <= 0 or repeated % 16 != 0 or address > MOST_BYTES:
        raise Refused(
            f"line {number}: a line of {len(row) - 16:04x}h can't be repeated up to {address:04x}h"
        )
    return row[-16:] * (repeated // 16)


# The forms: a parser each, from lines to a row of bytes, or to halves.


def _hexdump(lines: Lines) -> Row:
    return _row_with_stars(lines, _HEXDUMP_LINE, _END_OF_HEXDUMP)


def _xxd(lines: Lines) -> Row:
    return _row_with_stars(lines, _XXD_LINE)


def _ethtool_hex(lines: Lines) -> Row:
    (number, line), *rest = lines[1:] or [(1, "")]
    if not re.fullmatch(r"-+\s+-+", line):
        raise _line_refused(number, line, "the line under 'Offset' and 'Values' is another")
    return _row_of(rest, _ETHTOOL_LINE)


def _i2cdump(lines: Lines) -> Row:
    return _row_of(lines[1:], _I2CDUMP_LINE)


_SFPUTIL_TITLE = re.compile(r"EEPROM hexdump for port (\S+)( page [0-9a-f]+h)?")
_SFPUTIL_HEADING = re.compile(
    r"(Lower page 0h)|(A0h dump)|(A2h dump \(lower 128 bytes\))"
    r"|Upper page ([0-9a-f]{1,2})h|A2h dump \(upper 128 bytes\)(?: page ([0-9a-f]{1,2})h)?"
)


class _Section(NamedTuple):
    """What is under a heading of sfputil: its line, the halves that it announces, their first address, and the lines."""

    number: int
    line: str
    keys: List[str]
    start: int
    lines: List[Tuple[int, str]]


def _sfputil(lines: Lines) -> Halves:
    sections: List[_Section] = []
    for number, line in lines[1:]:
        heading = _SFPUTIL_HEADING.fullmatch(line)
        if _SFPUTIL_TITLE.fullmatch(line):
            raise _line_refused(number, line, "another port begins, and wanted is one ('-p PORT')")
        if heading:
            sections.append(_Section(number, line, *_of_heading(*heading.groups()), []))
        elif sections:
            sections[-1].lines.append((number, line))
        else:
            raise _line_refused(number, line, "it stands under no heading of a page")
    halves: Halves = {}
    for section in sections:
        _add_section(halves, section)
    return halves


def _add_section(halves: Halves, section: _Section) -> None:
    row = _row_of(section.lines, _HEXDUMP_LINE, start=section.start)
    if len(row) != HALF * len(section.keys):
        why = f"{len(row)} bytes stand under this heading, and it is one of {HALF * len(section.keys)}"
        raise _line_refused(section.number, section.line, why)
    for place, key in enumerate(section.keys):
        if key in halves:
            raise Refused(f"line {section.number}: {key} stands there a second time")
        halves[key] = bytes(
            cell for cell in row[HALF * place : HALF * (place + 1)] if cell is not None
        )


def _of_heading(
    lower_a0: Optional[str],
    whole_a0: Optional[str],
    lower_a2: Optional[str],
    page: Optional[str],
    page_of_a2: Optional[str],
) -> Tuple[List[str], int]:
    """The halves under a heading, and the first address."""
    if lower_a0:
        return ["lower A0"], 0
    if whole_a0:
        return ["lower A0", upper(0x00)], 0
    if lower_a2:
        return ["lower A2"], 0
    if page:
        return [upper(int(page, 16))], HALF
    return [upper(int(page_of_a2 or "0", 16), device="A2")], HALF


def _intel_hex(lines: Lines) -> Row:
    memory: Dict[int, int] = {}
    base, is_ended = 0, False
    for number, line in lines:
        if is_ended:
            raise _line_refused(number, line, "it stands after the end record")
        offset, kind, data = _intel_hex_record(number, line)
        if kind == 0:
            for address, byte in enumerate(data, base + offset):
                if address in memory:
                    raise Refused(
                        f"line {number}: address {address:04x}h stands there a second time"
                    )
                memory[address] = byte
        elif kind == 1:
            is_ended = True
        elif kind in (2, 4):
            base = int.from_bytes(data, "big") << (4 if kind == 2 else 16)
    if not is_ended:
        raise Refused("it has no end record: it is cut off")
    absent = next((address for address in range(len(memory)) if address not in memory), None)
    if absent is not None:
        raise Refused(f"address {absent:04x}h is absent, and higher ones are not")
    return [memory[address] for address in range(len(memory))]


_SIZES_OF_RECORDS = {1: 0, 2: 2, 3: 4, 4: 2, 5: 4}  # by kind; data, of kind 0, have any


def _intel_hex_record(number: int, line: str) -> Tuple[int, int, bytes]:
    """The offset, the kind and the data of a record: data, end, segment, start, upper address, start."""
    if not re.fullmatch(f":(?:{BYTE}){{5,}}", line):
        raise _line_refused(number, line, "no record of Intel hex")
    record = bytes.fromhex(line[1:])
    size, kind, data = record[0], record[3], record[4:-1]
    if size != len(data) or sum(record) % 256 != 0:
        raise _line_refused(number, line, "its number of bytes or its sum is wrong")
    if kind != 0 and _SIZES_OF_RECORDS.get(kind) != size:
        raise _line_refused(number, line, "no record of a known kind")
    return int.from_bytes(record[1:3], "big"), kind, data


def _image(lines: Lines) -> Halves:
    halves: Halves = {}
    for number, line in lines[1:-1]:
        found = re.fullmatch(
            f"(lower A[02]|upper A[02] {BYTE} {BYTE}) ((?:{BYTE}){{{HALF}}})", line
        )
        if not found:
            raise _line_refused(number, line, "no page line of an image")
        words = found.group(1)
        key = words[:8] + words[8:].lower()
        if halves and order(key) <= order(list(halves)[-1]):
            raise Refused(f"line {number}: {key} does not come after {list(halves)[-1]}")
        halves[key] = bytes.fromhex(found.group(2))
    if lines[-1][1] != "end" or len(lines) < 2:
        raise Refused("its last line is not 'end': it is cut off, or more than an image")
    header = lines[0][1]
    if len(halves) > VERSIONS[header]:
        raise Refused(f"it has {len(halves)} page lines, and '{header}' {VERSIONS[header]} at most")
    return halves


EEPROM, IMAGE, I2CDUMP = "an eeprom file", "an image text", "the output of i2cdump"
# By the beginning of the first line: what the form is called, and its parser.
_FORMS: List[Tuple[str, str, Callable[[Lines], Content]]] = [
    (IMAGE, "module-image [12]$", _image),
    ("Intel hex", ":", _intel_hex),
    ("the hex dump of ethtool", r"Offset\s+Values", _ethtool_hex),
    (I2CDUMP, r"0( +[1-9a-f]){15} +0123456789abcdef", _i2cdump),
    ("the hex dump of sfputil", "EEPROM hexdump for port ", _sfputil),
    ("the output of xxd", "[0-9a-f]{7,8}: ", _xxd),
    ("the output of hexdump -C", "[0-9a-f]{8}  ?[0-9a-fA-F]{2} ", _hexdump),
]
# By that of what is no dump: what to do then. Each expression takes time in proportion to the line.
_OTHERS = [
    (
        r"[0-9a-f]{7,8} +[0-9a-f]{4,6}\b",
        "it has words of two bytes, in an order that it doesn't tell: use hexdump -C",
    ),
    (r"0,8 +1,9", "it has words of two bytes: use i2cdump without the mode w"),
    (
        r"Identifier\s*:",
        "it is what ethtool says of a module, and not its bytes: use ethtool -m PORT hex on",
    ),
]


_OF_TEXT = b"\t\n\r" + bytes(range(0x20, 0x7F))


def _is_text(data: bytes) -> bool:
    return not data.translate(None, _OF_TEXT)


def _says_nothing_is_there(line: str) -> bool:
    """Whether the line says that something is not detected, not present, or that there is no such thing."""
    found = re.search(r"(?i)\b(not|no) ", line)
    return (
        found is not None
        and re.search("(?i)detected|present|such", line[found.end() :]) is not None
    )


def _form_of(first: str) -> Tuple[str, Callable[[Lines], Content]]:
    for name, beginning, parser in _FORMS:
        if re.match(beginning, first):
            return name, parser
    for beginning, sentence in _OTHERS:
        if re.match(beginning, first):
            raise Refused(f"{sentence}; it begins with {_quoted(first)}")
    if _says_nothing_is_there(first):
        raise Refused(
            f"it has no bytes of a module (is a module in the port?); it begins with {_quoted(first)}"
        )
    raise Refused(
        f"it has no form that is known, and begins with {_quoted(first)} (module-image --help names the forms)"
    )


def parsed(data: bytes) -> Dump:
    """The dump that these bytes are, in one of the forms, which its contents tell."""
    if not _is_text(data):
        return Dump(EEPROM, list(data))
    lines = [
        (number, line.strip()) for number, line in enumerate(data.decode("ascii").split("\n"), 1)
    ]
    lines = [(number, line) for number, line in lines if line]
    if lines and lines[0][1].startswith("No size specified"):  # a remark of i2cdump
        del lines[0]
    if not lines:
        raise Refused("it is empty")
    name, parser = _form_of(lines[0][1])
    for number, line in lines:
        if len(line) > MOST_CHARACTERS:
            raise _line_refused(number, line, f"it has more than {MOST_CHARACTERS} characters")
    content = parser(lines)
    if not content:
        raise Refused(f"it is {name} without bytes: it is cut off")
    return Dump(name, content)


def halves_of(dump: Dump, remark: Remark) -> Halves:
    """The halves of a dump."""
    form, content = dump
    first = content.get("lower A0", [None])[0] if isinstance(content, dict) else content[0]
    if first is not None and not is_known(first):
        no_text = "it is no text, and " if form == EEPROM else ""
        raise Refused(
            f"{no_text}its first byte is {first:02x}h, the identifier of no module that cmisctl knows"
        )
    if isinstance(content, dict):
        return content
    if form == EEPROM and len(content) == HALF:
        remark(
            "it is taken for lower A0; of another half, such as ethtool gives by 'offset' or 'page', no image can be made"
        )
    return _halves_of_row(content, form == I2CDUMP, remark)


def half_of_a2(dump: Dump, lower_a0: bytes) -> bytes:
    """The lower half of A2, of a dump of that device alone."""
    form, row = dump
    if isinstance(row, dict):
        raise Refused(f"it is {form}, and a second file is a dump of the device 51h alone")
    half = _whole(row[:HALF])
    if len(row) not in (HALF, 2 * HALF) or half is None:
        raise Refused(
            f"{len(row)} bytes, of which {row.count(None)} were not read, are no dump of the device 51h alone"
        )
    if half == lower_a0:
        raise Refused(
            "it has the same bytes as the first file, and wanted is a dump of the device 51h"
        )
    return half


def image_halves(form: str, halves: Mapping[str, bytes], remark: Remark) -> Halves:
    """Those of a dump's halves that an image has, of which A0's lower one is there; with a remark for each that is absent."""
    lower = halves["lower A0"]
    needed = wanted(lower)
    listed = [key for bank in banks_of(halves) for key in with_observables(halves, bank)]
    needed.update({key: ["observables"] for key in [*of_further_banks(halves), *listed]})
    copy = halves.get(upper(0x00), lower)[0]
    if upper(0x00) in needed and copy != lower[0]:
        remark(
            f"page 00h begins with {copy:02x}h, and should with the identifier, {lower[0]:02x}h: are all bytes in their places?"
        )
    kept = {
        key: half
        for key, half in halves.items()
        if form == IMAGE or key == "lower A0" or key in needed
    }
    for key, commands in needed.items():
        if key not in kept and commands:
            remark(f"{key} is not there, and {_listed(commands)} will lack it")
    return kept
