"""The declarations of ctypes against the headers: structures with the size and the place of each
member, functions with the types of what they take and answer, and numbers. What the package doesn't
use of the headers isn't declared."""
from __future__ import annotations

import ctypes
import enum
import os
import pathlib
import re
import shutil
import subprocess
from typing import Any, Dict, List, Tuple, Type

import pytest

from shared import ROOT
from dovecounter import (
    Family,
    Request,
    Side,
    Table,
    VdmRelease,
    VdmStatistics,
    capabilities,
    firmware,
    lanes,
    library,
    links,
    planning,
    port,
    procedures,
    reports,
    settings,
    simulated,
    states,
)
from dovecounter.faults import CODES

HEADERS = [ROOT / "include/dovecounter.h", ROOT / "include/dovecounter_reports.h"]
HEADER = re.sub(r"/\*.*?\*/", "", "".join(path.read_text() for path in HEADERS), flags=re.DOTALL)
COMPILER = os.environ.get("CC", "cc")
STRUCTURES: Dict[str, List[str]] = {
    name: re.findall(r"(\w+)(?:\[\w+\])?;", members)
    for name, members in re.findall(r"struct dovecounter_(\w+) \{(.*?)\n\};", HEADER, re.DOTALL)
}
STATUSES = {name: int(number) for name, number in re.findall(r"DOVECOUNTER_(\w+) = (\d+)", HEADER)}
PROTOTYPES = {
    name: (result, [" ".join(argument.split()) for argument in arguments.split(",")])
    for result, name, arguments in re.findall(
        r"^(\w+) dovecounter_(\w+)\((.*?)\);", HEADER, re.DOTALL | re.MULTILINE
    )
}
NUMBERS = {
    "void": None,
    "uint8_t": ctypes.c_uint8,
    "uint16_t": ctypes.c_uint16,
    "uint32_t": ctypes.c_uint32,
    "uint64_t": ctypes.c_uint64,
    "size_t": ctypes.c_size_t,
}


def structure(name: str) -> Any:
    return getattr(library, name.title().replace("_", ""))


def test_each_structure_has_the_layout_that_c_gives_it(tmp_path: pathlib.Path) -> None:
    if shutil.which(COMPILER) is None:
        pytest.skip("there is no C compiler")
    declared = {
        re.sub("(?<=[a-z])(?=[A-Z])", "_", name).lower()
        for name, found in vars(library).items()
        if isinstance(found, type(ctypes.Structure))
        and issubclass(found, ctypes.Structure)
        and found is not ctypes.Structure
    }
    assert declared <= set(STRUCTURES)
    wanted, prints = [], []
    for name in sorted(declared):
        found, members = structure(name), STRUCTURES[name]
        assert [member for member, _ in found._fields_] == members
        wanted.append(f"{name} {ctypes.sizeof(found)}")
        prints.append(f'printf("{name} %zu\\n", sizeof(struct dovecounter_{name}));')
        for member in members:
            place = getattr(found, member)
            wanted.append(f"{name}.{member} {place.offset} {place.size}")
            at = f"offsetof(struct dovecounter_{name}, {member}), sizeof ((struct dovecounter_{name} *)0)->{member}"
            prints.append(f'printf("{name}.{member} %zu %zu\\n", {at});')
    assert printed_by_c(tmp_path / "layout", "\n".join(prints)) == wanted


def printed_by_c(built: pathlib.Path, statements: str) -> List[str]:
    program = f"#include <dovecounter.h>\n#include <stdio.h>\nint main(void) {{\n{statements}\nreturn 0;\n}}\n"
    subprocess.run(
        [COMPILER, "-x", "c", f"-I{ROOT}/include", "-", "-o", built],
        input=program,
        text=True,
        check=True,
    )
    run = subprocess.run([built], capture_output=True, text=True, check=True)
    return run.stdout.splitlines()


def is_declared_as(found: Any, argument: str) -> bool:
    """Whether ctypes' type of an argument is that of the header's text."""
    of_structure = re.fullmatch(
        r"(?:const )?struct dovecounter_(\w+) (?:\*\w+|\w+\[\w+\])", argument
    )
    if of_structure:
        return bool(found == ctypes.POINTER(structure(of_structure.group(1))))
    of_numbers = re.fullmatch(r"(const )?(\w+) (?:\*\w+|\w+\[\w+\])", argument)
    if of_numbers:
        if found == ctypes.c_char_p:  # of bytes that are read alone
            return of_numbers.groups() == ("const ", "uint8_t")
        return bool(found == ctypes.POINTER(NUMBERS[of_numbers.group(2)]))  # type: ignore[arg-type]
    return bool(found == NUMBERS[argument.split()[0]])


def test_each_function_is_declared_as_in_the_header() -> None:
    assert set(library.FUNCTIONS) <= set(PROTOTYPES)
    for name, (answered, taken) in library.FUNCTIONS.items():
        result, arguments = PROTOTYPES[name]
        assert answered == NUMBERS[result], name
        assert len(taken) == len(arguments), name
        for found, argument in zip(taken, arguments):
            assert is_declared_as(found, argument), f"{name}: {argument}"
        library.function(name)
    weights, lanes = str(len(library.Weights())), str(len(library.Lanes()))
    assert set(re.findall(r"uint32_t \w+\[(\w+)\]", HEADER)) == {weights}
    assert set(re.findall(r"uint8_t (?:control|active)\[(\w+)\]", HEADER)) == {lanes}


def test_numbers_are_those_of_the_header() -> None:
    assert f"#define DOVECOUNTER_VERSION {library.VERSION}\n" in HEADER
    assert f"#define DOVECOUNTER_TEXT_SIZE {library.TEXT_SIZE}\n" in HEADER
    assert f"#define DOVECOUNTER_CERTIFICATE_SIZE {library.CERTIFICATE_SIZE}\n" in HEADER
    assert "#define DOVECOUNTER_UNBOUNDED UINT32_MAX\n" in HEADER
    assert library.UNBOUNDED == ctypes.c_uint32(-1).value
    for family in Family:
        assert STATUSES[family.name] == family
    for side in Side:
        assert STATUSES[f"SIDE_{side.name}"] == side
    tables = re.search(r"enum dovecounter_table \{(.*?)\}", HEADER, re.DOTALL)
    assert tables is not None
    numbered = re.findall(r"DOVECOUNTER_TABLE_(\w+) = (\d+)", tables[1])
    assert [(table.name, str(table.value)) for table in Table] == numbered
    assert (STATUSES["TOO_SMALL"], STATUSES["REPORT_FAULT"], STATUSES["NO_MEMORY"]) == (
        library._TOO_SMALL,
        library.REPORT_FAULT,
        library._NO_MEMORY,
    )
    requested = re.search(r"enum dovecounter_requested \{(.*?)\}", HEADER, re.DOTALL)
    assert requested is not None
    bits = {name: int(bit) for name, bit in re.findall(r"DOVECOUNTER_(\w+) = (\d+)", requested[1])}
    members = {name: member.value for name, member in Request.__members__.items()}
    assert members == {**bits, "EVERYTHING": sum(set(bits.values()))}
    named = re.findall(
        r"DOVECOUNTER_\w+ = (\d+),? */\* ((?:AD|CT|KP|SM|RP|SF)\d):",
        (ROOT / "include/dovecounter.h").read_text(),
    )
    assert {int(number): code for number, code in named} == CODES
    assert (STATUSES["DONE"], STATUSES["ENDED"], STATUSES["NO_REPLY"]) == (
        0,
        procedures._ENDED,
        procedures._NO_REPLY,
    )
    assert (STATUSES["STORE"], STATUSES["WAIT"]) == (procedures._STORE, procedures._WAIT)
    assert (STATUSES["GAVE_UP_WAITING"], STATUSES["OVERDUE"]) == (
        procedures._GAVE_UP_WAITING,
        procedures._OVERDUE,
    )
    assert (STATUSES["RESET"], STATUSES["FAULTY"]) == (procedures._RESET, procedures._FAULTY)
    outcomes = ("REFUSED", "STORED", "FETCHED", "WAITED")
    assert tuple(STATUSES[name] for name in outcomes) == (
        procedures._REFUSED,
        procedures._STORED,
        procedures._FETCHED,
        procedures._WAITED,
    )
    assert f"#define DOVECOUNTER_MOST_READ {library.MOST_READ}\n" in HEADER
    assert f"#define DOVECOUNTER_MOST_VDM {library.MOST_VDM}\n" in HEADER
    assert f"#define DOVECOUNTER_FIRST_INSTANCE {library.FIRST_INSTANCE}\n" in HEADER
    observation = (ROOT / "crates/observables/src/observation.rt").read_text()
    assert f"const MONITOR_PLACES: u16 = {library.FIRST_INSTANCE};\n" in observation
    for of_vdm in (*VdmStatistics, *VdmRelease):
        assert STATUSES[f"VDM_{of_vdm.name}"] == of_vdm.value
    left = re.search(r"enum dovecounter_left_reason \{(.*?)\}", HEADER, re.DOTALL)
    assert left is not None
    reasons = re.findall(r"DOVECOUNTER_LEFT_(\w+) = (\d+)", left[1])
    assert {int(number): name.lower().replace("_", " ") for name, number in reasons} == {
        number: name.replace("11h", "11") for number, name in port._LEFT.items()
    }
    assert (STATUSES["NO_RANGE"], STATUSES["NOT_TAKEN"]) == (
        simulated._NO_RANGE,
        simulated._NOT_TAKEN,
    )


# Each enumeration, that of the header, and what the names of its members have before them there.
ENUMERATIONS: List[Tuple[Type[enum.Enum], str, str]] = [
    (capabilities.Loopback, "link_loopback", ""),
    (capabilities.Pattern, "link_pattern", ""),
    (firmware.FirmwareFailure, "update_fault", "UPDATE_"),
    (firmware.FirmwareKnown, "update_known", "FIRMWARE_"),
    (lanes.LaneControl, "lane_control", ""),
    (lanes.LaneOutcome, "lane_outcome", "LANES_"),
    (links.LinkOutcome, "link_outcome", "LINK_"),
    (links.Shown, "link_shown", ""),
    (planning.Hindrance, "hindrance", ""),
    (port.Failure, "port_failure", "PORT_"),
    (port.Kind, "port_led_to", "PORT_"),
    (port.Note, "port_note", "PORT_"),
    (port.PortRequest, "request", "REQUEST_"),
    (port.Presence, "presence", ""),
    (port.Stage, "port_stage", "PORT_"),
    (reports.Support, "support", ""),
    (settings.SettingsOutcome, "settings_outcome", "SETTINGS_"),
    (states.ConfigStatus, "config_status", ""),
    (states.ModuleState, "module_state", ""),
    (states.PathState, "path_state", ""),
]
# Those of observables, which the package has by their names: the names of the core, in order from 1 on.
NAMES = {
    "quantity": "quantity_name",
    "figure": "figure_name",
    "unit": "unit_name",
}
# The header's names of units, by the signs that are shown.
SIGNS = {
    "percent": "%",
    "celsius": "C",
    "volts": "V",
    "milliamperes": "mA",
    "milliwatts": "mW",
    "dbm": "dBm",
    "decibels": "dB",
    "megahertz": "MHz",
    "picoseconds": "ps",
    "square-picoseconds": "ps^2",
    "picoseconds-per-nanometre": "ps/nm",
    "kiloradians-per-second": "krad/s",
}


@pytest.mark.parametrize("enumeration, function", NAMES.items())
def test_observables_have_the_numbers_of_their_names(enumeration: str, function: str) -> None:
    text = (ROOT / "crates/observables/src/names.rt").read_text()
    body = re.search(rf"\npub fn {function}\(.*?\n}}\n", text, re.DOTALL)
    listed = re.search(rf"enum dovecounter_{enumeration} \{{(.*?)\}}", HEADER, re.DOTALL)
    assert body is not None and listed is not None
    wanted = list(enumerate(re.findall(r'=> "(.+)",', body[0]), 1))
    found = re.findall(rf"DOVECOUNTER_{enumeration.upper()}_(\w+) = (\d+)", listed[1])
    names = [(int(number), name.lower().replace("_", "-")) for name, number in found]
    assert [(number, SIGNS.get(name, name)) for number, name in names] == wanted


def test_faults_of_procedures_have_the_numbers_of_their_codes() -> None:
    text = HEADERS[0].read_text()  # with its comments
    rows = re.findall(r"DOVECOUNTER_(\w+) = (\d+),? +/\* PV(\d)", text)
    assert len(rows) == 7 and all(number == code for _, number, code in rows)
    numbers = {name: int(number) for name, number, _ in rows}
    assert (numbers["NOT_STAGED"], numbers["NOT_ACTIVE"], numbers["RESERVED_CODE"]) == (2, 3, 7)


# What stands for nothing, which the package has as None, or not as a failure.
NOTHING = {"NO_LOOPBACK", "NO_PATTERN", "UPDATE_DONE"}


@pytest.mark.parametrize(
    "members, name, before", ENUMERATIONS, ids=lambda it: getattr(it, "__name__", "")
)
def test_members_have_the_numbers_of_the_header(members: Any, name: str, before: str) -> None:
    body = re.search(rf"enum dovecounter_{name} \{{(.*?)\}}", HEADER, re.DOTALL)
    assert body is not None
    numbers = re.findall(r"DOVECOUNTER_(\w+)\s*=\s*(\d+)", body[1])
    wanted = {
        it.replace("_PATTERN", "").replace("_", "").lower(): int(number)
        for it, number in numbers
        if it not in NOTHING
    }
    found = {(before + it.name).replace("_", "").lower(): it.value for it in members}
    assert found == wanted


def test_the_version_is_that_of_all_parts() -> None:
    version = re.search(
        r'concat!\("([\d.]+)"', (ROOT / "crates/notices/src/version.rt").read_text()
    )
    assert version is not None
    assert f'\nversion = "{version.group(1)}"\n' in (ROOT / "python/pyproject.toml").read_text()
