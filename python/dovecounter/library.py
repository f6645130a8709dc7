"""The library for C (the headers in include) as ctypes sees it: its structures, its functions, and
where it is.

Each name is a header's without `dovecounter_`; a test compares them all. ctypes cuts a number to
the size of its place without a word, so the rest of the package looks at each number before it
comes here."""
from __future__ import annotations

import ctypes
import os
import pathlib
from ctypes import (
    POINTER,
    Structure,
    byref,
    c_char,
    c_char_p,
    c_int8,
    c_int64,
    c_size_t,
    c_uint8,
    c_uint16,
    c_uint32,
    c_uint64,
)
from typing import Any, Callable, Dict, List, Tuple

VERSION = 7  # DOVECOUNTER_VERSION
TEXT_SIZE = 256  # DOVECOUNTER_TEXT_SIZE
CERTIFICATE_SIZE = 74046  # DOVECOUNTER_CERTIFICATE_SIZE
UNBOUNDED = 2**32 - 1  # DOVECOUNTER_UNBOUNDED
MOST_READ = 5  # DOVECOUNTER_MOST_READ
MOST_VDM = 15  # DOVECOUNTER_MOST_VDM
FIRST_INSTANCE = 512  # DOVECOUNTER_FIRST_INSTANCE
_TOO_SMALL, REPORT_FAULT, _NO_MEMORY = 4, 5, 6  # statuses of reports
_REPORT_SIZE = 2**15  # which most reports fit
FILE = f"libdovecounter.so.{VERSION}"

Lanes = c_uint8 * 8
Weights = c_uint32 * 256


def _members(size: Any, names: str) -> List[Tuple[str, Any]]:
    """Members of one size, by their names with spaces between them."""
    return [(name, size) for name in names.split()]


class Half(Structure):
    _fields_ = [*_members(c_uint8, "device upper bank page"), ("bytes", c_uint8 * 128)]


class Application(Structure):
    _fields_ = [
        *_members(c_uint8, "number host_id media_id host_lanes media_lanes"),
        *_members(c_uint8, "host_starts media_starts"),
    ]


class Advertisement(Structure):
    _fields_ = [*_members(c_uint8, "count unsupported"), ("applications", Application * 15)]


class Identity(Structure):
    _fields_ = [
        *_members(c_int64, "max_power length"),
        *_members(c_uint8, "family identifier revision flat media_type power_class connector"),
        *_members(c_uint8, "technology sum_base sum_ext"),
        ("oui", c_uint8 * 3),
        *_members(c_char * 17, "vendor part part_revision serial date"),
    ]


class Levels(Structure):
    _fields_ = _members(c_uint8, "high_alarm low_alarm high_warning low_warning")


class Flags(Structure):
    _fields_ = [
        *_members(c_uint8, "family lanes state"),
        *_members(Lanes, "path_states statuses"),
        *_members(c_uint8, "path_state_changed tx_fault tx_los tx_lol tx_eq_fail rx_los rx_lol"),
        *_members(Levels, "temperature vcc tx_power tx_bias rx_power"),
    ]


class Limits(Structure):
    _fields_ = _members(c_int64, "high_alarm low_alarm high_warning low_warning")


class Value(Structure):
    _fields_ = [("value", c_int64), ("limits", Limits)]


class LaneValues(Structure):
    _fields_ = [("values", c_int64 * 8), ("limits", Limits), ("support", c_uint8)]


class Monitors(Structure):
    _fields_ = [
        *_members(Value, "temperature vcc"),
        *_members(LaneValues, "tx_power tx_bias rx_power"),
        *_members(c_uint8, "family lanes has_limits sum"),
    ]


class Amount(Structure):
    _fields_ = [
        ("mantissa", c_int64),
        ("divisor", c_uint16),
        ("exponent", c_int8),
        ("is_known", c_uint8),
    ]


class Amounts(Structure):
    _fields_ = _members(Amount, "high_alarm low_alarm high_warning low_warning")


class Observable(Structure):
    _fields_ = [
        ("amount", Amount),
        ("limits", Amounts),
        *_members(c_uint8, "quantity figure side scope lane unit advertised has_flags"),
        ("flags", Levels),
        *_members(c_char * 28, "quantity_name figure_name scope_name unit_name"),
    ]


class Durations(Structure):
    _fields_ = [
        *_members(c_uint32, "module_power_up module_power_down path_init path_deinit"),
        *_members(c_uint32, "path_tx_turn_on path_tx_turn_off"),
    ]


class Path(Structure):
    _fields_ = _members(c_uint8, "application host media")


class Plan(Structure):
    _fields_ = [
        ("weight", c_uint64),
        *_members(c_uint8, "count lanes outside"),
        ("control", Lanes),
        ("paths", Path * 8),
    ]


class Judgement(Structure):
    _fields_ = [("reason", c_uint8), ("number", c_uint64)]


class Change(Structure):
    _fields_ = [
        ("control", Lanes),
        *_members(c_uint8, "lanes outside spares activates wakes"),
        *_members(c_uint8, "may_take_down may_bring_up may_have_no_path"),
    ]


class Effect(Structure):
    _fields_ = _members(
        c_uint8, "taken goes_down comes_up stays is_active is_done hindrance lanes state"
    )


class Fault(Structure):
    _fields_ = _members(c_uint8, "code first second")


class Progress(Structure):
    _fields_ = [
        ("met", c_uint64),
        ("steps", c_uint16),
        *_members(c_uint8, "work lanes"),
        ("control", Lanes),
        ("selection", c_uint8),
        ("page", c_uint16),
        ("fault", Fault),
        ("due", c_uint8),
        *_members(c_uint32, "idle pause limit"),
    ]


class Patience(Structure):
    _fields_ = [*_members(c_uint32, "pause limit"), ("trusts", c_uint8)]


class Conversation(Structure):
    _fields_ = [
        ("magic", c_uint32),
        ("saved", Progress),
        *_members(c_uint8, "doubts taken"),
        ("taken_page", c_uint16),
        *_members(c_uint8, "watches look"),
        ("left", Fault),
        *_members(c_uint8, "halves piece read"),
        ("part", c_uint8 * 128),
    ]


class Operation(Structure):
    _fields_ = [
        ("milliseconds", c_uint32),
        *_members(c_uint8, "kind device offset count"),
        ("bytes", c_uint8 * 8),
    ]


class Ending(Structure):
    _fields_ = [("steps", c_uint16), ("fault", Fault)]


class CommandBlock(Structure):
    _fields_ = [
        ("max_busy_time", c_uint32),
        *_members(c_uint8, "instances background_mode auto_paging epl_pages length_extension"),
    ]


class UpdateDurations(Structure):
    _fields_ = _members(c_uint32, "start abort block complete")


class UpdateStage(Structure):
    _fields_ = [("address", c_uint32), *_members(c_uint8, "stage header old")]


class UpdateDelivery(Structure):
    _fields_ = [
        ("idle", c_uint32),
        ("steps", c_uint16),
        *_members(c_uint8, "phase at check due selection"),
        ("page", c_uint16),
        ("taken", c_uint8),
        ("taken_page", c_uint16),
        *_members(c_uint8, "outcome status count"),
        ("reply", c_uint8 * 128),
    ]


class Update(Structure):
    _fields_ = [
        *_members(c_uint32, "magic size"),
        ("durations", UpdateDurations),
        ("stage", UpdateStage),
        ("password", c_uint32),
        *_members(c_uint8, "work held tries fault status closing"),
        ("delivery", UpdateDelivery),
    ]


class UpdateEnding(Structure):
    _fields_ = [*_members(c_uint8, "fault status known count"), ("reply", c_uint8 * 128)]


class UpdateProgress(Structure):
    _fields_ = [*_members(c_uint32, "sent all"), ("known", c_uint8)]


class Bank(Structure):
    _fields_ = [
        ("build", c_uint16),
        *_members(c_uint8, "runs committed valid has_version major minor"),
    ]


class Banks(Structure):
    _fields_ = [("banks", Bank * 2), *_members(c_uint8, "running committed")]


class LaneChange(Structure):
    _fields_ = [
        *_members(c_uint8, "control lanes on most_stores permitted"),
        ("media_paths", Lanes),
    ]


class ChangingLanes(Structure):
    _fields_ = [
        *_members(c_uint32, "magic idle pause limit"),
        *_members(c_uint16, "steps most_steps"),
        ("change", LaneChange),
        *_members(c_uint8, "stage end byte disturbed left refused due doubts"),
        ("selection", c_uint8),
        ("page", c_uint16),
        ("taken", c_uint8),
        ("taken_page", c_uint16),
    ]


class LaneEnd(Structure):
    _fields_ = _members(c_uint8, "outcome byte lanes stores")


Advertised = c_uint8 * 12


class LinkPlan(Structure):
    _fields_ = [
        ("period", c_uint32),
        *_members(c_uint8, "rounds shown gate side lanes generator checker loopback looped"),
        *_members(c_uint8, "permitted tries"),
        ("media_paths", Lanes),
    ]


class LinkSwitch(Structure):
    _fields_ = _members(c_uint8, "control mask bits")


class LinkChange(Structure):
    _fields_ = [("what", LinkSwitch), ("original", c_uint8)]


class LinkWork(Structure):
    _fields_ = [
        ("period", c_uint32),
        *_members(c_uint8, "count permitted tries shown rounds"),
        ("media_paths", Lanes),
        ("switches", LinkSwitch * 16),
    ]


class LinkTest(Structure):
    _fields_ = [
        *_members(c_uint32, "magic idle pause limit"),
        ("plan", LinkWork),
        ("next_switch", c_uint64),
        *_members(c_uint16, "steps most_steps"),
        *_members(c_uint8, "stage byte"),
        ("hand", LinkChange),
        *_members(c_uint8, "tries rounds fault fault_control on_count still_on_count shown_count"),
        *_members(c_uint8, "due doubts selection"),
        ("page", c_uint16),
        ("taken", c_uint8),
        ("taken_page", c_uint16),
        ("flags", Lanes),
        ("on", LinkChange * 16),
        ("still_on", LinkChange * 16),
        ("shown", c_uint8 * 128),
    ]


class LinkEnd(Structure):
    _fields_ = _members(c_uint8, "outcome control")


class LinkChanges(Structure):
    _fields_ = [("changes", LinkChange * 33), ("count", c_uint8)]


class LinkLane(Structure):
    _fields_ = [
        *_members(c_uint64, "errors bits"),
        *_members(c_uint16, "mantissa noise"),
        ("power", c_int8),
        ("known", c_uint8),
    ]


class LinkResults(Structure):
    _fields_ = [
        ("host", LinkLane * 8),
        ("media", LinkLane * 8),
        *_members(c_uint8, "lost_clock host_generator media_generator host_checker media_checker"),
    ]


class LinkCapabilities(Structure):
    _fields_ = [
        *_members(c_uint16, "host_generator media_generator host_checker media_checker"),
        *_members(c_uint8, "diagnostics loopbacks single_host_lanes single_media_lanes both_sides"),
        *_members(c_uint8, "ratios counts host_noise media_noise gates"),
    ]


class SignalTargets(Structure):
    _fields_ = [
        ("adaptive", c_uint8),
        *_members(Lanes, "recall fixed_input"),
        *_members(c_uint8, "recover_tx recover_rx"),
        *_members(Lanes, "pre_cursor post_cursor amplitude"),
    ]


class Settings(Structure):
    _fields_ = [*_members(SignalTargets, "active staged"), ("has_staged", c_uint8)]


class SettingsLimits(Structure):
    _fields_ = _members(c_uint8, "amplitudes fixed_input pre_cursor post_cursor")


class SettingsChange(Structure):
    _fields_ = [*_members(c_uint8, "lanes permitted tries"), ("targets", SignalTargets)]


class ChangingSettings(Structure):
    _fields_ = [
        *_members(c_uint32, "magic idle pause limit"),
        *_members(c_uint16, "steps most_steps"),
        *_members(c_uint8, "lanes tries stage end end_lane left due doubts"),
        ("selection", c_uint8),
        ("page", c_uint16),
        ("taken", c_uint8),
        ("taken_page", c_uint16),
        ("settings", c_uint8 * 21),
        ("staged", c_uint8 * 29),
        ("mixed", c_uint8 * 21),
    ]


class SettingsEnd(Structure):
    _fields_ = _members(c_uint8, "outcome lane reached")


class ExplicitFault(Structure):
    _fields_ = [*_members(c_uint8, "kind lane"), ("provision", Fault)]


class ExplicitStage(Structure):
    _fields_ = [*_members(c_uint8, "stage left"), ("fault", ExplicitFault)]


class Explicit(Structure):
    _fields_ = [
        ("magic", c_uint32),
        ("procedure", Progress),
        *_members(ExplicitStage, "staging comparing"),
        *_members(c_uint8, "look left lanes tries"),
        *_members(c_uint8 * 21, "settings mixed"),
    ]


class ExplicitEnd(Structure):
    _fields_ = [("steps", c_uint16), ("fault", Fault), *_members(c_uint8, "settings lane")]


class Vdm(Structure):
    _fields_ = [
        *_members(c_uint32, "magic pause"),
        ("left", c_uint16),
        *_members(c_uint8, "stage bank"),
        *_members(c_uint16, "stage_page page"),
        *_members(c_uint8, "selection due control statistics release halves"),
        *_members(c_uint8, "page_count todo_count"),
        *_members(c_uint16 * 16, "pages todo"),
    ]


class VdmEnd(Structure):
    _fields_ = [
        *_members(c_uint8, "statistics release missing_count"),
        ("missing", c_uint16 * 16),
    ]


class Times(Structure):
    _fields_ = _members(c_uint32, "settle period first most recheck")


class Left(Structure):
    _fields_ = _members(c_uint8, "reason value device upper bank page")


class LaneCodes(Structure):
    _fields_ = [("last", c_uint64 * 8), ("changes", c_uint16 * 8), ("codes", Lanes)]


class FlagCounts(Structure):
    _fields_ = [
        ("module_counts", c_uint16 * 32),
        ("module_last", c_uint64 * 32),
        ("lane_counts", c_uint16 * 152),
        ("lane_last", c_uint64 * 152),
        *_members(LaneCodes, "states statuses"),
    ]


class BankCounts(Structure):
    _fields_ = [
        ("lane_counts", c_uint16 * 152),
        ("lane_last", c_uint64 * 152),
        *_members(LaneCodes, "states statuses"),
    ]


class Goal(Structure):
    _fields_ = [("control", Lanes), *_members(c_uint8, "lanes outside")]


class Work(Structure):
    _fields_ = [
        ("saved", Progress),
        ("most", c_uint16),
        *_members(c_uint8, "woken doubts taken"),
        ("taken_page", c_uint16),
        *_members(c_uint8, "stage found"),
    ]


class Port(Structure):
    _fields_ = [
        ("flags", FlagCounts),
        *_members(c_uint64, "due recheck_at silent_since"),
        ("work", Work),
        ("times", Times),
        *_members(c_uint32, "magic back_off refusals"),
        ("half_count", c_uint16),
        *_members(c_uint8, "stage held outstanding vain selection"),
        ("page", c_uint16),
        ("goal", Goal),
        ("left", Left),
        *_members(c_uint8, "request request_lanes identifier apply_refused"),
        ("spare", c_uint8 * 4),
        ("halves", Half * MOST_READ),
    ]


class PortNext(Structure):
    _fields_ = [
        ("moment", c_uint64),
        *_members(c_uint8, "kind whole upper bank page"),
        ("operation", Operation),
    ]


class Wanted(Structure):
    _fields_ = [
        ("weights", Weights),
        ("stay", c_uint32),
        *_members(c_uint8, "paired counts_by_id most_power may_take_down"),
    ]


class PortOutcome(Structure):
    _fields_ = [
        ("moment", c_uint64),
        *_members(c_uint8, "kind note failure"),
        ("fault", Fault),
        ("left", Left),
    ]


class Delays(Structure):
    _fields_ = _members(c_uint16, "apply init turn_on turn_off deinit power_up power_down")


class Lane(Structure):
    _fields_ = [
        ("left", c_uint16),
        *_members(c_uint8, "path status custom staged active keeps kept"),
    ]


class Module(Structure):
    _fields_ = [
        ("delays", Delays),
        *_members(c_uint16, "left apply_left"),
        *_members(c_uint8, "bank page waiting pin control state deinit module_flags"),
        ("lane_flags", c_uint8 * 19),
        ("lanes", Lane * 8),
    ]


_HALVES = (POINTER(Half), c_size_t)
_BYTES = (c_char_p, c_size_t)  # that are read
_BUFFER = (POINTER(c_uint8), c_size_t)  # that is written
_CONTROL = POINTER(c_uint8)
_WEIGHTS = POINTER(c_uint32)
_BEGUN = (POINTER(Patience), POINTER(Conversation))
_WRITTEN = (*_BUFFER, POINTER(c_size_t))  # a text and its length
_TEXT = (c_uint32, (c_uint32, *_WRITTEN))

# What each function answers, and what it takes.
FUNCTIONS: Dict[str, Tuple[Any, Tuple[Any, ...]]] = {
    "status_text": _TEXT,
    "fault_text": _TEXT,
    "verdict_text": _TEXT,
    "code_name": (c_uint32, (c_uint32, c_uint8, *_WRITTEN)),
    "media_name": (c_uint32, (c_uint8, c_uint8, *_WRITTEN)),
    "details": (c_uint32, (*_BYTES, *_WRITTEN)),
    "metrics": (c_uint32, (*_BYTES, c_uint8, *_WRITTEN)),
    "advertisement": (c_uint32, (*_HALVES, c_uint8, POINTER(Advertisement))),
    "identity": (c_uint32, (*_HALVES, POINTER(Identity))),
    "flags": (c_uint32, (*_HALVES, POINTER(Flags))),
    "monitors": (c_uint32, (*_HALVES, POINTER(Monitors))),
    "observables": (c_uint32, (*_HALVES, POINTER(c_uint16), POINTER(Observable))),
    "durations": (c_uint32, (*_HALVES, POINTER(Durations))),
    "plan": (
        c_uint32,
        (*_HALVES, c_uint8, c_uint8, _WEIGHTS, c_uint32, POINTER(Path), c_size_t, POINTER(Plan)),
    ),
    "check": (
        c_uint32,
        (*_HALVES, c_uint8, c_uint8, _WEIGHTS, c_uint32, *_BYTES, POINTER(Judgement)),
    ),
    "certificate": (
        c_uint32,
        (
            *(*_HALVES, c_uint8, c_uint8, _WEIGHTS, c_uint32, POINTER(Path), c_size_t),
            *(POINTER(c_uint8), c_size_t, POINTER(c_size_t)),
        ),
    ),
    "weights": (c_uint32, (*_BYTES, _WEIGHTS, POINTER(c_size_t))),
    "judge": (c_uint32, (*_HALVES, POINTER(Change), POINTER(Effect))),
    "patience": (c_uint32, (*_HALVES, POINTER(Patience))),
    "provision_begin": (None, (_CONTROL, c_uint8, *_BEGUN)),
    "activate_begin": (None, (_CONTROL, c_uint8, *_BEGUN)),
    "wake_begin": (None, _BEGUN),
    "sleep_begin": (None, _BEGUN),
    "read_some_begin": (c_uint32, (c_uint8, c_uint8, *_BEGUN)),
    "further_banks": (c_uint32, (*_HALVES, POINTER(c_uint8))),
    "next": (c_uint32, (POINTER(Conversation), POINTER(Half), POINTER(Operation))),
    "reply": (c_uint32, (POINTER(Conversation), POINTER(Half), c_uint8, *_BYTES)),
    "end": (c_uint32, (POINTER(Conversation), POINTER(Half), POINTER(Ending))),
    "command_block": (None, (c_char_p, POINTER(CommandBlock))),
    "update_begin": (None, (c_uint32, c_uint8, POINTER(Update))),
    "banks_begin": (None, (POINTER(Update),)),
    "commit_begin": (None, (POINTER(Update),)),
    "abort_begin": (None, (POINTER(Update),)),
    "password_begin": (None, (c_uint32, POINTER(Update))),
    "update_next": (c_uint32, (POINTER(Update), *_BYTES, POINTER(Operation))),
    "update_reply": (c_uint32, (POINTER(Update), *_BYTES, c_uint8, *_BYTES)),
    "update_end": (c_uint32, (POINTER(Update), *_BYTES, POINTER(UpdateEnding))),
    "update_progress": (c_uint32, (POINTER(Update), *_BYTES, POINTER(UpdateProgress))),
    "banks": (None, (*_BYTES, POINTER(Banks))),
    "lane_begin": (c_uint32, (POINTER(LaneChange), POINTER(Patience), POINTER(ChangingLanes))),
    "lane_next": (c_uint32, (POINTER(ChangingLanes), POINTER(Operation))),
    "lane_reply": (c_uint32, (POINTER(ChangingLanes), c_uint8, *_BYTES)),
    "lane_end": (c_uint32, (POINTER(ChangingLanes), POINTER(LaneEnd))),
    "link_test_begin": (c_uint32, (POINTER(LinkPlan), POINTER(Patience), POINTER(LinkTest))),
    "link_test_next": (c_uint32, (POINTER(LinkTest), POINTER(Operation))),
    "link_test_reply": (c_uint32, (POINTER(LinkTest), c_uint8, *_BYTES)),
    "link_test_stop": (c_uint32, (POINTER(LinkTest),)),
    "link_test_end": (c_uint32, (POINTER(LinkTest), POINTER(LinkEnd))),
    "link_test_changes": (c_uint32, (POINTER(LinkTest), POINTER(LinkChanges))),
    "link_results": (c_uint32, (POINTER(LinkTest), c_uint8, POINTER(LinkResults))),
    "link_capabilities": (None, (c_uint8, POINTER(c_uint8), POINTER(LinkCapabilities))),
    "settings": (c_uint32, (*_HALVES, POINTER(Settings))),
    "settings_limits": (c_uint32, (*_HALVES, POINTER(SettingsLimits))),
    "settings_begin": (
        c_uint32,
        tuple(map(POINTER, (SettingsChange, SettingsLimits, Patience, ChangingSettings))),
    ),
    "settings_next": (c_uint32, (POINTER(ChangingSettings), POINTER(Operation))),
    "settings_reply": (c_uint32, (POINTER(ChangingSettings), c_uint8, *_BYTES)),
    "settings_end": (c_uint32, (POINTER(ChangingSettings), POINTER(SettingsEnd))),
    "explicit_begin": (
        c_uint32,
        (
            *(_CONTROL, c_uint8, POINTER(SettingsChange), POINTER(SettingsLimits)),
            *(POINTER(Patience), POINTER(Explicit)),
        ),
    ),
    "explicit_next": (c_uint32, (POINTER(Explicit), POINTER(Operation))),
    "explicit_reply": (c_uint32, (POINTER(Explicit), c_uint8, *_BYTES)),
    "explicit_end": (c_uint32, (POINTER(Explicit), POINTER(ExplicitEnd))),
    "vdm_begin": (None, (c_uint32, c_uint8, POINTER(Vdm))),
    "vdm_next": (c_uint32, (POINTER(Vdm), POINTER(Half), POINTER(Operation))),
    "vdm_reply": (c_uint32, (POINTER(Vdm), POINTER(Half), c_uint8, *_BYTES)),
    "vdm_end": (c_uint32, (POINTER(Vdm), POINTER(Half), POINTER(VdmEnd))),
    "port_new": (None, (POINTER(Times), POINTER(Port))),
    "port_plug": (c_uint32, (POINTER(Port), c_uint64)),
    "port_pull": (c_uint32, (POINTER(Port),)),
    "port_reconsider": (c_uint32, (POINTER(Port),)),
    "port_hold": (c_uint32, (POINTER(Port), c_uint8)),
    "port_request": (c_uint32, (POINTER(Port), c_uint8, c_uint8)),
    "port_hear": (c_uint32, (POINTER(Port), c_uint8, c_uint64, c_uint64, POINTER(c_uint8))),
    "port_acknowledge": (c_uint32, (POINTER(Port), c_uint64)),
    "port_next": (c_uint32, (POINTER(Port), c_uint64, POINTER(PortNext))),
    "port_take": (
        c_uint32,
        (POINTER(Port), c_uint8, *_BYTES, POINTER(Wanted), c_uint64, POINTER(PortOutcome)),
    ),
    "bank_count": (c_uint32, (POINTER(BankCounts), POINTER(Half), c_uint64)),
    "bank_acknowledge": (None, (POINTER(BankCounts), c_uint64)),
    "module_begin": (c_uint32, (*_HALVES, POINTER(Delays), POINTER(Module))),
    "module_fetch": (c_uint32, (*_HALVES, POINTER(Module), c_uint8, c_uint8, *_BUFFER)),
    "module_store": (c_uint32, (*_HALVES, POINTER(Module), c_uint8, c_uint8, *_BYTES)),
    "module_tick": (c_uint32, (POINTER(Module),)),
    "module_pin": (c_uint32, (POINTER(Module), c_uint8)),
    "module_active": (c_uint32, (POINTER(Module), _CONTROL)),
}


def _opened() -> ctypes.CDLL:
    """The library that DOVECOUNTER_LIBRARY names, else the one beside this file, else the one that
    the system finds."""
    beside = pathlib.Path(__file__).with_name(FILE)
    name = os.environ.get("DOVECOUNTER_LIBRARY") or (str(beside) if beside.exists() else FILE)
    if pathlib.Path(name).resolve().name != FILE:
        raise ImportError(f"DOVECOUNTER_LIBRARY names {name}, and this package needs {FILE}")
    try:
        return ctypes.CDLL(name)
    except OSError as error:
        raise ImportError(
            f"{error}: build the library by tools/build-shared-library, install it by"
            " tools/install, or name its file in DOVECOUNTER_LIBRARY"
        ) from error


_SHARED = _opened()


def function(name: str) -> Callable[..., Any]:
    """A function of the header, by its name without `dovecounter_`."""
    try:
        found = getattr(_SHARED, f"dovecounter_{name}")
    except AttributeError as error:
        raise ImportError(
            f"{_SHARED._name} has no dovecounter_{name}, so it is of another version than this"
            f" package, which needs {VERSION}: build the library again by"
            " tools/build-shared-library, or name another in DOVECOUNTER_LIBRARY"
        ) from error
    found.restype, found.argtypes = FUNCTIONS[name]
    return found  # type: ignore[no-any-return]


class Calls:
    """The functions that go on with one kind of procedure, by what their names begin with."""

    def __init__(self, kind: str) -> None:
        self.next = function(f"{kind}next")
        self.reply = function(f"{kind}reply")
        self.end = function(f"{kind}end")


def expect_done(status: int) -> None:
    """Raises AssertionError for a status that no caller of this package can bring about."""
    if status:
        raise AssertionError(f"the library answered status {status}")


def text(kind: str, number: int) -> str:
    """What the library says of a number: of a status, of a fault of procedures, or of the reason of
    a verdict."""
    return _short_text(f"{kind}_text", number)


def name(kind: str, table: int, code: int) -> str:
    """What the library calls a code: of a table, or a medium by its media type."""
    return _short_text(f"{kind}_name", table, code)


def _short_text(call: str, *numbers: int) -> str:
    buffer, length = (c_uint8 * TEXT_SIZE)(), c_size_t()
    status = function(call)(*numbers, buffer, TEXT_SIZE, byref(length))
    if status:
        raise AssertionError(f"the library has no {call} of {numbers}")
    return bytes(buffer[: length.value]).decode("ascii")


def report(call: str, image: bytes, *numbers: int) -> Tuple[int, bytes]:
    """The status and the text of a report of an image that is given as a text."""
    size, length = c_size_t(0), c_size_t(_REPORT_SIZE)
    status = _TOO_SMALL
    while status == _TOO_SMALL:
        size.value = length.value
        buffer = (c_uint8 * size.value)()
        arguments = (image, len(image), *numbers, buffer, size.value, byref(length))
        status = function(call)(*arguments)
    if status == _NO_MEMORY:
        raise MemoryError(f"there is no memory for the {call}")
    return status, bytes(buffer[: length.value])
