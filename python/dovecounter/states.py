"""The states of modules and of data paths, and what becomes of configurations (docs/states.md)."""
from __future__ import annotations

from enum import IntEnum
from typing import Type, TypeVar, Union


class ModuleState(IntEnum):
    """Of a module, by its code."""

    ModuleLowPwr = 1
    ModulePwrUp = 2
    ModuleReady = 3
    ModulePwrDn = 4
    ModuleFault = 5


class PathState(IntEnum):
    """Of a lane's data path, by its code."""

    DPDeactivated = 1
    DPInit = 2
    DPDeinit = 3
    DPActivated = 4
    DPTxTurnOn = 5
    DPTxTurnOff = 6
    DPInitialized = 7


class ConfigStatus(IntEnum):
    """What became of a lane's last configuration, by its code."""

    ConfigUndefined = 0
    ConfigSuccess = 1
    ConfigRejected = 2
    ConfigRejectedInvalidAppSel = 3
    ConfigRejectedInvalidDataPath = 4
    ConfigRejectedInvalidSI = 5
    ConfigRejectedLanesInUse = 6
    ConfigRejectedPartialDataPath = 7
    ConfigInProgress = 12


_State = TypeVar("_State", bound=IntEnum)


def known(states: Type[_State], code: int) -> Union[_State, int]:
    """The state of a code; the number itself if the standard reserves it, or leaves it to vendors."""
    try:
        return states(code)
    except ValueError:
        return code
