//! Names of codes.
use crate::tables::{self, Table};
use std::borrow::Cow;

fn known(names: &[&'static str], code: u8) -> Option<&'static str> {
    names.get(usize::from(code)).copied().filter(|name| !name.is_empty())
}

/// The name, or what a report says of a code that has none.
fn or_code(name: Option<&'static str>, code: u8) -> Cow<'static, str> {
    name.map_or_else(|| Cow::Owned(format!("reserved-{code}")), Cow::Borrowed)
}

const MODULE_STATES: [&str; 6] = ["", "ModuleLowPwr", "ModulePwrUp", "ModuleReady", "ModulePwrDn", "ModuleFault"];

const PATH_STATES: [&str; 8] =
    ["", "DPDeactivated", "DPInit", "DPDeinit", "DPActivated", "DPTxTurnOn", "DPTxTurnOff", "DPInitialized"];

const STATUSES: [&str; 16] = [
    "ConfigUndefined",
    "ConfigSuccess",
    "ConfigRejected",
    "ConfigRejectedInvalidAppSel",
    "ConfigRejectedInvalidDataPath",
    "ConfigRejectedInvalidSI",
    "ConfigRejectedLanesInUse",
    "ConfigRejectedPartialDataPath",
    "",
    "",
    "",
    "",
    "ConfigInProgress",
    "custom-13",
    "custom-14",
    "custom-15",
];

pub fn known_state(code: u8) -> Option<&'static str> {
    known(&MODULE_STATES, code)
}

pub fn known_path_state(code: u8) -> Option<&'static str> {
    known(&PATH_STATES, code)
}

pub fn known_status(code: u8) -> Option<&'static str> {
    known(&STATUSES, code)
}

pub fn state_name(code: u8) -> Cow<'static, str> {
    or_code(known_state(code), code)
}

pub fn path_state(code: u8) -> Cow<'static, str> {
    or_code(known_path_state(code), code)
}

pub fn status_name(code: u8) -> Cow<'static, str> {
    or_code(known_status(code), code)
}

/// The name of a code, or why it has none.
pub fn name_in(table: Table, code: u8) -> &'static str {
    table.iter().find(|(first, last, _)| (*first..=*last).contains(&code)).map_or("not listed", |(_, _, name)| name)
}

/// The table that names media interfaces of a kind of medium.
pub fn media_table(media_type: u8) -> Table {
    match media_type {
        1 => tables::MULTI_MODE_MEDIA,
        2 => tables::SINGLE_MODE_MEDIA,
        3 => tables::PASSIVE_COPPER,
        4 => tables::ACTIVE_CABLES,
        5 => tables::BASE_T_MEDIA,
        _ => &[],
    }
}
