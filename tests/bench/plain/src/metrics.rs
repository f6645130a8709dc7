//! Inventory, monitors and flags in Prometheus' text format.
use crate::fault::Fault;
use crate::image::Image;
use crate::names::{path_state, state_name, status_name};
use crate::reports::{flags, inventory, monitors, Flags, LEVELS};
use crate::rows::{Report, Unit, Value};
use std::fmt::{Display, Write};

/// The reports' metrics, as far as they can be made, and the first fault.
pub fn metrics(image: &Image) -> (String, Option<Fault>) {
    let mut out = String::new();
    let (inventory, monitors, flags) = (inventory(image), monitors(image), flags(image));
    write_info(&mut out, inventory.as_ref().ok());
    write_sums(&mut out, inventory.iter().chain(&monitors));
    for report in inventory.iter().chain(&monitors) {
        write_amounts(&mut out, report);
    }
    if let Ok(flags) = &flags {
        write_flags(&mut out, flags);
    }
    let fault = inventory.err().or(monitors.err()).or(flags.err());
    if let Some(fault) = &fault {
        head(&mut out, "dovecounter_fault", "what keeps a report from being made, by its code");
        writeln!(out, "dovecounter_fault{{code=\"{}\"}} 1", fault.code).unwrap();
    }
    (out, fault)
}

fn head(out: &mut String, name: &str, help: impl Display) {
    write!(out, "# HELP {name} {help}\n# TYPE {name} gauge\n").unwrap();
}

fn escaped(text: &str) -> String {
    text.replace('\\', "\\\\").replace('"', "\\\"")
}

fn write_info(out: &mut String, inventory: Option<&Report>) {
    const NAME: &str = "dovecounter_module_info";
    head(out, NAME, "what the module says that it is");
    let report = match inventory.map(Report::rows) {
            Some(report) => report,
            None => return,
        };
    let labels: Vec<String> = report
        .iter()
        .filter_map(|(name, value)| {
            let value = match value {
                Value::Word(word) => word.to_string(),
                Value::Code(code) => format!("{code:02X}h"),
                Value::Number(number) => number.to_string(),
                Value::Revision(byte) => format!("{}.{}", byte >> 4, byte & 15),
                Value::Text(text) => escaped(text),
                Value::Oui([first, second, third]) => format!("{first:02x}{second:02x}{third:02x}"),
                _ => return None,
            };
            Some(format!("{}=\"{value}\"", name.replace('-', "_")))
        })
        .collect();
    writeln!(out, "{NAME}{{{}}} 1", labels.join(",")).unwrap();
}

fn write_sums<'a>(out: &mut String, reports: impl Iterator<Item = &'a Report>) {
    const NAME: &str = "dovecounter_module_checksum_right";
    head(out, NAME, "whether a sum of the module's memory is right");
    for (name, value) in reports.flat_map(|report| report.rows()) {
        if let Value::Sum(right) = value {
            writeln!(out, "{NAME}{{sum=\"{name}\"}} {}", u8::from(*right)).unwrap();
        }
    }
}

/// The unit of which all others are powers of ten, and by how many thousandths stand below it.
fn base(unit: Unit) -> (&'static str, usize) {
    match unit {
        Unit::Celsius => ("celsius", 3),
        Unit::Millivolts => ("volts", 6),
        Unit::Microwatts => ("watts", 9),
        Unit::Milliamperes => ("amperes", 6),
        Unit::Watts => ("watts", 3),
        Unit::Meters => ("meters", 3),
        _ => unreachable!("no report of these has this unit"),
    }
}

/// A number of so many decimals, without zeros at its end.
fn decimal(amount: i64, places: usize) -> String {
    let size = amount.unsigned_abs();
    let one = 10u64.pow(places as u32);
    let text = format!("{}{}.{:0places$}", if amount < 0 { "-" } else { "" }, size / one, size % one);
    text.trim_end_matches('0').trim_end_matches('.').to_string()
}

fn write_amounts(out: &mut String, report: &Report) {
    for (name, value) in report.rows() {
        let (words, name) = (name.replace('-', " "), name.replace('-', "_"));
        match value {
            Value::Amount(amount, unit) => {
                let (unit, places) = base(*unit);
                let metric = format!("dovecounter_module_{name}_{unit}");
                head(out, &metric, format_args!("{words} of the module in {unit}"));
                writeln!(out, "{metric} {}", decimal(*amount, places)).unwrap();
            }
            Value::Lanes(amounts, unit) => {
                let (unit, places) = base(*unit);
                let metric = format!("dovecounter_lane_{name}_{unit}");
                head(out, &metric, format_args!("{words} of a lane in {unit}"));
                for (index, amount) in amounts.iter().enumerate() {
                    writeln!(out, "{metric}{{lane=\"{}\"}} {}", index + 1, decimal(*amount, places)).unwrap();
                }
            }
            Value::Limits(amounts, unit) => {
                let (unit, places) = base(*unit);
                let metric = format!("dovecounter_{name}_{unit}");
                head(out, &metric, format_args!("{words} in {unit}"));
                for (level, amount) in LEVELS.iter().zip(amounts) {
                    writeln!(out, "{metric}{{limit=\"{level}\"}} {}", decimal(*amount, places)).unwrap();
                }
            }
            _ => {}
        }
    }
}

fn write_flags(out: &mut String, flags: &Flags) {
    if let Some(state) = flags.state {
        head(out, "dovecounter_module_state", "state of the module, by its code");
        writeln!(out, "dovecounter_module_state{{state=\"{}\"}} {state}", state_name(state)).unwrap();
    }
    if !flags.lanes.is_empty() {
        head(out, "dovecounter_lane_data_path_state", "state of a lane's data path, by its code");
        for (index, (state, _)) in flags.lanes.iter().enumerate() {
            let name = path_state(*state);
            writeln!(out, "dovecounter_lane_data_path_state{{lane=\"{}\",state=\"{name}\"}} {state}", index + 1).unwrap();
        }
        head(out, "dovecounter_lane_config_status", "status of a lane's configuration, by its code");
        for (index, (_, status)) in flags.lanes.iter().enumerate() {
            let name = status_name(*status);
            writeln!(out, "dovecounter_lane_config_status{{lane=\"{}\",status=\"{name}\"}} {status}", index + 1).unwrap();
        }
    }
    for (whose, plural, of_lanes) in [("module", "the module", false), ("lane", "lanes", true)] {
        let raised = || flags.raised().filter(|flag| flag.lane.is_some() == of_lanes);
        let count = format!("dovecounter_{whose}_raised_flags");
        head(out, &count, format_args!("number of raised flags of {plural}"));
        writeln!(out, "{count} {}", raised().count()).unwrap();
        let metric = format!("dovecounter_{whose}_flag_raised");
        head(out, &metric, format_args!("whether a flag of {} is raised", if of_lanes { "a lane" } else { "the module" }));
        for flag in raised() {
            write!(out, "{metric}{{flag=\"").unwrap();
            flag.write_name(out);
            match flag.lane {
                Some(lane) => writeln!(out, "\",lane=\"{lane}\"}} 1").unwrap(),
                None => out.push_str("\"} 1\n"),
            }
        }
    }
}
