//! Reports: lines of a name and a value, as text or as the members of a JSON object.
use serde::ser::{Serialize, SerializeMap, Serializer};
use serde_json::value::RawValue;
use std::borrow::Cow;
use std::fmt::{self, Display, Write};

#[derive(Clone, Copy, PartialEq)]
pub enum Unit {
    Celsius,
    Millivolts,
    Microwatts,
    Milliamperes,
    Watts,
    Meters,
    Kilometers,
    Nanometers,
    Decibels,
    Percent,
    Gigabaud,
}

impl Unit {
    pub fn name(self) -> &'static str {
        match self {
            Unit::Celsius => "C",
            Unit::Millivolts => "mV",
            Unit::Microwatts => "uW",
            Unit::Milliamperes => "mA",
            Unit::Watts => "W",
            Unit::Meters => "m",
            Unit::Kilometers => "km",
            Unit::Nanometers => "nm",
            Unit::Decibels => "dB",
            Unit::Percent => "%",
            Unit::Gigabaud => "GBd",
        }
    }
}

/// Thousandths, with three decimals.
#[derive(Clone, Copy)]
pub struct Thousandths(pub i64);

impl Display for Thousandths {
    fn fmt(&self, f: &mut fmt::Formatter) -> fmt::Result {
        let (sign, size) = (if self.0 < 0 { "-" } else { "" }, self.0.unsigned_abs());
        write!(f, "{sign}{}.{:03}", size / 1000, size % 1000)
    }
}

impl Serialize for Thousandths {
    fn serialize<S: Serializer>(&self, serializer: S) -> Result<S::Ok, S::Error> {
        raw(self.to_string()).serialize(serializer)
    }
}

/// A number that is written as it stands.
pub fn raw(number: String) -> Box<RawValue> {
    RawValue::from_string(number).expect("a number")
}

pub enum Value {
    Word(&'static str),
    Code(u8),
    Number(u64),
    Revision(u8),
    Text(String),
    Oui([u8; 3]),
    Amount(i64, Unit),
    Lanes(Vec<i64>, Unit),
    Limits(Vec<i64>, Unit),
    Sum(bool),
    /// A code with its name, or what is said in its place.
    Named(u8, &'static str),
    /// A code with its name if it has one, and what a line says of it.
    State(u8, Option<&'static str>, Cow<'static, str>),
    Yes(bool),
    Names(Vec<&'static str>),
    Version(u8, u8),
    /// Powers in tenths of a microwatt, shown in dBm and in milliwatts.
    Level(u16),
    Milliwatts(u16),
}

/// A level in dBm, rounded down to hundredths.
struct Decibels(u16);

impl Display for Decibels {
    fn fmt(&self, f: &mut fmt::Formatter) -> fmt::Result {
        if self.0 == 0 {
            return f.write_str("-inf");
        }
        let level = (f64::from(self.0).log10() * 1000.0).floor() as i32 - 4000;
        let (sign, size) = (if level < 0 { "-" } else { "" }, level.abs());
        write!(f, "{sign}{}.{:02}", size / 100, size % 100)
    }
}

/// Milliwatts with four decimals.
struct TenThousandths(u16);

impl Display for TenThousandths {
    fn fmt(&self, f: &mut fmt::Formatter) -> fmt::Result {
        write!(f, "{}.{:04}", self.0 / 10_000, self.0 % 10_000)
    }
}

pub struct Report(Vec<(Cow<'static, str>, Value)>);

impl Report {
    pub fn new() -> Report {
        Report(Vec::new())
    }

    pub fn push(&mut self, name: impl Into<Cow<'static, str>>, value: Value) {
        self.0.push((name.into(), value));
    }

    pub fn rows(&self) -> &[(Cow<'static, str>, Value)] {
        &self.0
    }

    pub fn text(&self) -> String {
        let mut out = String::new();
        for (name, value) in &self.0 {
            write_row(&mut out, name, value).unwrap();
        }
        out
    }
}

fn write_row(out: &mut String, name: &str, value: &Value) -> fmt::Result {
    match value {
        Value::Word(word) => writeln!(out, "{name} {word}"),
        Value::Code(code) => writeln!(out, "{name} {code:02X}h"),
        Value::Number(number) => writeln!(out, "{name} {number}"),
        Value::Revision(byte) => writeln!(out, "{name} {}.{}", byte >> 4, byte & 15),
        Value::Text(text) => writeln!(out, "{name} {text}"),
        Value::Oui([first, second, third]) => writeln!(out, "{name} {first:02x}{second:02x}{third:02x}"),
        Value::Amount(amount, unit) => writeln!(out, "{name} {} {}", Thousandths(*amount), unit.name()),
        Value::Lanes(amounts, unit) => {
            for (index, amount) in amounts.iter().enumerate() {
                writeln!(out, "{name} {} {} {}", index + 1, Thousandths(*amount), unit.name())?;
            }
            Ok(())
        }
        Value::Limits(amounts, _) => {
            out.push_str(name);
            for amount in amounts {
                write!(out, " {}", Thousandths(*amount))?;
            }
            out.push('\n');
            Ok(())
        }
        Value::Sum(right) => writeln!(out, "{name} {}", if *right { "right" } else { "wrong" }),
        Value::Named(code, text) => writeln!(out, "{name} {code:02X}h \"{text}\""),
        Value::State(_, _, text) => writeln!(out, "{name} {text}"),
        Value::Yes(yes) => writeln!(out, "{name} {}", if *yes { "yes" } else { "no" }),
        Value::Names(names) => {
            out.push_str(name);
            for text in names {
                write!(out, " \"{text}\"")?;
            }
            out.push('\n');
            Ok(())
        }
        Value::Version(major, minor) => writeln!(out, "{name} {major}.{minor}"),
        Value::Level(power) => writeln!(out, "{name} {} dBm", Decibels(*power)),
        Value::Milliwatts(power) => writeln!(out, "{name} {} mW", TenThousandths(*power)),
    }
}

struct Limits<'a>(&'a [i64]);

impl Serialize for Limits<'_> {
    fn serialize<S: Serializer>(&self, serializer: S) -> Result<S::Ok, S::Error> {
        let names = ["high_alarm", "low_alarm", "high_warning", "low_warning"];
        serializer.collect_map(names.iter().zip(self.0.iter().map(|amount| Thousandths(*amount))))
    }
}

impl Serialize for Report {
    fn serialize<S: Serializer>(&self, serializer: S) -> Result<S::Ok, S::Error> {
        let mut map = serializer.serialize_map(None)?;
        map.serialize_entry("dovecounter", &1)?;
        for (name, value) in &self.0 {
            let name = name.replace('-', "_");
            let with_unit = |unit: &Unit| match unit {
                Unit::Percent => format!("{name}_percent"),
                _ => format!("{name}_{}", unit.name().to_lowercase()),
            };
            match value {
                Value::Word(word) => map.serialize_entry(&name, word)?,
                Value::Code(code) => map.serialize_entry(&name, code)?,
                Value::Number(number) => map.serialize_entry(&name, number)?,
                Value::Revision(byte) => map.serialize_entry(&name, &format!("{}.{}", byte >> 4, byte & 15))?,
                Value::Text(text) => map.serialize_entry(&name, text)?,
                Value::Oui([first, second, third]) => map.serialize_entry(&name, &format!("{first:02x}{second:02x}{third:02x}"))?,
                Value::Amount(amount, unit) => map.serialize_entry(&with_unit(unit), &Thousandths(*amount))?,
                Value::Lanes(amounts, unit) => {
                    let amounts: Vec<Thousandths> = amounts.iter().map(|amount| Thousandths(*amount)).collect();
                    map.serialize_entry(&with_unit(unit), &amounts)?;
                }
                Value::Limits(amounts, unit) => map.serialize_entry(&with_unit(unit), &Limits(amounts))?,
                Value::Sum(right) => map.serialize_entry(&format!("{name}_right"), right)?,
                Value::Named(code, text) => {
                    map.serialize_entry(&name, code)?;
                    map.serialize_entry(&format!("{name}_name"), text)?;
                }
                Value::State(code, known, _) => {
                    map.serialize_entry(&name, code)?;
                    if let Some(text) = known {
                        map.serialize_entry(&format!("{name}_name"), text)?;
                    }
                }
                Value::Yes(yes) => map.serialize_entry(&name, yes)?,
                Value::Names(names) => map.serialize_entry(&name, names)?,
                Value::Version(major, minor) => map.serialize_entry(&name, &format!("{major}.{minor}"))?,
                Value::Level(0) => map.serialize_entry(&format!("{name}_dbm"), "-inf")?,
                Value::Level(power) => map.serialize_entry(&format!("{name}_dbm"), &raw(Decibels(*power).to_string()))?,
                Value::Milliwatts(power) => map.serialize_entry(&name, &raw(TenThousandths(*power).to_string()))?,
            }
        }
        map.end()
    }
}
