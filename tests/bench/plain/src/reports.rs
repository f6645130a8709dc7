//! What a module is, what it offers, what it measures, and which flags it raises.
use crate::advert::Advert;
use crate::fault::Fault;
use crate::image::{Device, Image, Key, Page};
use crate::names::{path_state, state_name, status_name};
use crate::rows::{Report, Unit, Value};
use std::fmt::Write;

#[derive(Clone, Copy, PartialEq)]
pub enum Family {
    Cmis,
    Sff8636,
    Sff8472,
}

impl Family {
    pub fn name(self) -> &'static str {
        match self {
            Family::Cmis => "CMIS",
            Family::Sff8636 => "SFF-8636",
            Family::Sff8472 => "SFF-8472",
        }
    }
}

/// The module of an image, of a family that the reports read.
pub struct Known<'a> {
    pub image: &'a Image,
    pub lower: &'a Page,
    pub family: Family,
    pub flat: bool,
}

impl<'a> Known<'a> {
    pub fn of(image: &'a Image) -> Result<Known<'a>, Fault> {
        Known::read(image, |identifier| matches!(identifier, 0x18 | 0x19 | 0x1E), 4)
    }

    /// Of a family, an identifier or a revision that only details and observables read, too.
    pub fn in_detail(image: &'a Image) -> Result<Known<'a>, Fault> {
        Known::read(image, |identifier| matches!(identifier, 0x18 | 0x19 | 0x1B | 0x1E..=0x25), 3)
    }

    fn read(image: &'a Image, is_cmis: fn(u8) -> bool, first_major: u8) -> Result<Known<'a>, Fault> {
        let lower = image.need(Key::lower(Device::A0), "RP6")?;
        let family = match lower.byte(0) {
            identifier if is_cmis(identifier) => {
                if !(first_major..=5).contains(&(lower.byte(1) >> 4)) {
                    return Err(Fault::with("RP4", lower.byte(1)));
                }
                Family::Cmis
            }
            0x0C | 0x0D | 0x11 => Family::Sff8636,
            0x03 => Family::Sff8472,
            identifier => return Err(Fault::with("RP1", identifier)),
        };
        let flat = match family {
            Family::Cmis => lower.bit(2, 7),
            Family::Sff8636 => lower.bit(2, 2),
            Family::Sff8472 => false,
        };
        Ok(Known { image, lower, family, flat })
    }

    pub fn page(&self, page: u8) -> Result<&'a Page, Fault> {
        let code = if self.family == Family::Cmis { "RP6" } else { "SF3" };
        self.image.need(Key::upper(0, page), code)
    }

    /// The diagnostics of an SFF-8472 module, which it may not have or not for a host that doesn't calibrate them.
    fn diagnostics(&self, calibrated: bool) -> Result<&'a Page, Fault> {
        if !self.lower.bit(92, 6) {
            return Err(Fault::new("SF4"));
        }
        if self.lower.bit(92, 2) {
            return Err(Fault::new("SF6"));
        }
        if calibrated && self.lower.bit(92, 4) {
            return Err(Fault::new("SF5"));
        }
        self.image.need(Key::lower(Device::A2), "SF3")
    }
}

/// The texts of a family: vendor, then OUI, part, revision, serial, date.
fn push_names(report: &mut Report, page: &Page, starts: [u8; 6], revision: u8) {
    let [vendor, oui, part, part_revision, serial, date] = starts;
    report.push("vendor", Value::Text(page.text(vendor, 16)));
    report.push("oui", Value::Oui([page.byte(oui), page.byte(oui + 1), page.byte(oui + 2)]));
    report.push("part", Value::Text(page.text(part, 16)));
    report.push("part-revision", Value::Text(page.text(part_revision, revision)));
    report.push("serial", Value::Text(page.text(serial, 16)));
    report.push("date", Value::Text(page.text(date, 8)));
}

pub fn inventory(image: &Image) -> Result<Report, Fault> {
    let known = Known::of(image)?;
    let lower = known.lower;
    let mut report = Report::new();
    report.push("family", Value::Word(known.family.name()));
    report.push("identifier", Value::Code(lower.byte(0)));
    match known.family {
        Family::Cmis => {
            let page = known.page(0)?;
            report.push("revision", Value::Revision(lower.byte(1)));
            report.push("memory", Value::Word(if known.flat { "flat" } else { "paged" }));
            report.push("media-type", Value::Code(lower.byte(85)));
            push_names(&mut report, page, [129, 145, 148, 164, 166, 182], 2);
            report.push("power-class", Value::Number(u64::from(page.bits(200, 7, 5)) + 1));
            report.push("max-power", Value::Amount(i64::from(page.byte(201)) * 250, Unit::Watts));
            let length = i64::from(page.bits(202, 5, 0)) * 100 * 10i64.pow(u32::from(page.bits(202, 7, 6)));
            report.push("length", Value::Amount(length, Unit::Meters));
            report.push("connector", Value::Code(page.byte(203)));
            report.push("technology", Value::Code(page.byte(212)));
            report.push("sum-00h", Value::Sum(page.sum_right(222, 128, 221)));
        }
        Family::Sff8636 => {
            let page = known.page(0)?;
            push_names(&mut report, page, [148, 165, 168, 184, 196, 212], 2);
            report.push("connector", Value::Code(page.byte(130)));
            report.push("sum-base", Value::Sum(page.sum_right(191, 128, 190)));
            report.push("sum-ext", Value::Sum(page.sum_right(223, 192, 222)));
        }
        Family::Sff8472 => {
            push_names(&mut report, lower, [20, 37, 40, 56, 68, 84], 4);
            report.push("connector", Value::Code(lower.byte(2)));
            report.push("sum-base", Value::Sum(lower.sum_right(63, 0, 62)));
            report.push("sum-ext", Value::Sum(lower.sum_right(95, 64, 94)));
        }
    }
    Ok(report)
}

pub fn apps_text(advert: &Advert) -> String {
    let mut out = format!("apps {}\n", advert.apps.len());
    for app in &advert.apps {
        writeln!(
            out,
            "app {} host {:02X}h media {:02X}h host-lanes {} media-lanes {} host-starts {:02X}h media-starts {:02X}h {}",
            app.number,
            app.host_id,
            app.media_id,
            app.host_lanes,
            app.media_lanes,
            app.host_starts,
            app.media_starts,
            if app.is_usable() { "usable" } else { "unusable" },
        )
        .unwrap();
    }
    writeln!(out, "unsupported-media {:02X}h", advert.unsupported).unwrap();
    out
}

/// Where a monitor of lanes has its first value and its limits, and what makes thousandths of a step.
struct Place {
    name: &'static str,
    limits_name: &'static str,
    unit: Unit,
    factor: i64,
    value: u8,
    limits: u8,
}

const fn place(name: &'static str, limits_name: &'static str, unit: Unit, factor: i64, value: u8, limits: u8) -> Place {
    Place { name, limits_name, unit, factor, value, limits }
}

/// Of transmitted power, bias and received power, by family.
const LANES: [[Place; 3]; 3] = [places([154, 176], [170, 184], [186, 192]), places([50, 192], [42, 184], [34, 176]), places([102, 24], [100, 16], [104, 32])];

const fn places(power: [u8; 2], bias: [u8; 2], received: [u8; 2]) -> [Place; 3] {
    [
        place("tx-power", "tx-power-limits", Unit::Microwatts, 100, power[0], power[1]),
        place("tx-bias", "tx-bias-limits", Unit::Milliamperes, 2, bias[0], bias[1]),
        place("rx-power", "rx-power-limits", Unit::Microwatts, 100, received[0], received[1]),
    ]
}

pub fn thousandths(word: u16) -> i64 {
    (i64::from(word as i16) * 1000).div_euclid(256)
}

fn words(page: &Page, at: u8, count: u8, amount: impl Fn(u16) -> i64) -> Vec<i64> {
    (0..count).map(|index| amount(page.word(at + 2 * index))).collect()
}

fn push_limits(report: &mut Report, name: &'static str, unit: Unit, limits: Option<&Page>, at: u8, amount: impl Fn(u16) -> i64) {
    if let Some(page) = limits {
        report.push(name, Value::Limits(words(page, at, 4, amount), unit));
    }
}

pub fn monitors(image: &Image) -> Result<Report, Fault> {
    let known = Known::of(image)?;
    let lower = known.lower;
    let mut report = Report::new();
    // the pages of the first values, of the lanes' values and of limits, where the former and the limits are, lanes, and the sum
    let (module, lanes, limits) = match known.family {
        Family::Cmis if known.flat => (lower, None, None),
        Family::Cmis => (lower, Some(known.page(0x01).and_then(|_| known.page(0x02)).and_then(|_| known.page(0x11))?), Some(known.page(0x02)?)),
        Family::Sff8636 if known.flat => (lower, Some(lower), None),
        Family::Sff8636 => (lower, Some(lower), Some(known.page(0x03)?)),
        Family::Sff8472 => {
            let page = known.diagnostics(true)?;
            (page, Some(page), Some(page))
        }
    };
    let (temperature, vcc, temperature_limits, vcc_limits, count) = match known.family {
        Family::Cmis => (14, 16, 128, 136, 8),
        Family::Sff8636 => (22, 26, 128, 144, 4),
        Family::Sff8472 => (96, 98, 0, 8, 1),
    };
    report.push("temperature", Value::Amount(thousandths(module.word(temperature)), Unit::Celsius));
    push_limits(&mut report, "temperature-limits", Unit::Celsius, limits, temperature_limits, thousandths);
    report.push("vcc", Value::Amount(i64::from(module.word(vcc)) * 100, Unit::Millivolts));
    push_limits(&mut report, "vcc-limits", Unit::Millivolts, limits, vcc_limits, |word| i64::from(word) * 100);
    for (index, place) in LANES[known.family as usize].iter().enumerate() {
        let page = match lanes {
            Some(page) => page,
            None => break,
        };
        let mut factor = place.factor;
        if known.family == Family::Cmis {
            let advertising = known.page(0x01)?;
            if !advertising.bit(160, [1, 0, 2][index]) {
                report.push(place.name, Value::Word("unsupported"));
                continue;
            }
            if place.unit == Unit::Milliamperes {
                match advertising.bits(160, 4, 3) {
                    3 => {
                        report.push(place.name, Value::Word("reserved"));
                        continue;
                    }
                    multiplier => factor <<= multiplier,
                }
            }
        }
        let amount = |word: u16| i64::from(word) * factor;
        report.push(place.name, Value::Lanes(words(page, place.value, count, amount), place.unit));
        push_limits(&mut report, place.limits_name, place.unit, limits, place.limits, amount);
    }
    match (known.family, limits) {
        (Family::Cmis, Some(page)) => report.push("sum-02h", Value::Sum(page.sum_right(255, 128, 254))),
        (Family::Sff8472, Some(page)) => report.push("sum-a2", Value::Sum(page.sum_right(95, 0, 94))),
        _ => {}
    }
    Ok(report)
}

pub const LEVELS: [&str; 4] = ["high-alarm", "low-alarm", "high-warning", "low-warning"];

/// A flag that a module may raise: of a lane, or its own.
pub struct Flag {
    pub name: &'static str,
    pub level: Option<&'static str>,
    pub lane: Option<u8>,
    pub raised: bool,
}

pub struct Flags {
    pub state: Option<u8>,
    /// Of each host lane its path's state and its configuration's status.
    pub lanes: Vec<(u8, u8)>,
    pub flags: Vec<Flag>,
}

impl Flags {
    fn push(&mut self, name: &'static str, level: Option<&'static str>, lane: Option<u8>, raised: bool) {
        self.flags.push(Flag { name, level, lane, raised });
    }

    /// One of each level, as bits of a byte from one on.
    fn push_levels(&mut self, name: &'static str, raised: impl Fn(u8) -> bool) {
        for (index, level) in LEVELS.iter().enumerate() {
            self.push(name, Some(level), None, raised(index as u8));
        }
    }

    fn push_lanes(&mut self, name: &'static str, level: Option<&'static str>, count: u8, raised: impl Fn(u8) -> bool) {
        for index in 0..count {
            self.push(name, level, Some(index + 1), raised(index));
        }
    }

    pub fn raised(&self) -> impl Iterator<Item = &Flag> {
        self.flags.iter().filter(|flag| flag.raised)
    }

    pub fn text(&self) -> String {
        let mut out = String::new();
        if let Some(state) = self.state {
            writeln!(out, "state {}", state_name(state)).unwrap();
        }
        for (index, (state, status)) in self.lanes.iter().enumerate() {
            writeln!(out, "lane {} {} {}", index + 1, path_state(*state), status_name(*status)).unwrap();
        }
        let before = out.len();
        for flag in self.raised() {
            out.push_str("flag ");
            flag.write_name(&mut out);
            match flag.lane {
                Some(lane) => writeln!(out, " {lane}").unwrap(),
                None => out.push('\n'),
            }
        }
        if out.len() == before {
            out.push_str("flag none\n");
        }
        out
    }
}

impl Flag {
    pub fn write_name(&self, out: &mut String) {
        out.push_str(self.name);
        if let Some(level) = self.level {
            out.push('-');
            out.push_str(level);
        }
    }
}

pub fn flags(image: &Image) -> Result<Flags, Fault> {
    let known = Known::of(image)?;
    let mut flags = Flags { state: None, lanes: Vec::new(), flags: Vec::new() };
    match known.family {
        Family::Cmis => cmis_flags(&known, &mut flags)?,
        Family::Sff8636 => sff8636_flags(known.lower, &mut flags),
        Family::Sff8472 => sff8472_flags(known.diagnostics(false)?, &mut flags),
    }
    Ok(flags)
}

fn cmis_flags(known: &Known, flags: &mut Flags) -> Result<(), Fault> {
    let lower = known.lower;
    flags.state = Some(lower.bits(3, 3, 1));
    flags.push_levels("temperature", |level| lower.bit(9, level));
    flags.push_levels("vcc", |level| lower.bit(9, 4 + level));
    if known.flat {
        return Ok(());
    }
    let page = known.page(0x11)?;
    flags.lanes = (0..8).map(|lane| (page.nibble(128, lane), page.nibble(202, lane))).collect();
    const BYTES: [(&str, bool); 10] = [
        ("path-state-changed", false),
        ("tx-failure", false),
        ("tx-los", false),
        ("tx-lol", false),
        ("tx-eq-fail", false),
        ("tx-power", true),
        ("tx-bias", true),
        ("rx-los", false),
        ("rx-lol", false),
        ("rx-power", true),
    ];
    let levels = LEVELS.map(Some);
    let mut at = 134;
    for (name, has_levels) in BYTES {
        let levels = if has_levels { &levels[..] } else { &[None] };
        for level in levels {
            flags.push_lanes(name, *level, 8, |lane| page.bit(at, lane));
            at += 1;
        }
    }
    Ok(())
}

fn sff8636_flags(lower: &Page, flags: &mut Flags) {
    flags.push_levels("temperature", |level| lower.bit(6, 7 - level));
    flags.push_levels("vcc", |level| lower.bit(7, 7 - level));
    for (name, at, first) in [("tx-los", 3, 4), ("rx-los", 3, 0), ("tx-fault", 4, 0), ("tx-lol", 5, 4), ("rx-lol", 5, 0)] {
        flags.push_lanes(name, None, 4, |lane| lower.bit(at, first + lane));
    }
    for (name, at) in [("rx-power", 9), ("tx-bias", 11), ("tx-power", 13)] {
        for (index, level) in LEVELS.iter().enumerate() {
            let low = 3 - index as u8;
            flags.push_lanes(name, Some(level), 4, |lane| lower.bit(at + lane / 2, low + if lane % 2 == 0 { 4 } else { 0 }));
        }
    }
}

fn sff8472_flags(page: &Page, flags: &mut Flags) {
    const NAMES: [&str; 5] = ["temperature", "vcc", "tx-bias", "tx-power", "rx-power"];
    for (index, name) in NAMES.into_iter().enumerate() {
        let (byte, first) = (index as u8 / 4, 7 - 2 * (index as u8 % 4));
        let raised = |level: u8| page.bit(112 + byte + level / 2 * 4, first - level % 2);
        if index < 2 {
            flags.push_levels(name, raised);
        } else {
            for (index, level) in LEVELS.iter().enumerate() {
                flags.push_lanes(name, Some(level), 1, |_| raised(index as u8));
            }
        }
    }
    flags.push("tx-fault", None, Some(1), page.bit(110, 2));
    flags.push("rx-los", None, Some(1), page.bit(110, 1));
}
