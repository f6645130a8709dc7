//! Everything that a module has about itself, with names.
use crate::calibration::{Constants, Monitor};
use crate::fault::Fault;
use crate::image::{Device, Image, Key, Page};
use crate::names::{known_path_state, known_state, known_status, media_table, name_in, path_state, state_name, status_name};
use crate::reports::{thousandths, Family, Known, LEVELS};
use crate::rows::{Report, Unit, Value};
use crate::tables::*;
use std::borrow::Cow;

pub fn details(image: &Image) -> Result<Report, Fault> {
    let known = Known::in_detail(image)?;
    let mut details = Details(Report::new());
    details.0.push("family", Value::Word(known.family.name()));
    match known.family {
        Family::Cmis => details.cmis(&known)?,
        Family::Sff8636 => details.sff8636(&known, known.page(0)?),
        Family::Sff8472 => details.sff8472(&known)?,
    }
    Ok(details.0)
}

struct Details(Report);

/// Whether a code of media technology is a copper cable's.
fn is_copper(technology: u8) -> bool {
    (10..=15).contains(&technology)
}

impl Details {
    fn named(&mut self, name: impl Into<Cow<'static, str>>, table: Table, code: u8) {
        self.0.push(name, Value::Named(code, name_in(table, code)));
    }

    fn yes(&mut self, name: impl Into<Cow<'static, str>>, yes: bool) {
        self.0.push(name, Value::Yes(yes));
    }

    /// A bit each, from one on.
    fn bits(&mut self, names: &[&'static str], page: &Page, at: u8, first: u8) {
        for (bit, name) in (first..).zip(names) {
            self.yes(*name, page.bit(at, bit));
        }
    }

    fn either(&mut self, name: &'static str, first: bool, words: [&'static str; 2]) {
        self.0.push(name, Value::Word(words[usize::from(!first)]));
    }

    fn amount(&mut self, name: impl Into<Cow<'static, str>>, thousandths: i64, unit: Unit) {
        self.0.push(name, Value::Amount(thousandths, unit));
    }

    /// An amount, unless it is 0.
    fn some(&mut self, name: impl Into<Cow<'static, str>>, thousandths: i64, unit: Unit) {
        if thousandths != 0 {
            self.amount(name, thousandths, unit);
        }
    }

    fn text(&mut self, name: &'static str, page: &Page, at: u8, count: u8) {
        let text = page.text(at, count);
        if !text.is_empty() {
            self.0.push(name, Value::Text(text));
        }
    }

    fn texts(&mut self, page: &Page, [vendor, oui, part, revision, serial, date]: [u8; 6], revision_count: u8) {
        self.text("vendor", page, vendor, 16);
        self.0.push("oui", Value::Oui([page.byte(oui), page.byte(oui + 1), page.byte(oui + 2)]));
        self.text("part", page, part, 16);
        self.text("part-revision", page, revision, revision_count);
        self.text("serial", page, serial, 16);
        self.text("date", page, date, 8);
    }

    /// The names of the bits that are set, of so many bits of a byte; the table counts them from a number on.
    fn set_bits(&mut self, name: &'static str, table: Table, first: u8, byte: u8, count: u8) {
        let names: Vec<_> = (0..count).filter(|bit| byte >> bit & 1 == 1).map(|bit| name_in(table, first + bit)).collect();
        if !names.is_empty() {
            self.0.push(name, Value::Names(names));
        }
    }

    fn powers(&mut self, side: &str, powers: &[u16]) {
        for (index, power) in powers.iter().enumerate() {
            self.0.push(format!("{side}-power-lane-{}", index + 1), Value::Level(*power));
        }
        for (index, power) in powers.iter().enumerate() {
            self.0.push(format!("{side}-power-mw-lane-{}", index + 1), Value::Milliwatts(*power));
        }
    }

    fn biases(&mut self, words: &[u16], factor: i64) {
        for (index, word) in words.iter().enumerate() {
            self.amount(format!("tx-bias-lane-{}", index + 1), i64::from(*word) * factor, Unit::Milliamperes);
        }
    }

    fn attenuations(&mut self, page: &Page, at: u8, megahertz: [u16; 4]) {
        for (at, frequency) in (at..).zip(megahertz) {
            self.some(format!("attenuation-at-{frequency}-mhz"), i64::from(page.byte(at)) * 1000, Unit::Decibels);
        }
    }

    fn wavelength(&mut self, page: &Page, at: u8) {
        self.some("wavelength", i64::from(page.word(at)) * 50, Unit::Nanometers);
        self.some("wavelength-tolerance", i64::from(page.word(at + 2)) * 5, Unit::Nanometers);
    }

    fn cmis(&mut self, known: &Known) -> Result<(), Fault> {
        let lower = known.lower;
        let page = known.page(0)?;
        let paged = if known.flat { None } else { Some((known.page(0x01)?, known.page(0x11)?)) };
        let is_third = lower.byte(1) >> 4 == 3;
        let technology = page.byte(212);
        self.named("identifier", IDENTIFIERS, lower.byte(0));
        self.0.push("revision", Value::Revision(lower.byte(1)));
        self.either("memory", known.flat, ["flat", "paged"]);
        self.named("media-type", MEDIA_TYPES, lower.byte(85));
        self.named("connector", CONNECTORS, page.byte(203));
        self.texts(page, [129, 145, 148, 164, 166, 182], 2);
        self.text("clei", page, 190, 10);
        self.0.push("power-class", Value::Number(u64::from(page.bits(200, 7, 5)) + 1));
        self.amount("max-power", i64::from(page.byte(201)) * 250, Unit::Watts);
        self.some("length", i64::from(page.bits(202, 5, 0)) * 100 * 10i64.pow(page.bits(202, 7, 6).into()), Unit::Meters);
        self.named("technology", MEDIA_TECHNOLOGIES, technology);
        if is_copper(technology) {
            self.attenuations(page, 204, [5000, 7000, 12900, 25800]);
        }
        if !is_third {
            self.0.push("firmware", Value::Version(lower.byte(39), lower.byte(40)));
        }
        if let Some((advertising, _)) = paged {
            self.advertised(advertising, is_third, is_copper(technology));
        }
        let state = lower.bits(3, 3, 1);
        self.0.push("state", Value::State(state, known_state(state), state_name(state)));
        if state == 5 && !is_third {
            self.named("fault-cause", MODULE_FAULTS, lower.byte(41));
        }
        for (name, bit) in [("low-power-allow-hw", 6), ("low-power-request-sw", 4), ("software-reset", 3)] {
            self.yes(name, lower.bit(26, bit));
        }
        if let Some((advertising, status)) = paged {
            self.measured(lower, advertising);
            let lanes = match lower.byte(0) {
                0x20 => 1,
                0x1B | 0x1F => 2,
                0x1E => 4,
                _ => 8,
            };
            self.lanes(advertising, status, lanes, is_third);
        }
        self.applications(lower, page, paged.map(|(advertising, _)| advertising));
        Ok(())
    }

    /// What page 01h says.
    fn advertised(&mut self, page: &Page, is_third: bool, copper: bool) {
        if !is_third {
            self.0.push("inactive-firmware", Value::Version(page.byte(128), page.byte(129)));
        }
        self.0.push("hardware", Value::Version(page.byte(130), page.byte(131)));
        let multiplier = page.bits(132, 7, 6);
        if multiplier < 2 {
            self.some("length-smf", i64::from(page.bits(132, 5, 0)) * 100 * 10i64.pow(multiplier.into()), Unit::Kilometers);
        }
        for (name, at, step) in [("length-om5", 133, 2), ("length-om4", 134, 2), ("length-om3", 135, 2), ("length-om2", 136, 1)] {
            self.some(name, i64::from(page.byte(at)) * step * 1000, Unit::Meters);
        }
        if !copper {
            self.wavelength(page, 138);
        }
        self.yes("cooled", page.bit(145, 7));
        self.either("detector", page.bit(151, 7), ["APD", "PIN"]);
        self.either("rx-power-type", page.bit(151, 4), ["average", "OMA"]);
        if page.byte(146) != 0 {
            self.amount("case-temperature-max", i64::from(page.byte(146) as i8) * 1000, Unit::Celsius);
            self.amount("case-temperature-min", i64::from(page.byte(147) as i8) * 1000, Unit::Celsius);
        }
        let durations = [
            ("max-duration-module-pwr-up", 167, 0, true),
            ("max-duration-module-pwr-dn", 167, 4, true),
            ("max-duration-dp-init", 144, 0, false),
            ("max-duration-dp-deinit", 144, 4, false),
            ("max-duration-dp-tx-turn-on", 168, 0, true),
            ("max-duration-dp-tx-turn-off", 168, 4, true),
        ];
        for (name, at, low, is_new) in durations {
            if !(is_new && is_third) {
                self.named(name, DURATIONS, page.bits(at, low + 3, low));
            }
        }
        self.bits(&["tunable", "wavelength-control"], page, 155, 6);
        self.named("tx-squelch", SQUELCH_METHODS, page.bits(155, 5, 4));
        self.bits(&["tx-polarity-flip", "tx-disable-control", "tx-squelch-disable", "tx-forced-squelch"], page, 155, 0);
        self.bits(&["rx-polarity-flip", "rx-disable-control", "rx-squelch-disable"], page, 156, 0);
        self.bits(&["tx-fault-flag", "tx-los-flag", "tx-lol-flag", "tx-eq-fail-flag"], page, 157, 0);
        self.bits(&["rx-los-flag", "rx-lol-flag"], page, 158, 1);
        self.bits(&["tx-cdr", "tx-cdr-control", "tx-eq-fixed", "tx-eq-adaptive", "tx-eq-freeze"], page, 161, 0);
        self.bits(&["rx-cdr", "rx-cdr-control", "rx-amplitude-control"], page, 162, 0);
        self.named("rx-eq-control", OUTPUT_EQUALIZERS, page.bits(162, 4, 3));
    }

    /// The module's own monitors, as far as it advertises them.
    fn measured(&mut self, lower: &Page, advertising: &Page) {
        let has = |bit: u8| advertising.bit(159, bit);
        let kind = |bit: u8| advertising.bit(145, bit);
        let percent = |word: u16| (i64::from(word as i16) * 100_000).div_euclid(32767);
        if has(0) {
            self.amount("temperature", thousandths(lower.word(14)), Unit::Celsius);
        }
        if has(1) {
            self.amount("vcc", i64::from(lower.word(16)) * 100, Unit::Millivolts);
        }
        if has(2) && kind(0) {
            self.amount("aux-1-tec-current", percent(lower.word(18)), Unit::Percent);
        }
        match (has(3), kind(1)) {
            (true, true) => self.amount("aux-2-tec-current", percent(lower.word(20)), Unit::Percent),
            (true, false) => self.amount("aux-2-laser-temperature", thousandths(lower.word(20)), Unit::Celsius),
            _ => {}
        }
        match (has(4), kind(2)) {
            (true, false) => self.amount("aux-3-laser-temperature", thousandths(lower.word(22)), Unit::Celsius),
            (true, true) => self.amount("aux-3-vcc", i64::from(lower.word(22)) * 100, Unit::Millivolts),
            _ => {}
        }
    }

    fn lanes(&mut self, advertising: &Page, status: &Page, count: u8, is_third: bool) {
        for lane in 0..count {
            let code = status.nibble(128, lane);
            self.0.push(format!("path-state-lane-{}", lane + 1), Value::State(code, known_path_state(code), path_state(code)));
        }
        for lane in 0..count {
            let code = status.nibble(202, lane);
            self.0.push(format!("config-status-lane-{}", lane + 1), Value::State(code, known_status(code), status_name(code)));
        }
        for lane in 0..count {
            self.0.push(format!("application-lane-{}", lane + 1), Value::Number(status.bits(206 + lane, 7, 4).into()));
        }
        for lane in (0..count).filter(|lane| status.bits(206 + lane, 7, 4) != 0) {
            self.0.push(format!("path-from-lane-{}", lane + 1), Value::Number(u64::from(status.bits(206 + lane, 3, 1)) + 1));
        }
        if !is_third {
            for (name, at) in [("tx-output-lane", 133), ("rx-output-lane", 132)] {
                for lane in 0..count {
                    self.yes(format!("{name}-{}", lane + 1), status.bit(at, lane));
                }
            }
        }
        let words = |at: u8| -> Vec<u16> { (0..count).map(|lane| status.word(at + 2 * lane)).collect() };
        if advertising.bit(160, 1) {
            self.powers("tx", &words(154));
        }
        let multiplier = advertising.bits(160, 4, 3);
        if advertising.bit(160, 0) && multiplier < 3 {
            self.biases(&words(170), 2 << multiplier);
        }
        if advertising.bit(160, 2) {
            self.powers("rx", &words(186));
        }
    }

    fn applications(&mut self, lower: &Page, page: &Page, advertising: Option<&Page>) {
        if let Some(advertising) = advertising {
            if !page.sum_right(222, 128, 221) || !advertising.sum_right(255, 130, 254) {
                return;
            }
        }
        for index in 0..15u8 {
            let (descriptors, at) = match advertising {
                _ if index < 8 => (lower, 86 + 4 * index),
                Some(advertising) => (advertising, 223 + 4 * (index - 8)),
                None => return,
            };
            if descriptors.byte(at) == 0xFF {
                return;
            }
            let number = index + 1;
            self.named(format!("host-interface-app-{number}"), HOST_INTERFACES, descriptors.byte(at));
            self.named(format!("media-interface-app-{number}"), media_table(lower.byte(85)), descriptors.byte(at + 1));
            self.0.push(format!("host-lanes-app-{number}"), Value::Number((descriptors.byte(at + 2) >> 4).into()));
            self.0.push(format!("media-lanes-app-{number}"), Value::Number((descriptors.byte(at + 2) & 15).into()));
            self.0.push(format!("host-starts-app-{number}"), Value::Code(descriptors.byte(at + 3)));
            if let Some(advertising) = advertising {
                self.0.push(format!("media-starts-app-{number}"), Value::Code(advertising.byte(176 + index)));
            }
        }
    }

    fn sff8636(&mut self, known: &Known, page: &Page) {
        let lower = known.lower;
        let technology = page.bits(147, 7, 4);
        self.named("identifier", IDENTIFIERS, lower.byte(0));
        self.named("revision", SFF8636_REVISIONS, lower.byte(1));
        self.either("memory", known.flat, ["flat", "paged"]);
        self.named("connector", CONNECTORS, page.byte(130));
        self.texts(page, [148, 165, 168, 184, 196, 212], 2);
        let class = match page.bits(129, 1, 0) {
            _ if page.bit(129, 5) => 8,
            0 => page.bits(129, 7, 6) + 1,
            high => high + 4,
        };
        const POWERS: [i64; 7] = [1500, 2000, 2500, 3500, 4000, 4500, 5000];
        let power = POWERS.get(usize::from(class) - 1).copied().unwrap_or(i64::from(lower.byte(107)) * 100);
        self.0.push("power-class", Value::Number(class.into()));
        self.amount("max-power", power, Unit::Watts);
        self.named("encoding", SFF8636_ENCODINGS, page.byte(139));
        self.bit_rate(page.byte(140), page.byte(222));
        self.named("rate-select-type", SFF8636_RATE_SELECTS, page.byte(141));
        self.some("length-smf", i64::from(page.byte(142)) * 1000, Unit::Kilometers);
        let last = if technology == 0 { ("length-om4", 146, 2) } else { ("length", 146, 1) };
        for (name, at, step) in [("length-om3", 143, 2), ("length-om2", 144, 1), ("length-om1", 145, 1), last] {
            self.some(name, i64::from(page.byte(at)) * step * 1000, Unit::Meters);
        }
        self.named("technology", MEDIA_TECHNOLOGIES, technology);
        if is_copper(technology) {
            self.attenuations(page, 186, [2500, 5000, 7000, 12900]);
        } else {
            self.wavelength(page, 186);
        }
        self.some("case-temperature-max", i64::from(page.byte(190)) * 1000, Unit::Celsius);
        const COMPLIANCE: [&str; 8] =
            ["ethernet", "sonet", "sas", "gigabit-ethernet", "fc-length", "fc-technology", "fc-media", "fc-speed"];
        for (index, name) in (0..8).zip(COMPLIANCE) {
            self.set_bits(name, SFF8636_COMPLIANCE, 8 * index, page.byte(131 + index), 8);
        }
        self.set_bits("infiniband", INFINIBAND_SPEEDS, 0, page.byte(164), 6);
        self.named("extended-compliance", EXTENDED_COMPLIANCE, page.byte(192));
        self.sff8636_controls(page);
        self.yes("data-not-ready", lower.bit(2, 0));
        self.yes("software-reset", lower.bit(93, 7));
        self.bits(&["power-override", "power-set", "power-classes-5-to-7-enabled", "power-class-8-enabled"], lower, 93, 0);
        self.sff8636_values(lower, page, matches!(technology, 10 | 11));
    }

    fn sff8636_controls(&mut self, page: &Page) {
        self.yes("tunable", page.bit(147, 0));
        self.either("detector", page.bit(147, 1), ["APD", "PIN"]);
        self.bits(&["cooled", "wavelength-control"], page, 147, 2);
        for (name, bit) in [("tx-cdr", 3), ("rx-cdr", 2), ("clei-present", 4)] {
            self.yes(name, page.bit(129, bit));
        }
        let equalizers = ["rx-amplitude-control", "rx-emphasis-control", "tx-eq-fixed", "tx-eq-adaptive", "tx-eq-freeze"];
        self.bits(&equalizers, page, 193, 0);
        if page.bit(194, 0) {
            self.either("tx-squelch-method", page.bit(195, 2), ["average power", "OMA"]);
        }
        let options = [
            "tx-squelch-disable",
            "rx-disable-control",
            "rx-squelch-disable",
            "rx-lol-flag",
            "tx-lol-flag",
            "rx-cdr-control",
            "tx-cdr-control",
        ];
        self.bits(&options, page, 194, 1);
        self.yes("tx-los-flag", page.bit(195, 1));
        self.bits(&["tx-fault-flag", "tx-disable-control", "rate-select", "page-01h", "page-02h"], page, 195, 3);
        self.bits(&["application-select", "rate-select-extended", "initialization-flag"], page, 221, 2);
        self.either("rx-power-type", page.bit(220, 3), ["average", "OMA"]);
    }

    fn sff8636_values(&mut self, lower: &Page, page: &Page, without_optics: bool) {
        let is_new = lower.byte(1) >= 8;
        if !(without_optics || is_new && !page.bit(220, 5)) {
            self.amount("temperature", thousandths(lower.word(22)), Unit::Celsius);
        }
        if !(without_optics || is_new && !page.bit(220, 4)) {
            self.amount("vcc", i64::from(lower.word(26)) * 100, Unit::Millivolts);
        }
        for (name, at, first, shown) in [
            ("tx-disabled-lane", 86, 0, true),
            ("tx-cdr-on-lane", 98, 4, page.bit(129, 3)),
            ("rx-cdr-on-lane", 98, 0, page.bit(129, 2)),
        ] {
            for lane in (0..4).filter(|_| shown) {
                self.yes(format!("{name}-{}", lane + 1), lower.bit(at, first + lane));
            }
        }
        let words = |at: u8| -> Vec<u16> { (0..4).map(|lane| lower.word(at + 2 * lane)).collect() };
        if page.bit(220, 2) {
            self.powers("tx", &words(50));
        }
        if !without_optics {
            self.biases(&words(42), 2);
            self.powers("rx", &words(34));
        }
    }

    fn bit_rate(&mut self, rate: u8, more: u8) {
        let rate = if rate == 0xFF { i64::from(more) * 250 } else { i64::from(rate) * 100 };
        self.some("bit-rate", rate, Unit::Gigabaud);
    }

    fn sff8472(&mut self, known: &Known) -> Result<(), Fault> {
        let lower = known.lower;
        let has_diagnostics = lower.bit(92, 6) && !lower.bit(92, 2);
        let diagnostics = if has_diagnostics { Some(known.image.need(Key::lower(Device::A2), "RP6")?) } else { None };
        self.named("identifier", IDENTIFIERS, lower.byte(0));
        self.named("extended-identifier", SFF8472_EXTENDED_IDENTIFIERS, lower.byte(1));
        self.named("revision", SFF8472_REVISIONS, lower.byte(94));
        self.named("connector", CONNECTORS, lower.byte(2));
        self.texts(lower, [20, 37, 40, 56, 68, 84], 4);
        self.named("encoding", SFF8472_ENCODINGS, lower.byte(11));
        self.bit_rate(lower.byte(12), lower.byte(66));
        if lower.byte(12) != 0xFF {
            self.some("bit-rate-margin-max", i64::from(lower.byte(66)) * 1000, Unit::Percent);
        }
        self.some("bit-rate-margin-min", i64::from(lower.byte(67)) * 1000, Unit::Percent);
        self.named("rate-select-type", SFF8472_RATE_SELECTS, lower.byte(13));
        self.sff8472_medium(lower);
        const COMPLIANCE: [&str; 8] =
            ["ethernet", "sonet", "sonet-more", "gigabit-ethernet", "fc-length", "fc-technology", "fc-media", "fc-speed"];
        for (index, name) in (0..8).zip(COMPLIANCE) {
            self.set_bits(name, SFF8472_COMPLIANCE, 8 * index, lower.byte(3 + index), 8);
        }
        self.set_bits("fc-speed-more", SFF8472_COMPLIANCE, 64, lower.byte(62), 8);
        self.named("extended-compliance", EXTENDED_COMPLIANCE, lower.byte(36));
        self.bits(&["linear-receiver", "power-level-2", "cooled", "cdr", "paging", "power-level-3"], lower, 64, 0);
        let options =
            ["rx-los-flag", "rx-los-inverted", "tx-fault-flag", "tx-disable-control", "rate-select", "tunable", "decision-threshold"];
        self.bits(&options, lower, 65, 1);
        self.yes("diagnostics", lower.bit(92, 6));
        if lower.bit(92, 6) {
            self.yes("internally-calibrated", lower.bit(92, 5));
            self.yes("externally-calibrated", lower.bit(92, 4));
            self.either("rx-power-type", lower.bit(92, 3), ["average", "OMA"]);
        }
        let enhanced = [
            "soft-rate-select-control",
            "application-select",
            "soft-rate-select",
            "soft-rx-los",
            "soft-tx-fault",
            "soft-tx-disable",
            "alarms",
        ];
        self.bits(&enhanced, lower, 93, 1);
        if let Some(page) = diagnostics {
            self.diagnostics(lower, page);
        }
        Ok(())
    }

    fn sff8472_medium(&mut self, lower: &Page) {
        let (passive, active) = (lower.bit(8, 2), lower.bit(8, 3));
        self.some("length-smf", i64::from(lower.byte(14)) * 1000, Unit::Kilometers);
        self.some("length-smf-in-100-m", i64::from(lower.byte(15)) * 100, Unit::Kilometers);
        self.some("length-om2", i64::from(lower.byte(16)) * 10_000, Unit::Meters);
        self.some("length-om1", i64::from(lower.byte(17)) * 10_000, Unit::Meters);
        if passive || active {
            self.some("length", i64::from(lower.byte(18)) * 1000, Unit::Meters);
        } else {
            self.some("length-om4", i64::from(lower.byte(18)) * 10_000, Unit::Meters);
        }
        self.some("length-om3", i64::from(lower.byte(19)) * 10_000, Unit::Meters);
        if !passive && !active {
            self.some("wavelength", i64::from(lower.word(60)) * 1000, Unit::Nanometers);
        }
        if passive {
            self.named("passive-cable-compliance", SFP_PASSIVE_CABLES, lower.byte(60));
        }
        if active {
            self.named("active-cable-compliance", SFP_ACTIVE_CABLES, lower.byte(60));
        }
    }

    fn diagnostics(&mut self, lower: &Page, page: &Page) {
        let external = lower.bit(92, 4);
        let constants = Constants::of(page);
        let calibrated = |monitor: Monitor, word: u16| match monitor {
            _ if external => constants.amount(monitor, word),
            Monitor::Temperature => Some(thousandths(word)),
            Monitor::TxBias => Some(i64::from(word) * 2),
            _ => Some(i64::from(word) * 100),
        };
        self.yes("data-not-ready", page.bit(110, 0));
        self.bits(&["rate-select-0-set", "rate-select-0", "rate-select-1", "tx-disable-set", "tx-disabled"], page, 110, 3);
        self.yes("rate-select-1-set", page.bit(118, 3));
        self.bits(&["power-level-set", "power-level-higher"], page, 118, 0);
        let amounts = |this: &mut Details, name: String, monitor: Monitor, at: u8, unit: Unit| {
            if let Some(amount) = calibrated(monitor, page.word(at)) {
                this.amount(name, amount, unit);
            }
        };
        amounts(self, "temperature".into(), Monitor::Temperature, 96, Unit::Celsius);
        amounts(self, "vcc".into(), Monitor::Vcc, 98, Unit::Millivolts);
        if lower.bit(64, 2) {
            self.amount("laser-temperature", thousandths(page.word(106)), Unit::Celsius);
            self.amount("tec-current", i64::from(page.word(108) as i16) * 100, Unit::Milliamperes);
        }
        // a power that a word of 16 bits can hold
        let tenths = |monitor: Monitor, at: u8| calibrated(monitor, page.word(at)).and_then(|amount| u16::try_from(amount.div_euclid(100)).ok());
        if let Some(power) = tenths(Monitor::TxPower, 102) {
            self.powers("tx", &[power]);
        }
        amounts(self, "tx-bias-lane-1".into(), Monitor::TxBias, 100, Unit::Milliamperes);
        if let Some(power) = tenths(Monitor::RxPower, 104) {
            self.powers("rx", &[power]);
        }
        if !external {
            return;
        }
        self.yes("rx-power-constants-usable", constants.are_usable());
        amounts(self, "calibrated-tx-power-lane-1".into(), Monitor::TxPower, 102, Unit::Microwatts);
        amounts(self, "calibrated-rx-power-lane-1".into(), Monitor::RxPower, 104, Unit::Microwatts);
        let limits = [
            ("temperature", Monitor::Temperature, 0, Unit::Celsius),
            ("vcc", Monitor::Vcc, 8, Unit::Millivolts),
            ("tx-bias", Monitor::TxBias, 16, Unit::Milliamperes),
            ("tx-power", Monitor::TxPower, 24, Unit::Microwatts),
            ("rx-power", Monitor::RxPower, 32, Unit::Microwatts),
        ];
        for (name, monitor, at, unit) in limits.into_iter().filter(|_| lower.bit(93, 7)) {
            for (index, level) in (0..4).zip(LEVELS) {
                amounts(self, format!("{name}-{level}-limit"), monitor, at + 2 * index, unit);
            }
        }
    }
}
