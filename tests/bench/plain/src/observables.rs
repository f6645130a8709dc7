//! Everything that a module measures: monitors at fixed places, and what a CMIS module lists itself.
use crate::calibration::{Constants, Monitor};
use crate::fault::Fault;
use crate::image::{Device, Image, Key, Page};
use crate::json;
use crate::reports::{Family, Known};
use crate::rows::raw;
use serde::ser::{Serialize, SerializeMap, Serializer};
use std::fmt::Write;

/// What a word of 16 bits counts.
#[derive(Clone, Copy)]
enum Step {
    /// So many units of the last of so many decimals.
    Unsigned(i64, u32),
    Signed(i64, u32),
    /// A hundred percent, shared by this, rounded down to thousandths.
    UnsignedShare(i64),
    SignedShare(i64),
    Float,
}

#[derive(Clone, Copy)]
struct Quantity {
    name: &'static str,
    unit: &'static str,
    step: Step,
}

const fn quantity(name: &'static str, unit: &'static str, step: Step) -> Quantity {
    Quantity { name, unit, step }
}

const TEMPERATURE: Quantity = quantity("temperature", "C", Step::Signed(390_625, 8));
const VCC: Quantity = quantity("vcc", "V", Step::Unsigned(1, 4));
const TX_POWER: Quantity = quantity("tx-power", "mW", Step::Unsigned(1, 4));
const TX_BIAS: Quantity = quantity("tx-bias", "mA", Step::Unsigned(2, 3));
const RX_POWER: Quantity = quantity("rx-power", "mW", Step::Unsigned(1, 4));
const LASER_TEMPERATURE: Quantity = quantity("laser-temperature", "C", Step::Signed(390_625, 8));
const TEC_SHARE: Quantity = quantity("tec-current-share", "%", Step::SignedShare(32767));
const TEC_CURRENT: Quantity = quantity("tec-current", "mA", Step::Signed(1, 1));
const SECOND_VCC: Quantity = quantity("vcc-2", "V", Step::Unsigned(1, 4));

#[derive(Clone, Copy)]
enum Scope {
    Module,
    HostLane,
    MediaLane,
    HostPath,
    MediaPath,
}

impl Scope {
    fn name(self) -> &'static str {
        match self {
            Scope::Module => "module",
            Scope::HostLane => "host-lane",
            Scope::MediaLane => "media-lane",
            Scope::HostPath => "host-path",
            Scope::MediaPath => "media-path",
        }
    }
}

struct Observation {
    quantity: Quantity,
    figure: &'static str,
    scope: Scope,
    number: u8,
    amount: Option<String>,
    limits: [Option<String>; 4],
    flags: Option<[bool; 4]>,
    advertised: bool,
}

fn fixed(amount: i64, places: u32) -> String {
    let (sign, size) = (if amount < 0 { "-" } else { "" }, amount.unsigned_abs());
    match places {
        0 => format!("{sign}{size}"),
        _ => {
            let one = 10u64.pow(places);
            format!("{sign}{}.{:0width$}", size / one, size % one, width = places as usize)
        }
    }
}

fn scientific(word: u16) -> String {
    let (mut mantissa, mut exponent) = (i32::from(word % 2048), i32::from(word / 2048) - 24);
    if mantissa == 0 {
        return "0e0".to_string();
    }
    while mantissa % 10 == 0 {
        mantissa /= 10;
        exponent += 1;
    }
    let digits = mantissa.to_string();
    let (first, rest) = digits.split_at(1);
    let point = if rest.is_empty() { "" } else { "." };
    format!("{first}{point}{rest}e{}", exponent + rest.len() as i32)
}

impl Quantity {
    fn text(&self, word: u16, factor: i64) -> String {
        let share = |steps: i64, whole: i64| fixed((steps * 100_000).div_euclid(whole), 3);
        match self.step {
            Step::Unsigned(step, places) => fixed(i64::from(word) * step * factor, places),
            Step::Signed(step, places) => fixed(i64::from(word as i16) * step, places),
            Step::UnsignedShare(whole) => share(i64::from(word), whole),
            Step::SignedShare(whole) => share(i64::from(word as i16), whole),
            Step::Float => scientific(word),
        }
    }
}

/// How the words of a monitor become amounts.
#[derive(Clone, Copy)]
enum Correction {
    Plain,
    /// Times the multiplier of bias, if that is none that is reserved.
    Multiplied(Option<i64>),
    Calibrated(Constants, Monitor),
}

fn amount(quantity: Quantity, correction: Correction, word: u16) -> Option<String> {
    match correction {
        Correction::Plain => Some(quantity.text(word, 1)),
        Correction::Multiplied(factor) => Some(quantity.text(word, factor?)),
        Correction::Calibrated(constants, monitor) => {
            let places = match monitor {
                Monitor::Temperature | Monitor::TxBias => 3,
                _ => 6,
            };
            constants.amount(monitor, word).map(|amount| fixed(amount, places))
        }
    }
}

/// A monitor at a fixed place: its values, and its limits with whether they were passed.
struct Place<'a> {
    quantity: Quantity,
    scope: Scope,
    first: u8,
    count: u8,
    values: Option<(&'a Page, u8)>,
    limits: Option<(Option<&'a Page>, u8)>,
    correction: Correction,
    advertised: bool,
}

fn push<'a>(all: &mut Vec<Observation>, place: Place<'a>, passed: impl Fn(u8, u8) -> bool) {
    let (page, at) = match place.values {
        Some(place) => place,
        None => return,
    };
    for lane in 0..place.count {
        let limits = std::array::from_fn(|level| {
            let (page, at) = place.limits?;
            amount(place.quantity, place.correction, page?.word(at + 2 * level as u8))
        });
        all.push(Observation {
            quantity: place.quantity,
            figure: "now",
            scope: place.scope,
            number: place.first + lane,
            amount: amount(place.quantity, place.correction, page.word(at + 2 * lane)),
            limits,
            flags: place.limits.map(|_| std::array::from_fn(|level| passed(lane, level as u8))),
            advertised: place.advertised,
        });
    }
}

fn cmis(image: &Image, lower: &Page, all: &mut Vec<Observation>) {
    let page = |page: u8| image.get(Key::upper(0, page));
    let (advertising, limits) = (page(0x01), page(0x02));
    let has = |at: u8, bit: u8| advertising.map_or(false, |page| page.bit(at, bit));
    let of_module = |quantity, at, limits, advertised| Place {
        quantity,
        scope: Scope::Module,
        first: 1,
        count: 1,
        values: Some((lower, at)),
        limits,
        correction: Correction::Plain,
        advertised,
    };
    push(all, of_module(TEMPERATURE, 14, Some((limits, 128)), has(159, 0)), |_, level| lower.bit(9, level));
    push(all, of_module(VCC, 16, Some((limits, 136)), has(159, 1)), |_, level| lower.bit(9, 4 + level));
    if has(159, 2) && has(145, 0) {
        push(all, of_module(TEC_SHARE, 18, None, true), |_, _| false);
    }
    if has(159, 3) {
        push(all, of_module(if has(145, 1) { TEC_SHARE } else { LASER_TEMPERATURE }, 20, None, true), |_, _| false);
    }
    if has(159, 4) {
        push(all, of_module(if has(145, 2) { SECOND_VCC } else { LASER_TEMPERATURE }, 22, None, true), |_, _| false);
    }
    let multiplier = match advertising.map_or(0, |page| page.bits(160, 4, 3)) {
        3 => None,
        multiplier => Some(1 << multiplier),
    };
    let banks = match advertising.map_or(0, |page| page.bits(142, 1, 0)) {
        1 => 2,
        2 => 4,
        _ => 1,
    };
    for (quantity, at, limits_at, flags_at, bit) in
        [(TX_POWER, 154, 176, 139, 1), (TX_BIAS, 170, 184, 143, 0), (RX_POWER, 186, 192, 149, 2)]
    {
        let correction = if bit == 0 { Correction::Multiplied(multiplier) } else { Correction::Plain };
        for bank in 0..banks {
            let lanes = image.get(Key::upper(bank, 0x11));
            let place = Place {
                quantity,
                scope: Scope::MediaLane,
                first: 8 * bank + 1,
                count: 8,
                values: lanes.map(|page| (page, at)),
                limits: Some((limits, limits_at)),
                correction,
                advertised: has(160, bit),
            };
            push(all, place, |lane, level| lanes.map_or(false, |page| page.bit(flags_at + level, lane)));
        }
    }
    (0..4).for_each(|bank| push_instances(image, bank, has(142, 6), all));
}

fn sff8636(image: &Image, lower: &Page, all: &mut Vec<Observation>) {
    let (page, limits) = (image.get(Key::upper(0, 0)), image.get(Key::upper(0, 3)));
    let has = |bit: u8| page.map_or(false, |page| page.bit(220, bit));
    let place = |quantity, scope, count, at, limits_at, advertised| Place {
        quantity,
        scope,
        first: 1,
        count,
        values: Some((lower, at)),
        limits: Some((limits, limits_at)),
        correction: Correction::Plain,
        advertised,
    };
    push(all, place(TEMPERATURE, Scope::Module, 1, 22, 128, has(5)), |_, level| lower.bit(6, 7 - level));
    push(all, place(VCC, Scope::Module, 1, 26, 144, has(4)), |_, level| lower.bit(7, 7 - level));
    for (quantity, at, limits_at, flags_at, advertised) in
        [(TX_POWER, 50, 192, 13, has(2)), (TX_BIAS, 42, 184, 11, true), (RX_POWER, 34, 176, 9, true)]
    {
        push(all, place(quantity, Scope::MediaLane, 4, at, limits_at, advertised), |lane, level| {
            lower.bit(flags_at + lane / 2, 3 - level + if lane % 2 == 0 { 4 } else { 0 })
        });
    }
}

fn sff8472(image: &Image, lower: &Page, all: &mut Vec<Observation>) {
    let page = match image.get(Key::lower(Device::A2)) {
            Some(page) => page,
            None => return,
        };
    let constants = Constants::of(page);
    let place = |quantity, scope, at, limits_at, monitor| Place {
        quantity,
        scope,
        first: 1,
        count: 1,
        values: Some((page, at)),
        limits: Some((Some(page), limits_at)),
        correction: if lower.bit(92, 4) { Correction::Calibrated(constants, monitor) } else { Correction::Plain },
        advertised: lower.bit(92, 6),
    };
    let passed = |index: u8| {
        move |_: u8, level: u8| page.bit(112 + index / 4 + level / 2 * 4, 7 - 2 * (index % 4) - level % 2)
    };
    push(all, place(TEMPERATURE, Scope::Module, 96, 0, Monitor::Temperature), passed(0));
    push(all, place(VCC, Scope::Module, 98, 8, Monitor::Vcc), passed(1));
    push(all, place(TX_POWER, Scope::MediaLane, 102, 24, Monitor::TxPower), passed(3));
    push(all, place(TX_BIAS, Scope::MediaLane, 100, 16, Monitor::TxBias), passed(2));
    push(all, place(RX_POWER, Scope::MediaLane, 104, 32, Monitor::RxPower), passed(4));
    for (quantity, at) in [(LASER_TEMPERATURE, 106), (TEC_CURRENT, 108)] {
        let bare = place(quantity, Scope::Module, at, 0, Monitor::Temperature);
        let advertised = lower.bit(64, 2);
        push(all, Place { limits: None, correction: Correction::Plain, advertised, ..bare }, |_, _| false);
    }
}

/// What a type of instance measures, which figure of that, and of what.
fn kind(number: u8) -> Option<(Quantity, &'static str, Scope)> {
    use Scope::*;
    let share = Step::UnsignedShare(65535);
    let media = |name, unit, step| Some((quantity(name, unit, step), "now", MediaLane));
    let dim = Step::Unsigned(390_625, 8);
    match number {
        1 => media("laser-age", "%", Step::Unsigned(1, 0)),
        2 => Some((TEC_SHARE, "now", Module)),
        3 => media("laser-frequency-error", "MHz", Step::Signed(10, 0)),
        4 => Some((LASER_TEMPERATURE, "now", MediaLane)),
        5 => media("snr", "dB", dim),
        6 => Some((quantity("snr", "dB", dim), "now", HostLane)),
        7 => media("level-transition", "dB", dim),
        8 => Some((quantity("level-transition", "dB", dim), "now", HostLane)),
        9..=24 => {
            let figure = ["minimum", "maximum", "average", "last"][usize::from((number - 9) / 2 % 4)];
            let scope = if number % 2 == 1 { MediaPath } else { HostPath };
            let (name, unit) = if number < 17 { ("pre-fec-ber", "ratio") } else { ("errored-frames", "frames") };
            Some((quantity(name, unit, Step::Float), figure, scope))
        }
        128 => media("modulator-bias-xi", "%", share),
        129 => media("modulator-bias-xq", "%", share),
        130 => media("modulator-bias-yi", "%", share),
        131 => media("modulator-bias-yq", "%", share),
        132 => media("modulator-bias-x-phase", "%", share),
        133 => media("modulator-bias-y-phase", "%", share),
        134 => media("dispersion-short-link", "ps/nm", Step::Signed(1, 0)),
        135 => media("dispersion-long-link", "ps/nm", Step::Signed(20, 0)),
        136 => media("differential-group-delay", "ps", Step::Unsigned(1, 2)),
        137 => media("second-order-pmd", "ps^2", Step::Unsigned(1, 2)),
        138 => media("polarization-dependent-loss", "dB", Step::Unsigned(1, 1)),
        139 => media("osnr", "dB", Step::Unsigned(1, 1)),
        140 => media("electrical-snr", "dB", Step::Unsigned(1, 1)),
        141 => media("carrier-frequency-offset", "MHz", Step::Signed(1, 0)),
        142 => media("error-vector-magnitude", "%", share),
        143 => media("tx-level", "dBm", Step::Signed(1, 2)),
        144 => media("rx-total-level", "dBm", Step::Signed(1, 2)),
        145 => media("rx-signal-level", "dBm", Step::Signed(1, 2)),
        146 => media("polarization-change-rate", "krad/s", Step::Unsigned(1, 0)),
        147 => media("modulation-error-ratio", "dB", Step::Unsigned(1, 1)),
        _ => None,
    }
}

/// The instances of a bank: 64 of each group, which has a page of each kind.
fn push_instances(image: &Image, bank: u8, advertised: bool, all: &mut Vec<Observation>) {
    let page = |page: u8| image.get(Key::upper(bank, page));
    let passed = page(0x2C);
    for group in 0..4u8 {
        let descriptors = match page(0x20 + group) {
            Some(descriptors) => descriptors,
            None => continue,
        };
        let (samples, limits) = (page(0x24 + group), page(0x28 + group));
        for index in 0..64u8 {
            let at = 128 + 2 * index;
            let (quantity, figure, scope) = match kind(descriptors.byte(at + 1)) {
                Some(kind) => kind,
                None => continue,
            };
            let none = quantity.name == "level-transition";
            let sample = samples.map(|page| page.word(at)).filter(|word| !(none && *word == 0xFFFF));
            let set = 128 + 8 * (descriptors.byte(at) >> 4);
            let number = 64 * group + index;
            all.push(Observation {
                quantity,
                figure,
                scope,
                number: 8 * bank + (descriptors.byte(at) & 15) + 1,
                amount: sample.map(|word| quantity.text(word, 1)),
                limits: std::array::from_fn(|level| limits.map(|page| quantity.text(page.word(set + 2 * level as u8), 1))),
                flags: passed.map(|page| {
                    let flags = page.nibble(128, number);
                    std::array::from_fn(|level| flags >> level & 1 == 1)
                }),
                advertised,
            });
        }
    }
}

/// The first page of bank 0 that has observables and is not in the image.
fn absent_page(image: &Image) -> Option<u8> {
    let page = |page: u8| image.get(Key::upper(0, page));
    page(0x01).filter(|advertising| advertising.bit(142, 6))?;
    let advert = match page(0x2F) {
            Some(advert) => advert,
            None => return Some(0x2F),
        };
    let groups = advert.bits(128, 1, 0);
    let of_groups = |first: u8| first..=first + groups;
    of_groups(0x20).chain(of_groups(0x28)).chain(of_groups(0x24)).chain([0x2C]).find(|number| page(*number).is_none())
}

struct Observables {
    all: Vec<Observation>,
    absent: Option<u8>,
}

pub fn observables(image: &Image, as_json: bool) -> Result<String, Fault> {
    let known = Known::in_detail(image)?;
    let mut all = Vec::new();
    let mut absent = None;
    match known.family {
        Family::Cmis => {
            cmis(image, known.lower, &mut all);
            absent = absent_page(image);
        }
        Family::Sff8636 => sff8636(image, known.lower, &mut all),
        Family::Sff8472 => sff8472(image, known.lower, &mut all),
    }
    let observables = Observables { all, absent };
    Ok(if as_json { json::text(&observables) } else { observables.text() })
}

impl Observables {
    fn text(&self) -> String {
        let mut out = format!("observables {}\n", self.all.len());
        let known = |amount: &Option<String>| amount.clone().unwrap_or_else(|| "unknown".to_string());
        for seen in &self.all {
            write!(out, "{} {} {}", seen.quantity.name, seen.figure, seen.scope.name()).unwrap();
            if !matches!(seen.scope, Scope::Module) {
                write!(out, "-{}", seen.number).unwrap();
            }
            write!(out, " {} {} limits", known(&seen.amount), seen.quantity.unit).unwrap();
            for limit in &seen.limits {
                write!(out, " {}", known(limit)).unwrap();
            }
            out.push_str(" flags");
            for level in 0..4 {
                out.push_str(match seen.flags {
                    None => " unknown",
                    Some(flags) if flags[level] => " yes",
                    Some(_) => " no",
                });
            }
            out.push_str(if seen.advertised { " advertised\n" } else { " unadvertised\n" });
        }
        if let Some(page) = self.absent {
            writeln!(out, "absent-page {page:02X}h").unwrap();
        }
        out
    }
}

const LEVELS: [&str; 4] = ["high_alarm", "low_alarm", "high_warning", "low_warning"];

struct Limits<'a>(&'a [Option<String>; 4]);

impl Serialize for Limits<'_> {
    fn serialize<S: Serializer>(&self, serializer: S) -> Result<S::Ok, S::Error> {
        let known = LEVELS.iter().zip(self.0).filter_map(|(name, limit)| Some((name, raw(limit.clone()?))));
        serializer.collect_map(known)
    }
}

struct Passed([bool; 4]);

impl Serialize for Passed {
    fn serialize<S: Serializer>(&self, serializer: S) -> Result<S::Ok, S::Error> {
        serializer.collect_map(LEVELS.iter().zip(self.0))
    }
}

impl Serialize for Observation {
    fn serialize<S: Serializer>(&self, serializer: S) -> Result<S::Ok, S::Error> {
        let mut map = serializer.serialize_map(None)?;
        map.serialize_entry("name", self.quantity.name)?;
        map.serialize_entry("figure", self.figure)?;
        map.serialize_entry("scope", self.scope.name())?;
        if !matches!(self.scope, Scope::Module) {
            map.serialize_entry("number", &self.number)?;
        }
        if let Some(amount) = &self.amount {
            map.serialize_entry("amount", &raw(amount.clone()))?;
        }
        map.serialize_entry("unit", self.quantity.unit)?;
        map.serialize_entry("limits", &Limits(&self.limits))?;
        if let Some(flags) = self.flags {
            map.serialize_entry("flags", &Passed(flags))?;
        }
        map.serialize_entry("advertised", &self.advertised)?;
        map.end()
    }
}

impl Serialize for Observables {
    fn serialize<S: Serializer>(&self, serializer: S) -> Result<S::Ok, S::Error> {
        let mut map = serializer.serialize_map(None)?;
        map.serialize_entry("dovecounter", &1)?;
        map.serialize_entry("observables", &self.all)?;
        if let Some(page) = self.absent {
            map.serialize_entry("absent_page", &page)?;
        }
        map.end()
    }
}
