//! What is known of a module's memory: halves of 128 bytes.
use crate::fault::Fault;
use crate::text::{hex, lines};
use std::fmt;

#[derive(Clone, Copy, PartialEq, Eq, PartialOrd, Ord)]
pub enum Device {
    A0,
    A2,
}

impl Device {
    pub fn name(self) -> &'static str {
        match self {
            Device::A0 => "A0",
            Device::A2 => "A2",
        }
    }
}

/// The lower half of a device, or the upper one while a page of a bank is selected. Keys rise as the lines of an image.
#[derive(Clone, Copy, PartialEq, Eq, PartialOrd, Ord)]
pub enum Half {
    Lower,
    Upper { bank: u8, page: u8 },
}

#[derive(Clone, Copy, PartialEq, Eq, PartialOrd, Ord)]
pub struct Key {
    pub device: Device,
    pub half: Half,
}

impl Key {
    pub const fn lower(device: Device) -> Key {
        Key { device, half: Half::Lower }
    }

    pub const fn upper(bank: u8, page: u8) -> Key {
        Key { device: Device::A0, half: Half::Upper { bank, page } }
    }

    /// What a page line says before its bytes, and the rest of the line.
    fn read(line: &[u8]) -> Option<(Key, &[u8])> {
        let device = |name: &[u8]| match name {
            b"A0 " => Some(Device::A0),
            b"A2 " => Some(Device::A2),
            _ => None,
        };
        if let Some(rest) = line.strip_prefix(b"lower ") {
            return Some((Key::lower(device(rest.get(..3)?)?), &rest[3..]));
        }
        let rest = line.strip_prefix(b"upper ")?;
        let device = device(rest.get(..3)?)?;
        let [bank] = hex(rest.get(3..5)?)?;
        let [page] = hex(rest.get(6..8)?)?;
        let spaced = rest[5] == b' ' && rest.get(8) == Some(&b' ');
        spaced.then(|| (Key { device, half: Half::Upper { bank, page } }, &rest[9..]))
    }
}

impl fmt::Display for Key {
    fn fmt(&self, f: &mut fmt::Formatter) -> fmt::Result {
        let device = self.device.name();
        match self.half {
            Half::Lower => write!(f, "lower {device}"),
            Half::Upper { bank, page } => write!(f, "upper {device} {bank:02x} {page:02x}"),
        }
    }
}

/// A half's bytes, by their addresses: 0 to 127 of a lower half, 128 to 255 of an upper one.
#[derive(Clone)]
pub struct Page([u8; 128]);

impl Page {
    pub fn byte(&self, at: u8) -> u8 {
        self.0[usize::from(at & 127)]
    }

    pub fn set(&mut self, at: u8, byte: u8) {
        self.0[usize::from(at & 127)] = byte;
    }

    /// Bits of a byte, from the highest to the lowest.
    pub fn bits(&self, at: u8, high: u8, low: u8) -> u8 {
        self.byte(at) << (7 - high) >> (7 - high + low)
    }

    pub fn bit(&self, at: u8, bit: u8) -> bool {
        self.byte(at) >> bit & 1 == 1
    }

    pub fn word(&self, at: u8) -> u16 {
        u16::from_be_bytes([self.byte(at), self.byte(at + 1)])
    }

    pub fn bytes(&self, at: u8, count: u8) -> &[u8] {
        let at = usize::from(at & 127);
        &self.0[at..at + usize::from(count)]
    }

    pub fn nibble(&self, at: u8, index: u8) -> u8 {
        let byte = self.byte(at + index / 2);
        if index % 2 == 0 { byte & 15 } else { byte >> 4 }
    }

    /// Whether a byte is the sum of those from one address up to another.
    pub fn sum_right(&self, at: u8, first: u8, last: u8) -> bool {
        let sum = (first..=last).fold(0u8, |sum, at| sum.wrapping_add(self.byte(at)));
        sum == self.byte(at)
    }

    /// A text without the spaces and zeros at its end.
    pub fn text(&self, at: u8, count: u8) -> String {
        let bytes = self.bytes(at, count);
        let end = bytes.iter().rposition(|byte| !matches!(byte, b' ' | 0)).map_or(0, |last| last + 1);
        bytes[..end]
            .iter()
            .map(|byte| if matches!(byte, b' '..=b'~') { char::from(*byte) } else { '?' })
            .collect()
    }
}

#[derive(Clone)]
pub struct Image(Vec<(Key, Page)>);

impl Image {
    pub fn read(text: &[u8]) -> Result<Image, Fault> {
        let mut lines = lines(text);
        let (most, full) = match lines.next() {
            Some(b"module-image 1") => (16, "IM4"),
            Some(b"module-image 2") => (64, "IM7"),
            _ => return Err(Fault::new("IM1")),
        };
        let mut halves: Vec<(Key, Page)> = Vec::with_capacity(16);
        for (before, line) in lines.by_ref().enumerate() {
            if line == b"end" {
                return match lines.next() {
                    None => Ok(Image(halves)),
                    Some(_) => Err(Fault::new("IM6")),
                };
            }
            let page = Key::read(line).and_then(|(key, digits)| Some((key, Page(hex(digits)?))));
            let (key, page) = page.ok_or_else(|| Fault::with("IM2", before + 2))?;
            if halves.last().map_or(false, |(last, _)| *last >= key) {
                return Err(Fault::with("IM3", before + 2));
            }
            if halves.len() == most {
                return Err(Fault::new(full));
            }
            halves.push((key, page));
        }
        Err(Fault::new("IM5"))
    }

    pub fn get(&self, key: Key) -> Option<&Page> {
        self.0.iter().find(|(held, _)| *held == key).map(|(_, page)| page)
    }

    pub fn get_mut(&mut self, key: Key) -> Option<&mut Page> {
        self.0.iter_mut().find(|(held, _)| *held == key).map(|(_, page)| page)
    }

    /// A half that must be there, or else a fault of this code.
    pub fn need(&self, key: Key, code: &'static str) -> Result<&Page, Fault> {
        self.get(key).ok_or_else(|| Fault::with(code, key))
    }
}
