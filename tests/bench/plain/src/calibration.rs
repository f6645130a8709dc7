//! Amounts of an SFF-8472 module whose values the host has to calibrate.
use crate::image::Page;
use std::cmp::Ordering;

#[derive(Clone, Copy, PartialEq)]
pub enum Monitor {
    Temperature,
    Vcc,
    TxBias,
    TxPower,
    RxPower,
}

#[derive(Clone, Copy)]
pub struct Constants {
    /// Of bias, transmitted power, temperature and supply voltage, in this order: slopes in 256ths, and offsets.
    lines: [(u16, i16); 4],
    /// Of received power: what the fourth power of a reading is multiplied by, and so on.
    rx_power: [f32; 5],
}

impl Constants {
    pub fn of(page: &Page) -> Constants {
        Constants {
            lines: std::array::from_fn(|index| (page.word(76 + 4 * index as u8), page.word(78 + 4 * index as u8) as i16)),
            rx_power: std::array::from_fn(|index| {
                let at = 56 + 4 * index as u8;
                f32::from_bits(u32::from(page.word(at)) << 16 | u32::from(page.word(at + 2)))
            }),
        }
    }

    /// Whether received power can be calibrated: no constant may make more than 2^48 steps of a reading.
    pub fn are_usable(&self) -> bool {
        let powers = (0..5).rev();
        self.rx_power.iter().zip(powers).all(|(constant, power)| constant.abs() < 2f32.powi(48 - 16 * power))
    }

    /// In thousandths of C, mV, mA or uW, rounded down.
    pub fn amount(&self, monitor: Monitor, word: u16) -> Option<i64> {
        let line = |index: usize, reading: i64| i64::from(self.lines[index].0) * reading + 256 * i64::from(self.lines[index].1);
        let reading = i64::from(word);
        match monitor {
            Monitor::TxBias => Some((line(0, reading) * 2).div_euclid(256)),
            Monitor::TxPower => Some((line(1, reading) * 100).div_euclid(256)),
            Monitor::Temperature => Some((line(2, i64::from(word as i16)) * 1000).div_euclid(256 * 256)),
            Monitor::Vcc => Some((line(3, reading) * 100).div_euclid(256)),
            Monitor::RxPower => self.are_usable().then(|| self.received(reading)),
        }
    }

    /// The polynomial exactly, as a whole number of 2^-149, in two limbs of 96 bits; a hundred times that, rounded down.
    fn received(&self, reading: i64) -> i64 {
        let (mut high, mut low) = (0i128, 0i128);
        for (constant, power) in self.rx_power.iter().zip((0..5).rev()) {
            let bits = constant.to_bits();
            let (exponent, fraction) = (bits >> 23 & 255, i128::from(bits & 0x7F_FFFF));
            let (size, doublings) = if exponent == 0 { (fraction, 0) } else { (fraction + 0x80_0000, exponent - 1) };
            let product = if constant.is_sign_negative() { -size } else { size } * i128::from(reading).pow(power);
            match (product, doublings.cmp(&96)) {
                (0, _) => {}
                (_, Ordering::Less) => {
                    high += product >> (96 - doublings);
                    low += (product & ((1 << (96 - doublings)) - 1)) << doublings;
                }
                _ => high += product << (doublings - 96),
            }
        }
        ((high * 100 + (low * 100 >> 96)) >> 53) as i64
    }
}
