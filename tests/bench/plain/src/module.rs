//! A simulated CMIS module.
use crate::advert::Advert;
use crate::fault::Fault;
use crate::image::{Device, Half, Image, Key};

/// Ticks that each kind of work takes.
const DELAY: u16 = 4;

const LOW_PWR: u8 = 1;
const PWR_UP: u8 = 2;
pub const READY: u8 = 3;
const PWR_DN: u8 = 4;

pub const DEACTIVATED: u8 = 1;
const INIT: u8 = 2;
const DEINIT: u8 = 3;
pub const ACTIVATED: u8 = 4;
const TX_TURN_ON: u8 = 5;
const TX_TURN_OFF: u8 = 6;
const INITIALIZED: u8 = 7;

const IN_PROGRESS: u8 = 12;

const CONTROLS: Key = Key::upper(0, 0x10);
const STATUS: Key = Key::upper(0, 0x11);

#[derive(Clone, Copy)]
struct Lane {
    state: u8,
    /// Ticks until the state's work is done.
    left: u16,
    status: u8,
    staged: u8,
    active: u8,
    /// What an apply in progress will make active.
    kept: Option<u8>,
}

pub struct Module {
    image: Image,
    advert: Advert,
    state: u8,
    left: u16,
    lanes: [Lane; 8],
    apply_left: u16,
    deinit: u8,
    power: u8,
    pin: bool,
    waiting_bank: u8,
    bank: u8,
    page: u8,
}

impl Module {
    pub fn new(image: &Image, advert: Advert) -> Result<Module, Fault> {
        let controls = image.need(CONTROLS, "SM1")?;
        let status = image.need(STATUS, "SM1")?;
        let power = image.need(Key::lower(Device::A0), "SM1")?.byte(26) & !8;
        let lanes: [Lane; 8] = std::array::from_fn(|index| Lane {
            state: DEACTIVATED,
            left: 0,
            status: 0,
            staged: controls.byte(145 + index as u8),
            active: status.byte(206 + index as u8),
            kept: None,
        });
        if let Some(lane) = not_a_path(&lanes.map(|lane| lane.active)) {
            return Err(Fault::with("SM4", lane));
        }
        let deinit = controls.byte(128);
        let mut module = Module {
            image: image.clone(),
            advert,
            state: READY,
            left: 0,
            lanes,
            apply_left: 0,
            deinit,
            power,
            pin: false,
            waiting_bank: 0,
            bank: 0,
            page: 0,
        };
        if module.low_power() {
            module.state = LOW_PWR;
        }
        Ok(module)
    }

    pub fn active(&self) -> [u8; 8] {
        self.lanes.map(|lane| lane.active)
    }

    pub fn set_pin(&mut self, on: bool) {
        self.pin = on;
    }

    fn low_power(&self) -> bool {
        self.power >> 4 & 1 == 1 || (self.power >> 6 & 1 == 1 && self.pin)
    }

    /// The half that an address shows.
    fn shown(&self, offset: u8) -> Key {
        if offset < 128 {
            Key::lower(Device::A0)
        } else {
            Key::upper(self.bank, self.page)
        }
    }

    pub fn fetch(&mut self, offset: u8, count: u8) -> Option<Vec<u8>> {
        let key = self.shown(offset);
        self.image.get(key)?;
        Some((0..count).map(|index| self.read(key, offset + index)).collect())
    }

    fn read(&mut self, key: Key, at: u8) -> u8 {
        let memory = match self.image.get_mut(key) {
            Some(page) => page,
            None => return 0,
        };
        let byte = memory.byte(at);
        match (key.half, at) {
            (Half::Lower, 3) => byte & !0xE | self.state << 1,
            (Half::Lower, 26) => self.power,
            (Half::Lower, 126) => self.bank,
            (Half::Lower, 127) => self.page,
            (Half::Lower, 9) => {
                memory.set(at, 0);
                byte
            }
            (Half::Upper { bank: 0, page: 0x10 }, _) => match at {
                128 => self.deinit,
                143 => 0,
                145..=152 => self.lanes[usize::from(at - 145)].staged,
                _ => byte,
            },
            (Half::Upper { bank: 0, page: 0x11 }, _) => match at {
                128..=131 => self.pair(at - 128, |lane| lane.state),
                134..=152 => {
                    memory.set(at, 0);
                    byte
                }
                202..=205 => self.pair(at - 202, |lane| lane.status),
                206..=213 => self.lanes[usize::from(at - 206)].active,
                _ => byte,
            },
            _ => byte,
        }
    }

    /// The codes of two lanes in one byte.
    fn pair(&self, index: u8, code: impl Fn(&Lane) -> u8) -> u8 {
        let first = 2 * usize::from(index);
        code(&self.lanes[first]) | code(&self.lanes[first + 1]) << 4
    }

    /// Whether the bytes are taken.
    pub fn store(&mut self, offset: u8, bytes: &[u8]) -> bool {
        let key = self.shown(offset);
        if self.image.get(key).is_none() {
            return false;
        }
        for (at, byte) in (offset..=255).zip(bytes) {
            self.write(key.half, at, *byte);
        }
        true
    }

    fn write(&mut self, half: Half, at: u8, byte: u8) {
        match (half, at) {
            (Half::Lower, 26) => self.power = byte & !8,
            (Half::Lower, 126) => self.waiting_bank = byte,
            (Half::Lower, 127) => self.select(byte),
            (Half::Upper { bank: 0, page: 0x10 }, 128) => self.deinit = byte,
            (Half::Upper { bank: 0, page: 0x10 }, 143) => self.apply(byte),
            (Half::Upper { bank: 0, page: 0x10 }, 145..=152) => self.lanes[usize::from(at - 145)].staged = byte,
            _ => {}
        }
    }

    fn select(&mut self, page: u8) {
        if self.image.get(Key::upper(self.waiting_bank, page)).is_some() {
            (self.bank, self.page) = (self.waiting_bank, page);
        } else {
            (self.waiting_bank, self.bank, self.page) = (0, 0, 0);
        }
    }

    /// The lanes of a lane's path in the Active Control Set.
    fn active_path(&self, lane: usize) -> u8 {
        let path = self.lanes[lane].active >> 1;
        (0..8).filter(|other| self.lanes[*other].active >> 1 == path).fold(0, |lanes, other| lanes | 1 << other)
    }

    /// The lanes that a lane's staged byte asks for, if they are a path.
    fn staged_path(&self, lane: usize) -> Option<u8> {
        let staged = self.lanes[lane].staged;
        let app = self.advert.app(staged >> 4)?;
        let first = usize::from(staged >> 1 & 7);
        let end = first + usize::from(app.host_lanes);
        let is_path = app.host_starts >> first & 1 == 1
            && end <= 8
            && (first..end).contains(&lane)
            && self.lanes[first..end].iter().all(|other| other.staged >> 1 == staged >> 1);
        is_path.then(|| (first..end).fold(0, |lanes, other| lanes | 1 << other))
    }

    /// Why a lane can't be applied with the others, as a status.
    fn rejection(&self, lane: usize, asked: u8) -> Option<u8> {
        let Lane { state, staged, active, .. } = self.lanes[lane];
        if state != DEACTIVATED {
            return Some(6);
        }
        let mut path = 0;
        if staged >> 4 != 0 {
            if !self.advert.app(staged >> 4).map_or(false, |app| app.is_usable()) {
                return Some(3);
            }
            if staged & 1 == 1 {
                return Some(5);
            }
            match self.staged_path(lane) {
                Some(lanes) => path = lanes,
                None => return Some(4),
            }
        }
        if active >> 4 != 0 {
            path |= self.active_path(lane);
        }
        (path & !asked != 0).then(|| 7)
    }

    fn apply(&mut self, asked: u8) {
        if asked == 0 {
            return;
        }
        for (index, lane) in self.lanes.iter_mut().enumerate() {
            if lane.kept.take().is_some() && asked >> index & 1 == 0 {
                lane.status = 2;
            }
        }
        self.apply_left = 0;
        let is_asked = |index: usize| asked >> index & 1 == 1;
        let reasons: [Option<u8>; 8] =
            std::array::from_fn(|index| if is_asked(index) { self.rejection(index, asked) } else { None });
        let rejected = reasons.iter().any(|reason| reason.is_some());
        for index in (0..8).filter(|index| is_asked(*index)) {
            let lane = &mut self.lanes[index];
            if rejected {
                lane.status = reasons[index].unwrap_or(2);
            } else {
                (lane.kept, lane.status) = (Some(lane.staged), IN_PROGRESS);
            }
        }
        if !rejected {
            self.apply_left = DELAY;
        }
    }

    fn is_down(&self, lane: usize) -> bool {
        if self.lanes[lane].active >> 4 == 0 || self.state != READY || self.low_power() {
            return true;
        }
        let path = self.active_path(lane);
        path & self.deinit != 0 || (0..8).any(|other| path >> other & 1 == 1 && self.lanes[other].status == IN_PROGRESS)
    }

    pub fn tick(&mut self) {
        let down: [bool; 8] = std::array::from_fn(|lane| self.is_down(lane));
        let deactivated = self.lanes.iter().all(|lane| lane.state == DEACTIVATED);
        let done = count_down(&mut self.left);
        let next = match self.state {
            READY if self.low_power() && deactivated => PWR_DN,
            PWR_DN if done => LOW_PWR,
            LOW_PWR if !self.low_power() => PWR_UP,
            PWR_UP if done => READY,
            state => state,
        };
        if next != self.state && matches!(next, PWR_DN | PWR_UP) {
            self.left = DELAY;
        }
        self.state = next;
        let mut changed = 0;
        for (index, lane) in self.lanes.iter_mut().enumerate() {
            let next = next_path_state(lane.state, down[index], count_down(&mut lane.left));
            if next != lane.state {
                match next {
                    DEACTIVATED | INITIALIZED | ACTIVATED => changed |= 1 << index,
                    _ => lane.left = DELAY,
                }
            }
            lane.state = next;
        }
        if let (true, Some(status)) = (changed != 0, self.image.get_mut(STATUS)) {
            status.set(134, status.byte(134) | changed);
        }
        if count_down(&mut self.apply_left) {
            for lane in &mut self.lanes {
                if let Some(kept) = lane.kept.take() {
                    (lane.active, lane.status) = (kept, 1);
                }
            }
        }
    }
}

/// Lets a tick pass, and whether a counter that ran came to 0.
fn count_down(left: &mut u16) -> bool {
    let ran = *left > 0;
    *left = left.saturating_sub(1);
    ran && *left == 0
}

fn next_path_state(state: u8, down: bool, done: bool) -> u8 {
    match state {
        DEACTIVATED if !down => INIT,
        INIT if done => INITIALIZED,
        INITIALIZED => if down { DEINIT } else { TX_TURN_ON },
        TX_TURN_ON if done => ACTIVATED,
        ACTIVATED if down => TX_TURN_OFF,
        TX_TURN_OFF if done => INITIALIZED,
        DEINIT if done => DEACTIVATED,
        state => state,
    }
}

/// The lowest lane whose byte names a path that isn't there.
fn not_a_path(bytes: &[u8; 8]) -> Option<usize> {
    let fits = |lane: usize| {
        let first = usize::from(bytes[lane] >> 1 & 7);
        first <= lane && bytes[first..=lane].iter().all(|byte| byte >> 1 == bytes[lane] >> 1)
    };
    (0..8).find(|lane| bytes[*lane] >> 4 != 0 && !fits(*lane)).map(|lane| lane + 1)
}
