//! What a host does on the bus to bring a plan into a module.
use crate::bus::{Bus, Operation, Reply};
use crate::fault::Fault;
use crate::module::{ACTIVATED, DEACTIVATED, READY};

const MOST_STEPS: u16 = 4096;

/// One call: its steps, and the page that it knows to be selected.
struct Call<'a> {
    bus: &'a mut Bus,
    steps: u16,
    page: Option<u8>,
}

impl Call<'_> {
    fn new(bus: &mut Bus) -> Call {
        Call { bus, steps: 0, page: None }
    }

    fn transact(&mut self, operation: Operation) -> Result<&Reply, Fault> {
        if self.steps == MOST_STEPS {
            return Err(Fault::new("PV4"));
        }
        self.steps += 1;
        Ok(self.bus.transact(operation))
    }

    /// Selects a page and reads that back, until it is so.
    fn select(&mut self, page: u8) -> Result<(), Fault> {
        while self.page != Some(page) {
            self.transact(Operation::Store { offset: 126, bytes: vec![0, page] })?;
            if self.fetch([126, 2])? == [0, page] {
                self.page = Some(page);
            } else {
                self.page = None;
            }
        }
        Ok(())
    }

    /// Fetches so many bytes from an address until that is answered.
    fn fetch(&mut self, [offset, count]: [u8; 2]) -> Result<Vec<u8>, Fault> {
        loop {
            if let Reply::Bytes(bytes) = self.transact(Operation::Fetch { offset, count })? {
                return Ok(bytes.clone());
            }
        }
    }

    fn store(&mut self, offset: u8, bytes: &[u8]) -> Result<(), Fault> {
        loop {
            if let Reply::Done = self.transact(Operation::Store { offset, bytes: bytes.to_vec() })? {
                return Ok(());
            }
        }
    }

    fn find_ready(&mut self) -> Result<(), Fault> {
        match self.fetch([3, 1])?[0] >> 1 & 7 {
            READY => Ok(()),
            state @ (0 | 6 | 7) => Err(Fault::with("PV7", state)),
            state => Err(Fault::with("PV6", state)),
        }
    }

    /// The codes of the eight lanes.
    fn fetch_codes(&mut self, offset: u8) -> Result<[u8; 8], Fault> {
        self.select(0x11)?;
        let bytes = self.fetch([offset, 4])?;
        Ok(std::array::from_fn(|lane| bytes[lane / 2] >> (lane % 2 * 4) & 15))
    }

    /// Waits until lanes have a path state. A reserved one in certain lanes is a fault.
    fn await_state(&mut self, state: u8, lanes: u8, judged: u8) -> Result<(), Fault> {
        loop {
            let states = self.fetch_codes(128)?;
            if let Some(code) = find(&states, judged, |code| !(1..=7).contains(&code)).map(|(_, code)| code) {
                return Err(Fault::with("PV7", code));
            }
            if find(&states, lanes, |code| code != state).is_none() {
                return Ok(());
            }
        }
    }

    fn await_success(&mut self, lanes: u8) -> Result<(), Fault> {
        loop {
            let statuses = self.fetch_codes(202)?;
            if let Some((_, code)) = find(&statuses, lanes, |code| matches!(code, 8..=11)) {
                return Err(Fault::with("PV7", code));
            }
            if let Some((lane, code)) = find(&statuses, lanes, |code| matches!(code, 2..=7 | 13..=15)) {
                return Err(Fault::with("PV1", format_args!("{lane} {code}")));
            }
            if find(&statuses, lanes, |code| code != 1).is_none() {
                return Ok(());
            }
        }
    }

    fn compare(&mut self, page: u8, offset: u8, control: &[u8; 8], code: &'static str) -> Result<(), Fault> {
        self.select(page)?;
        let bytes = self.fetch([offset, 8])?;
        match bytes.iter().zip(control).position(|(read, wanted)| read != wanted) {
            Some(lane) => Err(Fault::with(code, lane + 1)),
            None => Ok(()),
        }
    }
}

/// The lowest of certain lanes whose code fits, and the code.
fn find(codes: &[u8; 8], lanes: u8, fits: impl Fn(u8) -> bool) -> Option<(usize, u8)> {
    (0..8).find(|lane| lanes >> lane & 1 == 1 && fits(codes[*lane])).map(|lane| (lane + 1, codes[lane]))
}

/// Brings the control bytes into the Active Control Set; the lanes of kept paths are not taken down.
pub fn provision(bus: &mut Bus, control: &[u8; 8], kept: u8) -> Result<u16, Fault> {
    let mut call = Call::new(bus);
    call.find_ready()?;
    call.select(0x10)?;
    call.store(128, &[!kept])?;
    call.await_state(DEACTIVATED, !kept, !kept)?;
    call.select(0x10)?;
    call.store(145, control)?;
    call.compare(0x10, 145, control, "PV2")?;
    call.store(143, &[!kept])?;
    call.await_success(!kept)?;
    call.compare(0x11, 206, control, "PV3")?;
    Ok(call.steps)
}

/// Brings the paths of these lanes up.
pub fn activate(bus: &mut Bus, control: &[u8; 8], lanes: u8) -> Result<u16, Fault> {
    let mut call = Call::new(bus);
    call.find_ready()?;
    call.compare(0x11, 206, control, "PV3")?;
    call.select(0x10)?;
    call.store(128, &[!lanes])?;
    call.await_state(ACTIVATED, lanes, 0xFF)?;
    Ok(call.steps)
}

/// Brings the module out of low power.
pub fn wake(bus: &mut Bus) -> Result<u16, Fault> {
    let mut call = Call::new(bus);
    let power = call.fetch([26, 1])?[0];
    call.store(26, &[power & !0x58])?;
    loop {
        match call.fetch([3, 1])?[0] >> 1 & 7 {
            READY => return Ok(call.steps),
            5 => return Err(Fault::with("PV6", 5)),
            state @ (0 | 6 | 7) => return Err(Fault::with("PV7", state)),
            _ => {}
        }
    }
}
