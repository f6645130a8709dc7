//! A bus that follows a script, and what was done on it.
use crate::fault::Fault;
use crate::module::Module;
use crate::text::{decimal, lines, words};
use std::fmt::Write;

enum Directive {
    Pass(u16),
    Refuse(u16),
    Cut(usize),
    Tick(u16),
    Pin(bool),
}

pub struct Script(std::vec::IntoIter<Directive>);

impl Script {
    pub fn read(text: &[u8]) -> Result<Script, Fault> {
        let mut directives = Vec::new();
        for (before, line) in lines(text).enumerate() {
            let directive = Directive::read(line).ok_or_else(|| Fault::with("BU3", before + 1))?;
            if directives.len() == 1024 {
                return Err(Fault::new("BU4"));
            }
            directives.push(directive);
        }
        Ok(Script(directives.into_iter()))
    }
}

impl Directive {
    fn read(line: &[u8]) -> Option<Directive> {
        let [name, number]: [&[u8]; 2] = words(line).try_into().ok()?;
        let count = || decimal(number, 65535).filter(|count| *count > 0).map(|count| count as u16);
        match name {
            b"ok" => count().map(Directive::Pass),
            b"nack" => count().map(Directive::Refuse),
            b"tick" => count().map(Directive::Tick),
            b"cut" => decimal(number, 8).map(|count| Directive::Cut(count as usize)),
            b"lpmode" => decimal(number, 1).map(|on| Directive::Pin(on == 1)),
            _ => None,
        }
    }
}

pub enum Operation {
    Fetch { offset: u8, count: u8 },
    Store { offset: u8, bytes: Vec<u8> },
}

pub enum Reply {
    Bytes(Vec<u8>),
    Done,
    Refused,
}

pub struct Step {
    pub operation: Operation,
    pub reply: Reply,
}

pub struct Bus {
    pub module: Module,
    script: Script,
    /// How often what the script says is still to be done.
    pending: Option<(Directive, u16)>,
    pub steps: Vec<Step>,
}

impl Bus {
    pub fn new(module: Module, script: Script) -> Bus {
        Bus { module, script, pending: None, steps: Vec::new() }
    }

    pub fn transact(&mut self, operation: Operation) -> &Reply {
        let reply = match self.next_directive() {
            Some(Directive::Refuse(_)) => Reply::Refused,
            Some(Directive::Cut(most)) => {
                if let Operation::Store { offset, bytes } = &operation {
                    let taken = &bytes[..bytes.len().min(most)];
                    if !taken.is_empty() {
                        self.module.store(*offset, taken);
                    }
                }
                Reply::Refused
            }
            _ => self.pass_on(&operation),
        };
        self.module.tick();
        self.steps.push(Step { operation, reply });
        &self.steps[self.steps.len() - 1].reply
    }

    fn pass_on(&mut self, operation: &Operation) -> Reply {
        match operation {
            Operation::Fetch { offset, count } => self.module.fetch(*offset, *count).map_or(Reply::Refused, Reply::Bytes),
            Operation::Store { offset, bytes } if self.module.store(*offset, bytes) => Reply::Done,
            Operation::Store { .. } => Reply::Refused,
        }
    }

    /// Lets time pass and sets the pin as the script says, and what happens to the next transaction.
    fn next_directive(&mut self) -> Option<Directive> {
        if let Some((directive, left)) = &mut self.pending {
            let now = match directive {
                Directive::Refuse(_) => Directive::Refuse(1),
                _ => Directive::Pass(1),
            };
            *left -= 1;
            if *left == 0 {
                self.pending = None;
            }
            return Some(now);
        }
        loop {
            match self.script.0.next()? {
                Directive::Tick(count) => (0..count).for_each(|_| self.module.tick()),
                Directive::Pin(on) => self.module.set_pin(on),
                Directive::Pass(1) => return Some(Directive::Pass(1)),
                Directive::Refuse(1) => return Some(Directive::Refuse(1)),
                Directive::Pass(count) => {
                    self.pending = Some((Directive::Pass(1), count - 1));
                    return Some(Directive::Pass(1));
                }
                Directive::Refuse(count) => {
                    self.pending = Some((Directive::Refuse(1), count - 1));
                    return Some(Directive::Refuse(1));
                }
                cut => return Some(cut),
            }
        }
    }
}

/// A line for each step.
pub fn trace_text(out: &mut String, steps: &[Step]) {
    for (index, Step { operation, reply }) in steps.iter().enumerate() {
        match operation {
            Operation::Fetch { offset, count } => write!(out, "{} fetch A0 {offset} {count} =", index + 1).unwrap(),
            Operation::Store { offset, bytes } => {
                write!(out, "{} store A0 {offset}", index + 1).unwrap();
                write_hex(out, bytes);
                out.push_str(" =");
            }
        }
        match reply {
            Reply::Bytes(bytes) => write_hex(out, bytes),
            Reply::Done => out.push_str(" done"),
            Reply::Refused => out.push_str(" refused"),
        }
        out.push('\n');
    }
}

fn write_hex(out: &mut String, bytes: &[u8]) {
    for byte in bytes {
        write!(out, " {byte:02x}").unwrap();
    }
}
