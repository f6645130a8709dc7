//! Why a command has no answer.
use std::fmt;

pub struct Fault {
    pub code: &'static str,
    /// What stands after the code.
    pub values: String,
}

impl Fault {
    pub fn new(code: &'static str) -> Fault {
        Fault { code, values: String::new() }
    }

    pub fn with(code: &'static str, value: impl fmt::Display) -> Fault {
        Fault { code, values: format!(" {value}") }
    }

    /// The program's exit status.
    pub fn status(&self) -> u8 {
        match &self.code[..2] {
            "IO" => 6,
            "PV" => 3,
            "VR" => 4,
            _ => 1,
        }
    }
}

impl fmt::Display for Fault {
    fn fmt(&self, f: &mut fmt::Formatter) -> fmt::Result {
        let word = if self.code.starts_with("VR") { "bad" } else { "fault" };
        write!(f, "{word} {}{}", self.code, self.values)
    }
}
