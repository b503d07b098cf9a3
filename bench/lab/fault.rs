//! Why the program ends without its result, and how it tells that.

use crate::terms::Refusal;

/// Why a program ends without its result. A fault of a text comes before a refusal.
pub enum Fault {
    Text { line: u64, number: u8 },
    Refused { line: u64, number: Refusal },
    BadSize,
    Read,
    Write,
}

impl Fault {
    /// The line that tells it, and the status that the program ends with.
    pub fn told(&self) -> (String, u8) {
        match self {
            Fault::Text { line, number } => (format!("line {line}: fault {number}"), 2),
            Fault::Refused { line, number } => (format!("line {line}: refused {number}"), 2),
            Fault::BadSize => ("bad size".to_string(), 2),
            Fault::Read => ("read failed".to_string(), 3),
            Fault::Write => ("write failed".to_string(), 3),
        }
    }
}
