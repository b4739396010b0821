//! The comparison: an answer of the archive beside the reference's, the tally of compared calls, and a difference.

use std::collections::BTreeMap;
use std::fmt::{Debug, Write};

/// Two answers that are not the same.
pub struct Difference {
    pub call: &'static str,
    pub archive: String,
    pub reference: String,
    /// What was lent to the call beside the input itself.
    pub lent: String,
}

pub type Outcome = Result<(), Box<Difference>>;

/// The calls so far, and what a comparison leans on beside its input.
pub struct Compare {
    calls: BTreeMap<&'static str, u64>,
    /// Where this is set the reference's steps of a file with a weather are one too many, to see that it is found.
    pub wrong_on_purpose: bool,
}

impl Compare {
    pub fn new(wrong_on_purpose: bool) -> Compare {
        Compare { calls: BTreeMap::new(), wrong_on_purpose }
    }

    /// Counts a call, and holds what it returned and left to what it should have.
    pub fn same<T: PartialEq + Debug>(&mut self, call: &'static str, archive: T, reference: T) -> Outcome {
        *self.calls.entry(call).or_default() += 1;
        self.also(call, archive, reference)
    }

    /// More of what a counted call left.
    pub fn also<T: PartialEq + Debug>(&self, call: &'static str, archive: T, reference: T) -> Outcome {
        if archive == reference {
            return Ok(());
        }
        let (archive, reference) = (format!("{archive:?}"), format!("{reference:?}"));
        Err(Box::new(Difference { call, archive, reference, lent: String::new() }))
    }

    /// Bytes that a counted call left: told from the first that differs.
    pub fn also_bytes(&self, call: &'static str, what: &str, archive: &[u8], reference: &[u8]) -> Outcome {
        if archive == reference {
            return Ok(());
        }
        let both = archive.iter().zip(reference);
        let from = both.take_while(|(one, other)| one == other).count();
        let told = |bytes: &[u8]| {
            let part = &bytes[from..bytes.len().min(from + 40)];
            format!("{what} of {} bytes, from byte {from}: {}", bytes.len(), hex(part))
        };
        let (archive, reference) = (told(archive), told(reference));
        Err(Box::new(Difference { call, archive, reference, lent: String::new() }))
    }

    pub fn calls(&self) -> impl Iterator<Item = (&'static str, u64)> + '_ {
        self.calls.iter().map(|(&call, &count)| (call, count))
    }

    pub fn all_calls(&self) -> u64 {
        self.calls.values().sum()
    }
}

/// The outcome with words on what else was lent, where it is a difference.
pub fn lending(outcome: Outcome, lent: impl Fn() -> String) -> Outcome {
    outcome.map_err(|mut difference| {
        let within = std::mem::take(&mut difference.lent);
        difference.lent = [lent(), within].join(" ");
        difference
    })
}

/// The number that a call must return: that of the refusal, or 0.
pub fn number_of<T>(said: &Result<T, u32>) -> u32 {
    said.as_ref().err().copied().unwrap_or(0)
}

pub fn hex(bytes: &[u8]) -> String {
    bytes.iter().fold(String::new(), |mut text, byte| {
        write!(text, "{byte:02X}").expect("a string takes all");
        text
    })
}
