//! What the tests share that lend files: the frames of files that grow, what comes back, rooms, and a tally of what was
//! met.

use std::collections::BTreeMap;

use yesbrulka_reference::samples::Draw;

/// Files go over in frames of about this many bytes.
#[allow(dead_code)] // not every test lends files
pub const FRAME: usize = 1 << 20;

#[allow(dead_code)] // not every test lends files
pub fn put_file(payload: &mut Vec<u8>, file: &[u8]) {
    payload.extend((file.len() as u32).to_le_bytes());
    payload.extend_from_slice(file);
}

/// What is left of an answer.
pub struct Rest<'a>(pub &'a [u8]);

impl<'a> Rest<'a> {
    pub fn take<const N: usize>(&mut self) -> [u8; N] {
        self.bytes(N).try_into().expect("as many bytes as were taken")
    }

    /// So many bytes.
    pub fn bytes(&mut self, length: usize) -> &'a [u8] {
        assert!(self.0.len() >= length, "the answer is cut short");
        let (taken, rest) = self.0.split_at(length);
        self.0 = rest;
        taken
    }
}

/// The bytes of a file or the first and last ones of it, for a message.
#[allow(dead_code)] // not every test lends files
pub fn shown(file: &[u8]) -> String {
    let hex = |bytes: &[u8]| bytes.iter().map(|byte| format!("{byte:02X}")).collect::<String>();
    match file.len() {
        0..=400 => hex(file),
        n => format!("{} .. {} ({n} bytes)", hex(&file[..200]), hex(&file[n - 100..])),
    }
}

/// The units that a file says it has, by the place of that byte alone; whether it is accepted or not.
#[allow(dead_code)] // not every test asks for units
pub fn said_units(file: &[u8]) -> usize {
    file.get(4).copied().unwrap_or(1).into()
}

/// A room's length beside what a call writes.
#[derive(Clone, Copy)]
#[allow(dead_code)] // not every test lends rooms
pub enum Room {
    Exact,
    OneShort,
    Longer(usize),
    Of(usize),
}

#[allow(dead_code)] // not every test lends rooms
impl Room {
    /// Mostly exact, so that there is a result.
    pub fn any(draw: &mut Draw) -> Room {
        let more = draw.below(60) as usize;
        draw.one_of(&[
            Room::Exact,
            Room::Exact,
            Room::Exact,
            Room::Longer(more),
            Room::OneShort,
            Room::Of(more),
        ])
    }

    pub fn length(self, needed: usize) -> usize {
        match self {
            Room::Exact => needed,
            Room::OneShort => needed.saturating_sub(1),
            Room::Longer(more) => needed + more,
            Room::Of(length) => length,
        }
    }
}

/// What was met, and how often. A test says what it must have met, so that it cannot go on passing over inputs
/// that no longer show anything.
#[derive(Default)]
#[allow(dead_code)] // there are tests with a tally of their own
pub struct Met(BTreeMap<(&'static str, u32), u32>);

#[allow(dead_code)] // there are tests with a tally of their own
impl Met {
    pub fn note(&mut self, what: &'static str, which: u32) {
        *self.0.entry((what, which)).or_default() += 1;
    }

    /// Each of these was met more than so often.
    pub fn more_than(&self, count: u32, what: &'static str, which: impl IntoIterator<Item = u32>) {
        for which in which {
            let met = self.0.get(&(what, which)).copied().unwrap_or(0);
            assert!(met > count, "{what} {which} was met only {met} times");
        }
    }
}
