//! The calls that feed a file in chunks: the state that each leaves byte for byte, its results and its number, also
//! over states that are none.

use crate::compare::{lending, number_of, Compare, Difference, Outcome};
use crate::files::{room_length, room_of};
use crate::lent::{Lent, Out};
use crate::surface::*;
use yesbrulka_reference::feed::{self, FLAGS, SITE, SIZE, TAIL, UNITS, VARS};
use yesbrulka_reference::samples::Draw;
use yesbrulka_reference::ROOM_TOO_SHORT;

/// A file is cut into no more chunks than about these, since each call reads the whole state anew.
const MOST_CHUNKS: u64 = 24;

/// The archive's state and the reference's, and how the file was cut so far.
struct Fed<'a> {
    archive: Lent<u8>,
    reference: Vec<u8>,
    cuts: Vec<usize>,
    draw: &'a mut Draw,
    to: &'a mut Compare,
}

/// Feeds a file cut anywhere, then its end, then more of both; and asks over a damaged state.
pub fn compare(file: &[u8], draw: &mut Draw, to: &mut Compare) -> Outcome {
    let state = room_of(SIZE, draw);
    let mut fed = Fed { archive: Lent::of(&state), reference: state, cuts: Vec::new(), draw, to };
    let outcome = fed.all(file);
    lending(outcome, || format!("chunks of {:?} bytes", fed.cuts))
}

/// The lengths of chunks that a file is cut into, a few of them 0 or 1.
fn cut(length: usize, draw: &mut Draw) -> Vec<usize> {
    let most = match draw.below(8) {
        0 => length + 1,
        // Byte by byte, where that does not take long.
        1 if length as u64 <= 8 * MOST_CHUNKS => 1,
        _ => (2 * length as u64 / (1 + draw.below(MOST_CHUNKS)) + 2) as usize,
    };
    let (mut left, mut cuts) = (length, Vec::new());
    while left > 0 {
        let any = 1 + draw.below(most as u64) as usize;
        let chunk = draw.one_of(&[any, any, any, any, 1, 0]).min(left);
        cuts.push(chunk);
        left -= chunk;
    }
    cuts
}

impl Fed<'_> {
    fn all(&mut self, file: &[u8]) -> Outcome {
        self.to.same("yb_feed_size", unsafe { yb_feed_size() }, SIZE as u64)?;
        self.start()?;
        let cuts = cut(file.len(), self.draw);
        let damaged_at = self.draw.below(2 * cuts.len() as u64 + 1) as usize;
        let mut from = 0;
        for (number, length) in cuts.into_iter().enumerate() {
            if number == damaged_at {
                self.damaged(&file[from..])?;
            }
            let refused = self.chunk(&file[from..from + length])?;
            from += length;
            // A refused run has the same number for ever; that is tried a few times.
            if refused && self.draw.below(3) == 0 {
                break;
            }
        }
        self.end()?;
        if self.draw.below(2) == 0 {
            self.chunk(&file[..file.len().min(3)])?;
            self.end()?;
        }
        self.damaged(file)
    }

    fn start(&mut self) -> Outcome {
        let number = unsafe { yb_feed_start(self.archive.mut_ptr(), self.archive.len()) };
        let due = number_of(&feed::start(&mut self.reference));
        self.to.same("yb_feed_start", (number, self.archive.guarded()), (due, true))?;
        self.same_state("yb_feed_start")
    }

    fn same_state(&mut self, call: &'static str) -> Outcome {
        self.to.also_bytes(call, "the state", self.archive.list(), &self.reference)?;
        self.archive.settle();
        Ok(())
    }

    /// The next chunk in a room of any kind, and where that is too short in one that is not; whether it was refused.
    fn chunk(&mut self, chunk: &[u8]) -> Result<bool, Box<Difference>> {
        self.cuts.push(chunk.len());
        let lent = Lent::of(chunk);
        let told = unsafe { yb_feed_room(self.archive.ptr(), self.archive.len(), lent.ptr(), lent.len()) };
        let kept = self.archive.kept() && lent.kept();
        // No more than a room can be.
        let told_room = told.min(1 << 24) as usize;
        let length = room_length(told_room, self.draw);
        let due = match self.feed(&lent, length)? {
            Err(ROOM_TOO_SHORT) => self.feed(&lent, told_room)?,
            due => due,
        };
        // What it takes is the answer of yb_feed_room; nothing where it is refused.
        let needed = match due {
            Err(ROOM_TOO_SHORT) => feed::room(&self.reference, chunk),
            due => due.map_or(0, |written| written as u64),
        };
        self.to.same("yb_feed_room", (told, kept), (needed, true))?;
        if self.draw.below(4) == 0 {
            self.place()?;
        }
        Ok(due.is_err())
    }

    fn feed(&mut self, chunk: &Lent<u8>, length: usize) -> Result<Result<usize, u32>, Box<Difference>> {
        let mut expected = room_of(length, self.draw);
        let mut room = Lent::of(&expected);
        let mut written = Out::left();
        let state = (self.archive.mut_ptr(), self.archive.len());
        let number = unsafe {
            yb_feed(state.0, state.1, chunk.ptr(), chunk.len(), room.mut_ptr(), room.len(), written.ptr())
        };
        let due = feed::feed(&mut self.reference, chunk.list(), &mut expected);
        let kept = chunk.kept() && room.guarded() && self.archive.guarded();
        let said = (number_of(&due), Out::said(due.ok().map(|written| written as u64)), true);
        self.to.same("yb_feed", (number, written, kept), said)?;
        self.to.also_bytes("yb_feed", "the room", room.list(), &expected)?;
        self.same_state("yb_feed")?;
        Ok(due)
    }

    fn end(&mut self) -> Outcome {
        let mut expected = room_of(room_length(7, self.draw), self.draw);
        let mut room = Lent::of(&expected);
        let mut written = Out::left();
        let state = (self.archive.mut_ptr(), self.archive.len());
        let number = unsafe { yb_feed_end(state.0, state.1, room.mut_ptr(), room.len(), written.ptr()) };
        let due = feed::end(&mut self.reference, &mut expected);
        let kept = room.guarded() && self.archive.guarded();
        let said = (number_of(&due), Out::said(due.ok().map(|written| written as u64)), true);
        self.to.same("yb_feed_end", (number, written, kept), said)?;
        self.to.also_bytes("yb_feed_end", "the room", room.list(), &expected)?;
        self.same_state("yb_feed_end")?;
        self.place()
    }

    fn place(&mut self) -> Outcome {
        let (state, length) = (self.archive.ptr(), self.archive.len());
        let place = unsafe { yb_feed_place(state, length) };
        let due = feed::place(&self.reference);
        self.to.same("yb_feed_place", (place, self.archive.kept()), (due, true))?;
        let steps = unsafe { yb_feed_steps(state, length) };
        let due = feed::steps(&self.reference);
        self.to.same("yb_feed_steps", (steps, self.archive.kept()), (due, true))
    }

    /// The calls over a copy of the state with something else in it, or of another length.
    fn damaged(&mut self, rest: &[u8]) -> Outcome {
        let mut state = self.reference.clone();
        damage_state(&mut state, self.draw);
        let length = rest.len().min(60);
        let (draw, to) = (&mut *self.draw, &mut *self.to);
        let (archive, reference) = (Lent::of(&state), state.clone());
        let outcome = Fed { archive, reference, cuts: Vec::new(), draw, to }.asked(&rest[..length]);
        lending(outcome, || {
            let both = self.reference.iter().zip(&state).enumerate();
            let other: Vec<_> =
                both.filter(|(_, (was, is))| was != is).map(|(at, (_, is))| (at, *is)).collect();
            format!("then a state of {} bytes with others at {other:?} and {length} bytes more", state.len())
        })
    }

    /// Every call over a state, good or not.
    fn asked(&mut self, chunk: &[u8]) -> Outcome {
        self.place()?;
        self.chunk(chunk)?;
        self.end()?;
        match self.draw.below(8) {
            0 => self.start(),
            _ => Ok(()),
        }
    }
}

/// A bit or a byte of one of its parts, or its length.
fn damage_state(state: &mut Vec<u8>, draw: &mut Draw) {
    if draw.below(12) == 0 {
        let length = draw.one_of(&[0, 1, SIZE - 1, SIZE + 1, 2 * SIZE]);
        state.resize(length, 0);
        return;
    }
    let parts = [0..TAIL, 0..TAIL, TAIL..UNITS, UNITS..FLAGS, FLAGS..VARS, VARS..SITE, SITE..SIZE];
    for _ in 0..1 + draw.below(2) {
        let part = parts[draw.below(parts.len() as u64) as usize].clone();
        // What is in use lies at the start of a part.
        let length = draw.one_of(&[4, 20, part.len()]).min(part.len()) as u64;
        let at = part.start + draw.below(length) as usize;
        match draw.below(3) {
            0 => state[at] = draw.any() as u8,
            1 => state[at] = state[at].wrapping_add(draw.one_of(&[1, 255])),
            _ => state[at] ^= 1 << draw.below(8),
        }
    }
}
