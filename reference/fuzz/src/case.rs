//! A kind of input, and the pool of those that showed something new.

use std::fmt::Debug;
use std::panic::{self, AssertUnwindSafe};
use std::time::{Duration, Instant};

use crate::compare::{Compare, Difference, Outcome};
use crate::cover::{self, Seen};
use yesbrulka_reference::samples::Draw;

/// An input that calls are made with.
pub trait Case: Clone + Debug {
    const KIND: &'static str;

    fn fresh(draw: &mut Draw) -> Self;

    /// Changed in a few places, or with something of another one in it.
    fn changed(&self, other: &Self, draw: &mut Draw) -> Self;

    /// Makes the calls with the archive and with the reference.
    fn compare(&self, to: &mut Compare) -> Outcome;

    /// The same with something left out, to show a difference by as little as can be.
    fn smaller(&self) -> Vec<Self> {
        Vec::new()
    }

    /// The bytes to keep of it.
    fn stored(&self) -> Vec<u8> {
        format!("{self:#?}\n").into_bytes()
    }
}

/// What was found, as it is to be kept and told.
pub struct Found {
    pub difference: Difference,
    pub kind: &'static str,
    pub stored: Vec<u8>,
    pub input: String,
}

/// A pool holds no more than these; then one of them gives way.
const MOST_KEPT: usize = 4_000;

/// A difference is made smaller for no longer than this.
const MOST_TIME: Duration = Duration::from_secs(20);

/// The inputs of a kind that went where none of it had gone before.
pub struct Pool<C> {
    kept: Vec<C>,
    seen: Seen,
    pub tried: u64,
}

impl<C: Case> Pool<C> {
    pub fn new() -> Pool<C> {
        Pool { kept: Vec::new(), seen: Seen::nothing(), tried: 0 }
    }

    pub fn kept(&self) -> usize {
        self.kept.len()
    }

    pub fn seen(&self) -> &Seen {
        &self.seen
    }

    /// A fresh one, or for the most part a change of one that was kept; where none is, of a fresh one.
    pub fn next(&self, draw: &mut Draw) -> C {
        let kept = |draw: &mut Draw| match self.kept.len() {
            0 => C::fresh(draw),
            length => self.kept[draw.below(length as u64) as usize].clone(),
        };
        match draw.below(3) {
            0 => C::fresh(draw),
            _ => kept(draw).changed(&kept(draw), draw),
        }
    }

    /// Tries one, and keeps it if the reference went through something new.
    pub fn try_one(&mut self, case: C, to: &mut Compare, draw: &mut Draw) -> Result<(), Box<Found>> {
        cover::reset();
        self.tried += 1;
        if let Err(difference) = compared(&case, to) {
            return Err(Box::new(found(case, *difference, to)));
        }
        if self.seen.take() {
            match self.kept.len() {
                MOST_KEPT => self.kept[draw.below(MOST_KEPT as u64) as usize] = case,
                _ => self.kept.push(case),
            }
        }
        Ok(())
    }
}

/// The comparison. The reference answers any input, so that its panic is a difference too.
fn compared<C: Case>(case: &C, to: &mut Compare) -> Outcome {
    let made = panic::catch_unwind(AssertUnwindSafe(|| case.compare(to)));
    made.unwrap_or_else(|_| {
        let reference = "it panicked, as told above".to_string();
        let (archive, lent) = Default::default();
        Err(Box::new(Difference { call: "a function of the reference", archive, reference, lent }))
    })
}

/// The smallest input that could be made of one and still differs in the same call.
fn found<C: Case>(case: C, difference: Difference, to: &mut Compare) -> Found {
    let (mut case, mut difference) = (case, difference);
    let started = Instant::now();
    let (mut from, mut smaller) = (0, false);
    loop {
        let candidates = case.smaller().into_iter().enumerate().skip(from);
        let mut candidates = candidates.take_while(|_| started.elapsed() < MOST_TIME);
        let next = candidates.find_map(|(at, candidate)| match compared(&candidate, to) {
            Err(other) if other.call == difference.call => Some((at, candidate, *other)),
            _ => None,
        });
        match next {
            Some((at, candidate, other)) => {
                // What comes before this was tried a moment ago; it has its turn again at the end.
                (case, difference, from, smaller) = (candidate, other, at, true);
            }
            None if smaller => (from, smaller) = (0, false),
            None => break,
        }
    }
    Found { difference, kind: C::KIND, stored: case.stored(), input: format!("{case:?}") }
}
