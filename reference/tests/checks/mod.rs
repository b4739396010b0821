//! What the tests share that check files: the frames of files that grow, and a tally of the answers.

use std::collections::BTreeMap;

use crate::host::Host;
use yesbrulka_reference::samples::sticks::{self, Field};
use yesbrulka_reference::samples::Draw;
use yesbrulka_reference::stick::{self, Answer};

/// Files go over in frames of about this many bytes.
const FRAME: usize = 1 << 20;

/// The bytes of a check's answer and of a value part's. A check has two, of the three calls and of `yb_checked`.
pub const ANSWER: usize = 17;
pub const ANSWERS: usize = 2 * ANSWER;

fn word(bytes: &[u8], at: usize) -> u32 {
    u32::from_le_bytes(bytes[at..at + 4].try_into().expect("four bytes"))
}

pub fn long(bytes: &[u8], at: usize) -> u64 {
    u64::from_le_bytes(bytes[at..at + 8].try_into().expect("eight bytes"))
}

/// The bytes of a file or the first and last ones of it, for a message.
pub fn shown(file: &[u8]) -> String {
    let hex = |bytes: &[u8]| bytes.iter().map(|byte| format!("{byte:02X}")).collect::<String>();
    match file.len() {
        0..=400 => hex(file),
        n => format!("{} .. {} ({n} bytes)", hex(&file[..200]), hex(&file[n - 100..])),
    }
}

/// Where the check of a file ended: the refusal's number, and the tag that it was for, where there is one.
pub type Arm = (u32, Option<u8>);

fn arm(file: &[u8], answer: Answer) -> Arm {
    let tag = match answer.number {
        0 | 8 | 9 => None,
        _ => file.get(answer.place as usize).copied(),
    };
    (answer.number, tag)
}

/// A host, the frame that grows for it, and what its answers were.
pub struct Comparison {
    host: Host,
    payload: Vec<u8>,
    files: Vec<(Vec<u8>, Answer)>,
    arms: BTreeMap<Arm, u32>,
    all: u32,
    wrong: u32,
}

impl Comparison {
    pub fn start() -> Comparison {
        Comparison {
            host: Host::start(),
            payload: Vec::new(),
            files: Vec::new(),
            arms: BTreeMap::new(),
            all: 0,
            wrong: 0,
        }
    }

    /// Checks a file with the archive and with the reference; gives the reference's answer.
    pub fn check(&mut self, file: impl Into<Vec<u8>>) -> Answer {
        let file = file.into();
        let answer = stick::check(&file);
        self.add(file, answer)
    }

    /// The same, of a file whose answer's number is known beforehand.
    pub fn check_is(&mut self, number: u32, file: impl Into<Vec<u8>>) -> Answer {
        let file = file.into();
        let answer = stick::check(&file);
        assert_eq!(answer.number, number, "the reference on {}", shown(&file));
        self.add(file, answer)
    }

    /// Checks each field left out, repeated and exchanged with the first ones, and each kind put in at each place.
    pub fn check_orders(&mut self, fields: &[Field], first: usize, kinds: &[Field]) {
        for file in sticks::orders(fields, first, kinds) {
            self.check(file);
        }
    }

    /// Checks a complete file cut at every byte; each piece is refused for its end.
    pub fn check_cuts(&mut self, file: &[u8]) {
        for length in 0..file.len() {
            let number = self.check(&file[..length]).number;
            assert!(number == 1 || number == 8);
        }
    }

    /// Checks a file with each of the 255 other values at every place.
    pub fn check_bytes(&mut self, file: &[u8]) {
        for file in sticks::other_bytes(file) {
            self.check(file);
        }
    }

    /// Checks a field behind others that has no good value, with another length than its own, and with bytes missing;
    /// gives the field.
    pub fn check_spoiled(&mut self, before: &[Field], tag: u8, length: u16, draw: &mut Draw) -> Field {
        let bad = Field::new(tag, vec![0xFF; length.into()]);
        self.check_is(3, ending(before, &Field { length: length ^ 1, ..bad.clone() }, usize::MAX));
        if length != 0 {
            self.check_is(1, ending(before, &bad, 3));
            self.check_is(1, ending(before, &bad, 3 + draw.below(length.into()) as usize));
        }
        bad
    }

    fn add(&mut self, file: Vec<u8>, answer: Answer) -> Answer {
        self.payload.extend((file.len() as u32).to_le_bytes());
        self.payload.extend_from_slice(&file);
        *self.arms.entry(arm(&file, answer)).or_default() += 1;
        self.files.push((file, answer));
        if self.payload.len() > FRAME {
            self.compare();
        }
        answer
    }

    fn compare(&mut self) {
        let answer = self.host.call(b'C', &self.payload);
        assert_eq!(answer.len(), ANSWERS * self.files.len(), "two answers for each file");
        for ((file, expected), answer) in self.files.drain(..).zip(answer.chunks(ANSWERS)) {
            let got = Answer { number: word(answer, 0), place: long(answer, 4), steps: word(answer, 12) };
            let at_once = Answer { number: word(answer, 17), place: long(answer, 22), steps: word(answer, 30) };
            let disturbed = answer[16] != 0 || answer[21] != 0;
            self.all += 1;
            if got != expected || at_once != expected || disturbed {
                self.wrong += 1;
                if self.wrong <= 10 {
                    let written = if disturbed { ", lent memory changed" } else { "" };
                    let archive = format!("archive   {got:?}, yb_checked {at_once:?}{written}");
                    eprintln!("{}\n  {archive}\n  reference {expected:?}", shown(&file));
                }
            }
        }
        self.payload.clear();
    }

    /// Compares what is left, and gives how often each arm was met.
    pub fn end(mut self) -> BTreeMap<Arm, u32> {
        self.compare();
        assert!(self.host.end().0.success(), "the host ended badly");
        assert_eq!(self.wrong, 0, "wrong answers of {}", self.all);
        println!("{} files", self.all);
        self.arms
    }
}

/// The file of these fields and then of one more, of which so many bytes are left.
pub fn ending(before: &[Field], field: &Field, left: usize) -> Vec<u8> {
    let mut file = sticks::bytes(before);
    let place = file.len();
    field.put(&mut file);
    file.truncate(place.saturating_add(left));
    file
}

pub fn met(arms: &BTreeMap<Arm, u32>, number: u32) -> u32 {
    arms.iter().filter(|((n, _), _)| *n == number).map(|(_, count)| count).sum()
}
