//! What the tests share that rescue files: the frames of rooms and files that grow, what a rescue must leave, and what
//! came back.

use std::fmt;

use crate::frames::{put_file, shown, Met, Rest, Room, FRAME};
use crate::host::{lent_room, Host};
use yesbrulka_reference::octets::f64_at;
use yesbrulka_reference::ranges::MOST_BYTES;
use yesbrulka_reference::rescue::{self, Change, Kind, Rescued, CHANGE};
use yesbrulka_reference::samples::{sticks, Draw};
use yesbrulka_reference::season;
use yesbrulka_reference::solar::Weather;
use yesbrulka_reference::stick::{self, Answer, MISSING, VOLTAGE, WEATHER};
use yesbrulka_reference::ROOM_TOO_SHORT;

/// A room beside what it must hold, as the tally has it.
pub const EXACT: u32 = 0;
pub const LONGER: u32 = 1;
pub const ONE_SHORT: u32 = 2;
pub const EMPTY: u32 = 3;
pub const SHORTER: u32 = 4;

fn case(length: usize, needed: usize) -> u32 {
    match length {
        _ if length == needed => EXACT,
        _ if length > needed => LONGER,
        0 => EMPTY,
        _ if length + 1 == needed => ONE_SHORT,
        _ => SHORTER,
    }
}

/// The number of a pair of rooms in the tally: that for the output, and that for the list.
pub fn both(out: u32, list: u32) -> u32 {
    10 * out + list
}

/// The number of the kinds of changes that a file has, in the tally: one bit for each.
pub fn kinds(list: &[u32]) -> u32 {
    list.iter().fold(0, |kinds, kind| kinds | 1 << kind)
}

/// What the four calls return for a file, and what the last of them leaves in the rooms.
#[derive(PartialEq, Eq)]
struct Left {
    room: u64,
    changes: u64,
    steps: u32,
    number: u32,
    disturbed: bool,
    out: Vec<u8>,
    list: Vec<u8>,
}

impl fmt::Display for Left {
    fn fmt(&self, f: &mut fmt::Formatter) -> fmt::Result {
        let Left { room, changes, steps, number, .. } = self;
        write!(f, "number {number}, room {room}, changes {changes}, steps {steps}")?;
        if self.disturbed {
            write!(f, ", the file or a guard was written")?;
        }
        write!(f, "\n    output {}\n    list   {}", shown(&self.out), shown(&self.list))
    }
}

/// The outputs on their way to a run by the archive: each with the result that it must have, in a room that it fills.
#[derive(Default)]
struct Outputs {
    payload: Vec<u8>,
    size: usize,
    results: Vec<(Vec<u8>, Vec<u8>)>,
}

impl Outputs {
    /// The check must accept an output, and the reference's run gives its result.
    fn add(&mut self, output: &[u8], steps: u32) {
        let complete = Answer { number: 0, place: output.len() as u64, steps };
        assert_eq!(stick::check(output), complete, "an output is complete");
        let length = season::room_needed(output) as usize;
        let result = season::run(output, length).expect("an output is run");
        self.payload.extend((length as u32).to_le_bytes());
        self.payload.push(0);
        put_file(&mut self.payload, output);
        self.size += length;
        self.results.push((output.to_vec(), result));
    }

    /// The archive's check and run of them all; gives how many are not as they must be.
    fn compare(&mut self, host: &mut Host) -> u32 {
        let answer = host.call(b'R', &self.payload);
        let mut rest = Rest(&answer);
        let mut wrong = 0;
        for (output, result) in std::mem::take(&mut self.results) {
            let (room, number) = (u64::from_le_bytes(rest.take()), u32::from_le_bytes(rest.take()));
            let undisturbed = rest.take() == [0];
            let same = rest.bytes(result.len()) == result;
            if (room, number, undisturbed, same) != (result.len() as u64, 0, true, true) {
                wrong += 1;
                eprintln!("{}\n  the run of this output: number {number}, room {room}", shown(&output));
            }
        }
        assert!(rest.0.is_empty(), "no answer but for an output");
        self.payload.clear();
        self.size = 0;
        wrong
    }
}

/// A host, the frame that grows for it, and what its answers were.
pub struct Comparison {
    host: Host,
    draw: Draw,
    payload: Vec<u8>,
    size: usize,
    files: Vec<(Vec<u8>, Left)>,
    outputs: Outputs,
    pub met: Met,
    all: u32,
    wrong: u32,
}

impl Comparison {
    /// The seed is that of the rooms and of their fills.
    pub fn start(seed: u64) -> Comparison {
        let (host, draw) = (Host::start(), Draw::from_seed(seed));
        let (payload, files, outputs, met) = Default::default();
        Comparison { host, draw, payload, size: 0, files, outputs, met, all: 0, wrong: 0 }
    }

    /// Rescues a file with the archive and with the reference, in rooms that hold for the most part what is to be
    /// written and more; gives what the reference says to it in any rooms.
    pub fn rescue(&mut self, file: impl Into<Vec<u8>>) -> Result<Rescued, Answer> {
        let [out, list] = [(); 2].map(|()| match self.draw.below(24) {
            0 => Room::any(&mut self.draw),
            _ => Room::Longer(self.draw.below(20) as usize),
        });
        self.rescue_in(file, out, list)
    }

    /// The same in these rooms.
    pub fn rescue_in(&mut self, file: impl Into<Vec<u8>>, out: Room, list: Room) -> Result<Rescued, Answer> {
        let file = file.into();
        let rescued = rescue::rescue(&file);
        let needed = rescued.as_ref().map_or([0; 2], |r| [r.output.len(), CHANGE * r.changes.len()]);
        let lengths = [out.length(needed[0]), list.length(needed[1])];
        let rooms = lengths.map(|length| (length, self.draw.any() as u8));
        for (length, fill) in rooms {
            self.payload.extend((length as u32).to_le_bytes());
            self.payload.push(fill);
            self.size += length;
        }
        put_file(&mut self.payload, &file);
        let [mut out, mut list] = rooms.map(|(length, fill)| lent_room(length, fill));
        let made = rescue::rescue_into(&file, &mut out, &mut list);
        let number = made.as_ref().map_or_else(|answer| answer.number, |_| 0);
        self.note(&file, &rescued, number);
        if rescued.is_ok() {
            self.met.note("rooms", both(case(lengths[0], needed[0]), case(lengths[1], needed[1])));
        }
        let (changes, steps) = rescued.as_ref().map_or((0, 0), |r| (r.changes.len() as u64, r.steps));
        let left = Left { room: needed[0] as u64, changes, steps, number, disturbed: false, out, list };
        self.files.push((file, left));
        if let Ok(Rescued { output, steps, .. }) = &rescued {
            self.outputs.add(output, *steps);
        }
        if self.payload.len() + self.size + self.outputs.payload.len() + self.outputs.size > FRAME {
            self.compare();
        }
        rescued
    }

    /// The tally: the call's number, what the check says of the file, whether a file (1) or an output (0) is too large,
    /// the kinds of changes, a good weather that was dropped with its reading, and a good voltage that was, alone (1)
    /// or behind its weather (2).
    fn note(&mut self, file: &[u8], rescued: &Result<Rescued, Answer>, number: u32) {
        let fault = stick::check(file);
        self.met.note("number", number);
        self.met.note("fault", fault.number);
        match rescued {
            Err(TOO_LARGE_AT_0) => self.met.note("bytes too many", (file.len() > MOST_BYTES).into()),
            Err(refused) => assert_eq!(*refused, fault, "a refusal is the check's"),
            Ok(rescued @ Rescued { changes, .. }) => {
                let all: Vec<u32> = changes.iter().map(|change| change.kind as u32).collect();
                all.iter().for_each(|&kind| self.met.note("kind", kind));
                self.met.note("kinds", kinds(&all));
                let dropped = changes.last().map_or(false, |last| drops_a_weather(file, last));
                self.met.note("weather dropped with its reading", dropped.into());
                self.met.note("voltage dropped with its reading", drops_a_voltage(file, rescued));
                assert!(number == 0 || number == ROOM_TOO_SHORT);
            }
        }
    }

    fn compare(&mut self) {
        let answer = self.host.call(b'H', &self.payload);
        let mut rest = Rest(&answer);
        for (file, expected) in std::mem::take(&mut self.files) {
            let got = take_left(&mut rest, &expected);
            self.all += 1;
            if got != expected {
                self.wrong += 1;
                if self.wrong <= 5 {
                    eprintln!("{}\n  archive   {got}\n  reference {expected}", shown(&file));
                }
            }
        }
        assert!(rest.0.is_empty(), "no answer but for a file");
        self.payload.clear();
        self.size = 0;
        self.wrong += self.outputs.compare(&mut self.host);
    }

    /// Compares what is left, of no fewer files than these, and gives what was met.
    pub fn end(mut self, least: u32) -> Met {
        self.compare();
        assert!(self.host.end().0.success(), "the host ended badly");
        assert_eq!(self.wrong, 0, "wrong rescues of {}", self.all);
        assert!(self.all >= least, "{} rescues", self.all);
        println!("{} rescues", self.all);
        self.met
    }
}

/// The refusal for the size of a file, or for that of the output.
pub const TOO_LARGE_AT_0: Answer = Answer { number: 12, place: 0, steps: 0 };

/// The change ends the file at a weather that converts, which is then there for the reading's sake.
fn drops_a_weather(file: &[u8], change: &Change) -> bool {
    let part = &file[change.place as usize..];
    let converts = |irradiance, temperature| Weather { irradiance, temperature }.converted().is_ok();
    change.kind == Kind::EndedHere
        && part.starts_with(&[WEATHER, 0, 16])
        && f64_at(part, 3).zip(f64_at(part, 11)).map_or(false, |(sun, warm)| converts(sun, warm))
}

/// The change that ends the file drops a voltage for the reading's sake, alone (1) or behind its weather (2): with a
/// reading they could stand where the end does now.
fn drops_a_voltage(file: &[u8], rescued: &Rescued) -> u32 {
    let Rescued { output, steps, changes } = rescued;
    let ended = changes.last().filter(|change| change.kind == Kind::EndedHere);
    let part = ended.map_or(&[][..], |change| &file[change.place as usize..]);
    let behind = |at: usize| part.get(at..at + 5).filter(|field| field[0] == VOLTAGE).is_some();
    let (length, which) = match part.first() {
        Some(&VOLTAGE) if behind(0) => (5, 1),
        Some(&WEATHER) if behind(19) => (24, 2),
        _ => return 0,
    };
    let close = sticks::bytes(&[sticks::end_field(steps + 1)]);
    let read = [&output[..output.len() - 7], &part[..length], &[MISSING, 0, 0], &close].concat();
    if stick::check(&read).number == 0 {
        which
    } else {
        0
    }
}

/// What the archive left, in rooms as long as the reference's.
fn take_left(rest: &mut Rest, expected: &Left) -> Left {
    Left {
        room: u64::from_le_bytes(rest.take()),
        changes: u64::from_le_bytes(rest.take()),
        steps: u32::from_le_bytes(rest.take()),
        number: u32::from_le_bytes(rest.take()),
        disturbed: rest.take() != [0],
        out: rest.bytes(expected.out.len()).to_vec(),
        list: rest.bytes(expected.list.len()).to_vec(),
    }
}
