//! What the tests share that feed runs: rows of calls over one state, what the reference makes of each call, the frames
//! that they go over in, and what came back.

use std::fmt;

use crate::frames::{put_file, shown, Met, Rest, Room, FRAME};
use crate::host::{Host, LEFT_ALONE};
use yesbrulka_reference::feed::{self, SIZE};
use yesbrulka_reference::samples::Draw;
use yesbrulka_reference::ROOM_TOO_SHORT;

/// A frame has no more rows than these, so that the states of those that begin with one take little memory.
const MOST_ROWS: usize = 400;

/// What an out-number holds that was not written.
const UNWRITTEN: u64 = (LEFT_ALONE as u64) << 32 | LEFT_ALONE as u64;

/// The calls, and what can be asked beside one.
const START: u8 = 0;
const FEED: u8 = 1;
const END: u8 = 2;
const ASK_ROOM: u8 = 1;
const ASK_PLACE: u8 = 2;
const ASK_HASH: u8 = 4;
const ASK_STATE: u8 = 8;

/// One call as it goes over.
#[derive(Clone)]
struct Call {
    kind: u8,
    asks: u8,
    room: usize,
    fill: u8,
    chunk: Vec<u8>,
}

/// What a call leaves, as far as it is asked.
#[derive(PartialEq, Eq)]
struct Left {
    size: u64,
    needed: Option<u64>,
    number: u32,
    written: u64,
    place: Option<(u64, u32)>,
    hash: Option<u64>,
    disturbed: bool,
    results: Vec<u8>,
}

impl fmt::Display for Left {
    fn fmt(&self, f: &mut fmt::Formatter) -> fmt::Result {
        match self.written {
            UNWRITTEN => write!(f, "number {}, *written stayed", self.number)?,
            written => write!(f, "number {}, *written {written}", self.number)?,
        }
        if let Some(needed) = self.needed {
            write!(f, ", room needed {needed}")?;
        }
        if let Some((place, steps)) = self.place {
            write!(f, ", place {place}, steps {steps}")?;
        }
        if self.disturbed {
            write!(f, ", what it may not write was written")?;
        }
        write!(f, ", state {:016X?}, size {}, results {}", self.hash, self.size, shown(&self.results))
    }
}

/// The same number for bytes as in the host.
fn hash_of(bytes: &[u8]) -> u64 {
    bytes.chunks(8).fold(bytes.len() as u64, |hash, chunk| {
        let mut eight = [0; 8];
        eight[..chunk.len()].copy_from_slice(chunk);
        let hash = (hash ^ u64::from_le_bytes(eight)).wrapping_mul(0x9E37_79B9_7F4A_7C15);
        hash ^ hash >> 29
    })
}

/// A row of calls over one state, and what the reference makes of them.
pub struct Row {
    /// The state before the calls; none where a start over bytes of this fill makes it.
    first: Option<Vec<u8>>,
    fill: u8,
    state: Vec<u8>,
    calls: Vec<Call>,
    left: Vec<Left>,
    /// What is asked beside the next calls.
    asks: u8,
}

impl Row {
    /// A row that begins with a start, over any bytes.
    pub fn start(draw: &mut Draw) -> Row {
        let fill = draw.any() as u8;
        let mut row = Row {
            first: None,
            fill,
            state: vec![fill; SIZE],
            calls: Vec::new(),
            left: Vec::new(),
            asks: ASK_HASH,
        };
        row.restart();
        row.ask_now_and_then(draw);
        row
    }

    /// A row that begins with a state, well formed or not, of any length.
    pub fn of(state: &[u8]) -> Row {
        Row {
            first: Some(state.to_vec()),
            fill: 0,
            state: state.to_vec(),
            calls: Vec::new(),
            left: Vec::new(),
            asks: ASK_HASH,
        }
    }

    /// What is asked costs as much as the call does, for it tests the whole state: a few rows ask for the room beside
    /// each call, and a few for place and steps. The state's hash covers these anyway.
    fn ask_now_and_then(&mut self, draw: &mut Draw) {
        self.asks |= match draw.below(30) {
            0 => ASK_ROOM,
            1 => ASK_PLACE,
            _ => 0,
        };
    }

    /// From here on all that can be asked is asked beside every call.
    pub fn ask_all(&mut self) {
        self.asks |= ASK_ROOM | ASK_PLACE;
    }

    /// The state that the reference has now.
    pub fn state(&self) -> &[u8] {
        &self.state
    }

    /// A start over what the state is now; gives the number.
    pub fn restart(&mut self) -> u32 {
        let number = feed::start(&mut self.state).err().unwrap_or(0);
        self.add(START, &[], 0, 0, number, Vec::new())
    }

    /// The next chunk; gives the number.
    pub fn feed(&mut self, chunk: &[u8], room: Room) -> u32 {
        self.call(FEED, chunk, room)
    }

    /// The end; gives the number.
    pub fn end(&mut self, room: Room) -> u32 {
        self.call(END, &[], room)
    }

    /// Makes a call in a room that is long enough, and where the room it gets is shorter, makes it anew.
    fn call(&mut self, kind: u8, chunk: &[u8], room: Room) -> u32 {
        let make = |state: &mut [u8], lent: &mut [u8]| match kind {
            END => feed::end(state, lent),
            _ => feed::feed(state, chunk, lent),
        };
        let mut next = self.state.clone();
        // What one unit needs, for the most part.
        let mut lent = vec![0; (1 << 12) + 14 * chunk.len()];
        let mut made = make(&mut next, &mut lent);
        while made == Err(ROOM_TOO_SHORT) {
            lent.resize(8 * lent.len(), 0);
            made = make(&mut next, &mut lent);
        }
        let (mut number, mut results) = match made {
            Ok(written) => (0, lent[..written].to_vec()),
            Err(number) => (number, Vec::new()),
        };
        let (needed, length) = (results.len(), room.length(results.len()));
        if length < needed {
            let mut short = vec![0; length];
            number = make(&mut self.state, &mut short).expect_err("the room is too short");
            results.clear();
        } else {
            self.state = next;
        }
        // The end's own room is no answer of yb_feed_room, which is asked for a chunk of no bytes.
        let needed = if kind == END { 0 } else { needed as u64 };
        self.add(kind, chunk, length, needed, number, results)
    }

    fn add(
        &mut self,
        kind: u8,
        chunk: &[u8],
        room: usize,
        needed: u64,
        number: u32,
        results: Vec<u8>,
    ) -> u32 {
        let asks = if kind == START { self.asks & !ASK_ROOM } else { self.asks };
        let fill = 3 + 5 * self.calls.len() as u8 % 50;
        self.calls.push(Call { kind, asks, room, fill, chunk: chunk.to_vec() });
        self.left.push(Left {
            size: SIZE as u64,
            needed: (asks & ASK_ROOM != 0).then_some(needed),
            number,
            written: if number == 0 && kind != START { results.len() as u64 } else { UNWRITTEN },
            place: (asks & ASK_PLACE != 0).then(|| (feed::place(&self.state), feed::steps(&self.state))),
            hash: (asks & ASK_HASH != 0).then(|| hash_of(&self.state)),
            disturbed: false,
            results,
        });
        number
    }

    /// The state before the calls.
    fn first_state(&self) -> Vec<u8> {
        self.first.clone().unwrap_or_else(|| vec![self.fill; SIZE])
    }

    /// The state that the reference has after so many calls, made again.
    fn state_after(&self, calls: usize) -> Vec<u8> {
        let mut state = self.first_state();
        for call in &self.calls[..calls] {
            let mut room = vec![0; call.room];
            match call.kind {
                START => drop(feed::start(&mut state)),
                END => drop(feed::end(&mut state, &mut room)),
                _ => drop(feed::feed(&mut state, &call.chunk, &mut room)),
            }
        }
        state
    }

    fn put(&self, payload: &mut Vec<u8>, more_asks: u8) {
        let word = |payload: &mut Vec<u8>, n: usize| payload.extend((n as u32).to_le_bytes());
        let pieces = self.first.as_deref().map(pieces).unwrap_or_default();
        word(payload, self.first.as_ref().map_or(SIZE, Vec::len));
        payload.push(self.fill);
        word(payload, pieces.len());
        for (place, bytes) in pieces {
            word(payload, place);
            word(payload, bytes.len());
            payload.extend_from_slice(bytes);
        }
        word(payload, self.calls.len());
        for call in &self.calls {
            payload.extend([call.kind, call.asks | more_asks]);
            word(payload, call.room);
            payload.push(call.fill);
            put_file(payload, &call.chunk);
        }
    }

    /// The calls up to one of them, for a message: the file so far, where it was cut, and the rooms.
    fn shown(&self, at: usize) -> String {
        let calls = &self.calls[..=at];
        let file: Vec<u8> = calls.iter().flat_map(|call| call.chunk.clone()).collect();
        let from = match &self.first {
            None => format!("a start over bytes of {:02X}", self.fill),
            Some(state) => {
                let pieces: Vec<_> =
                    pieces(state).iter().map(|(at, b)| format!("{at}: {}", shown(b))).collect();
                format!("a state of {} bytes [{}]", state.len(), pieces.join(", "))
            }
        };
        let one = |call: &Call| match call.kind {
            START => "start".to_string(),
            END => format!("end in {}", call.room),
            _ => format!("{} in {}", call.chunk.len(), call.room),
        };
        let skipped = calls.len().saturating_sub(30);
        let cuts: Vec<String> = calls[skipped..].iter().map(one).collect();
        let before = if skipped == 0 { String::new() } else { format!("{skipped} calls, ") };
        format!("{from}\n  file {}\n  chunks in rooms: {before}{}", shown(&file), cuts.join(", "))
    }
}

/// The parts of a state that are not 0, with their places; what is between two of them is 0 for 16 bytes and more.
fn pieces(state: &[u8]) -> Vec<(usize, &[u8])> {
    let mut found: Vec<(usize, &[u8])> = Vec::new();
    let mut from = None;
    let mut last = 0;
    for (at, _) in state.iter().enumerate().filter(|&(_, &byte)| byte != 0) {
        if let Some(first) = from.filter(|_| at - last > 16) {
            found.push((first, &state[first..=last]));
            from = None;
        }
        from = from.or(Some(at));
        last = at;
    }
    found.extend(from.map(|first| (first, &state[first..=last])));
    found
}

/// A host, the frame that grows for it, and what its answers were.
pub struct Comparison {
    host: Host,
    payload: Vec<u8>,
    size: usize,
    rows: Vec<Row>,
    pub met: Met,
    all: u32,
    calls: u32,
    wrong: u32,
}

impl Comparison {
    pub fn start() -> Comparison {
        Comparison {
            host: Host::start(),
            payload: Vec::new(),
            size: 0,
            rows: Vec::new(),
            met: Met::default(),
            all: 0,
            calls: 0,
            wrong: 0,
        }
    }

    /// Makes the calls of a row with the archive too.
    pub fn add(&mut self, row: Row) {
        let last = row.left.last().map_or(0, |left| left.number);
        self.met.note("number", last);
        for (call, left) in row.calls.iter().zip(&row.left) {
            self.met.note("call", call.kind.into());
            self.met.note("any number", left.number);
            self.size += call.chunk.len() + left.results.len() + 64;
        }
        row.put(&mut self.payload, 0);
        self.rows.push(row);
        if self.payload.len() + self.size > FRAME || self.rows.len() >= MOST_ROWS {
            self.compare();
        }
    }

    /// Feeds a file cut at these places, in rooms that just fit, and its end.
    pub fn cut(&mut self, file: &[u8], cuts: &[usize], draw: &mut Draw) {
        let mut row = Row::start(draw);
        let mut from = 0;
        for to in cuts.iter().copied().chain([file.len()]) {
            row.feed(&file[from..to], Room::Exact);
            from = to;
        }
        row.end(Room::Exact);
        self.add(row);
    }

    fn compare(&mut self) {
        let answer = self.host.call(b'E', &self.payload);
        let mut rest = Rest(&answer);
        for row in std::mem::take(&mut self.rows) {
            self.all += 1;
            let size = u64::from_le_bytes(rest.take());
            let mut first = None;
            for (at, (call, left)) in row.calls.iter().zip(&row.left).enumerate() {
                self.calls += 1;
                let got = take_left(&mut rest, size, call, 0).0;
                if got != *left && first.is_none() {
                    first = Some((at, got));
                }
            }
            if let Some((at, got)) = first {
                self.wrong += 1;
                if self.wrong <= 5 {
                    self.tell(&row, at, &got);
                }
            }
        }
        assert!(rest.0.is_empty(), "no answer but for a row");
        self.payload.clear();
        self.size = 0;
    }

    /// Tells the first difference of a row, and where the two states first differ.
    fn tell(&mut self, row: &Row, at: usize, got: &Left) {
        eprintln!("{}\n  archive   {got}\n  reference {}", row.shown(at), row.left[at]);
        let mut payload = Vec::new();
        row.put(&mut payload, ASK_STATE);
        let answer = self.host.call(b'E', &payload);
        let mut rest = Rest(&answer);
        let size = u64::from_le_bytes(rest.take());
        let length = row.first.as_ref().map_or(SIZE, Vec::len);
        let mut archive = Vec::new();
        for call in &row.calls[..=at] {
            archive = take_left(&mut rest, size, call, length).1;
        }
        let reference = row.state_after(at + 1);
        if let Some(place) = (0..length).find(|&place| archive[place] != reference[place]) {
            let part = |state: &[u8]| shown(&state[place..length.min(place + 24)]);
            eprintln!(
                "  states, from byte {place} on\n  archive   {}\n  reference {}",
                part(&archive),
                part(&reference)
            );
        }
    }

    /// Compares what is left, of no fewer fed runs than these, and gives what was met.
    pub fn end(mut self, least: u32) -> Met {
        self.compare();
        assert!(self.host.end().0.success(), "the host ended badly");
        assert_eq!(self.wrong, 0, "wrong rows of {}", self.all);
        assert!(self.all >= least, "{} fed runs", self.all);
        println!("{} fed runs, {} calls", self.all, self.calls);
        self.met
    }
}

/// What a call left, and the state of this length behind the hash where it was asked for.
fn take_left(rest: &mut Rest, size: u64, call: &Call, state: usize) -> (Left, Vec<u8>) {
    let needed = (call.asks & ASK_ROOM != 0).then(|| u64::from_le_bytes(rest.take()));
    let number = u32::from_le_bytes(rest.take());
    let written = u64::from_le_bytes(rest.take());
    let place = (call.asks & ASK_PLACE != 0)
        .then(|| (u64::from_le_bytes(rest.take()), u32::from_le_bytes(rest.take())));
    let hash = (call.asks & ASK_HASH != 0).then(|| u64::from_le_bytes(rest.take()));
    let state = rest.bytes(state).to_vec();
    let [disturbed] = rest.take();
    let used = u32::from_le_bytes(rest.take()) as usize;
    let results = rest.bytes(used).to_vec();
    (Left { size, needed, number, written, place, hash, disturbed: disturbed != 0, results }, state)
}
