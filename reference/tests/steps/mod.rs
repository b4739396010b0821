//! What the tests share that make steps of a storage unit: the frames of steps, what comes back, and the comparison.

use crate::host::{Host, LEFT_ALONE};
use yesbrulka_reference::samples::units::StepCall;
use yesbrulka_reference::storage::Stepped;

/// Steps go over in frames of this many.
const FRAME: usize = 4_096;

/// The bytes of a step's answer.
const ANSWER: usize = 29;

/// What the host leaves in an out-number of joules that a call did not write.
const LEFT_JOULES: u64 = (LEFT_ALONE as u64) << 32 | LEFT_ALONE as u64;

/// The call that makes the steps.
#[derive(Clone, Copy, PartialEq)]
#[allow(dead_code)] // not every test makes steps with both
pub enum With {
    /// `yb_step`, which takes a unit for one of edition 1.
    Step,
    /// `yb_step_as`, which is told the edition and the var limits.
    StepAs,
}

impl With {
    pub fn op(self) -> u8 {
        match self {
            With::Step => b'S',
            With::StepAs => b'A',
        }
    }
}

/// What a step returns and leaves behind.
#[derive(Debug, PartialEq)]
pub struct Left {
    pub number: u32,
    pub disturbed: u8,
    pub stepped: Stepped,
}

/// By the reference.
pub fn expected(call: &StepCall) -> Left {
    let untouched = Stepped { watts: LEFT_ALONE, vars: LEFT_ALONE, stored: LEFT_JOULES, loss: LEFT_JOULES };
    let (number, stepped) = match call.step() {
        Ok(stepped) => (0, stepped),
        Err(number) => (number, untouched),
    };
    Left { number, disturbed: 0, stepped }
}

pub fn put_step(payload: &mut Vec<u8>, with: With, call: &StepCall) {
    let unit = &call.unit;
    let limits = [unit.provide, unit.absorb].map(u32::to_le_bytes).concat();
    if with == With::StepAs {
        payload.push(call.edition);
    }
    payload.extend(call.seconds.to_le_bytes());
    for joules in [unit.rated, unit.reserve, unit.stored] {
        payload.extend(joules.to_le_bytes());
    }
    for number in [unit.rating, unit.kva, unit.idle_loss] {
        payload.extend(number.to_le_bytes());
    }
    payload.extend(unit.var_request.to_le_bytes());
    for number in [unit.weight, unit.inverter, unit.charge, unit.discharge] {
        payload.extend(number.to_le_bytes());
    }
    payload.push(unit.priority);
    if with == With::StepAs {
        payload.extend(limits);
    }
    payload.extend(call.request.to_le_bytes());
}

fn left(answer: &[u8]) -> Left {
    let word = |at: usize| answer[at..at + 4].try_into().expect("four bytes");
    let long = |at: usize| answer[at..at + 8].try_into().expect("eight bytes");
    Left {
        number: u32::from_le_bytes(word(0)),
        disturbed: answer[4],
        stepped: Stepped {
            watts: i32::from_le_bytes(word(5)),
            vars: i32::from_le_bytes(word(9)),
            stored: u64::from_le_bytes(long(13)),
            loss: u64::from_le_bytes(long(21)),
        },
    }
}

/// What a row of answers says of each step.
pub fn all_left(answer: &[u8]) -> Vec<Left> {
    answer.chunks(ANSWER).map(left).collect()
}

/// Makes every step with the archive and with the reference, and compares; tells what the reference says to each. Gives
/// how many there were.
pub fn compare(
    with: With,
    calls: impl IntoIterator<Item = StepCall>,
    mut tell: impl FnMut(&StepCall, &Left),
) -> u32 {
    let mut host = Host::start();
    let (mut wrong, mut all) = (0, 0);
    let mut calls = calls.into_iter();
    loop {
        let frame: Vec<StepCall> = calls.by_ref().take(FRAME).collect();
        if frame.is_empty() {
            break;
        }
        let mut payload = Vec::new();
        frame.iter().for_each(|call| put_step(&mut payload, with, call));
        let answer = host.call(with.op(), &payload);
        assert_eq!(answer.len(), ANSWER * frame.len(), "an answer for each step");
        for (call, got) in frame.iter().zip(all_left(&answer)) {
            let expected = expected(call);
            all += 1;
            if got != expected {
                wrong += 1;
                if wrong <= 10 {
                    eprintln!("{call:?}\n  archive   {got:?}\n  reference {expected:?}");
                }
            }
            tell(call, &expected);
        }
    }
    assert!(host.end().0.success(), "the host ended badly");
    assert_eq!(wrong, 0, "wrong steps of {all}");
    all
}
