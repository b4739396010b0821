//! What the tests share that make settling studies over a fleet: how a call goes over, what it leaves, and the
//! comparison.

use crate::frames::Rest;
use crate::host::{Host, LEFT_ALONE};
use crate::passes::{put_lists, take_requests, FRAME, LEFT_BYTE};
use yesbrulka_reference::samples::fleets::StudyCall;

/// What a study returns and leaves behind.
#[derive(Debug, PartialEq)]
pub struct StudyLeft {
    pub number: u32,
    pub disturbed: u8,
    pub settled: u8,
    pub passes: u32,
    pub requests: Vec<i32>,
}

/// By the reference's study.
pub fn expected_study(call: &StudyCall) -> StudyLeft {
    let mut call = call.clone();
    let (number, settled, passes) = match call.settle() {
        Ok(study) => (0, study.settled.into(), study.passes),
        Err(number) => (number, LEFT_BYTE, LEFT_ALONE as u32),
    };
    StudyLeft { number, disturbed: 0, settled, passes, requests: call.requests }
}

pub fn put_study(payload: &mut Vec<u8>, call: &StudyCall) {
    payload.extend(call.load.to_le_bytes());
    payload.extend(call.target.to_le_bytes());
    payload.extend(call.band.to_le_bytes());
    payload.extend(call.factor.to_le_bytes());
    payload.extend(call.budget.to_le_bytes());
    put_lists(payload, &call.fleet, None, &call.requests);
}

fn take_left(rest: &mut Rest, requests: usize) -> StudyLeft {
    StudyLeft {
        number: u32::from_le_bytes(rest.take()),
        disturbed: u8::from_le_bytes(rest.take()),
        settled: u8::from_le_bytes(rest.take()),
        passes: u32::from_le_bytes(rest.take()),
        requests: take_requests(rest, requests),
    }
}

/// Makes every study with the archive and compares it with what is expected of it; tells what the archive says to
/// each.
pub fn compare_studies(
    calls: impl IntoIterator<Item = (StudyCall, StudyLeft)>,
    mut tell: impl FnMut(&StudyCall, &StudyLeft),
) {
    let mut host = Host::start();
    let (mut wrong, mut all) = (0, 0);
    let mut calls = calls.into_iter();
    loop {
        let frame: Vec<(StudyCall, StudyLeft)> = calls.by_ref().take(FRAME).collect();
        if frame.is_empty() {
            break;
        }
        let mut payload = Vec::new();
        frame.iter().for_each(|(call, _)| put_study(&mut payload, call));
        let answer = host.call(b'T', &payload);
        let mut rest = Rest(&answer);
        for (call, expected) in &frame {
            let got = take_left(&mut rest, call.requests.len());
            all += 1;
            if got != *expected {
                wrong += 1;
                if wrong <= 5 {
                    eprintln!("{call:?}\n  archive   {got:?}\n  reference {expected:?}");
                }
            }
            tell(call, &got);
        }
        assert!(rest.0.is_empty(), "an answer for each study and nothing more");
    }
    assert!(host.end().0.success(), "the host ended badly");
    assert_eq!(wrong, 0, "wrong studies of {all}");
    println!("{all} studies");
}
