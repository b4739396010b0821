//! The proved archive's functions beside the reference, over the C surface.

mod host;

use host::{Host, LEFT_ALONE};
use yesbrulka_reference::reading;
use yesbrulka_reference::samples::{self, Draw};

/// Doubles go over in frames of this many.
const FRAME: usize = 8_192;

/// What `yb_watts` must return and leave in `*watts`, by the reference.
fn expected(bits: u64) -> (u32, i32) {
    match reading::watts(f64::from_bits(bits)) {
        Ok(watts) => (0, watts),
        Err(number) => (number, LEFT_ALONE),
    }
}

/// Converts every double with the archive and with the reference, and compares.
fn compare_watts(patterns: &[u64]) {
    let mut host = Host::start();
    let mut wrong = Vec::new();
    for frame in patterns.chunks(FRAME) {
        let payload: Vec<u8> = frame.iter().flat_map(|bits| bits.to_le_bytes()).collect();
        let answer = host.call(b'W', &payload);
        assert_eq!(answer.len(), 8 * frame.len(), "an answer for each double");
        for (&bits, answer) in frame.iter().zip(answer.chunks(8)) {
            let word = |at: usize| [answer[at], answer[at + 1], answer[at + 2], answer[at + 3]];
            let got = (u32::from_le_bytes(word(0)), i32::from_le_bytes(word(4)));
            if got != expected(bits) {
                wrong.push((bits, got));
            }
        }
    }
    assert!(host.end().0.success(), "the host ended badly");
    for &(bits, got) in wrong.iter().take(20) {
        let kw = f64::from_bits(bits);
        eprintln!("{kw:e} ({bits:016x}): archive {got:?}, reference {:?}", expected(bits));
    }
    assert!(wrong.is_empty(), "{} of {} doubles differ", wrong.len(), patterns.len());
}

#[test]
fn watts_of_the_documents_figures() {
    let figures =
        [1.5, 0.0625, -0.0625, 0.1875, -0.1875, 1.0 / 2_048.0, 1.0 / 1_024.0, 100_000.0, 100_000.062_5];
    let whole = [1_500, 62, -62, 188, -188, 0, 1, 100_000_000].map(|watts| (0, watts));
    let answers = [&whole[..], &[(6, LEFT_ALONE)]].concat();
    let patterns = figures.map(f64::to_bits);
    assert_eq!(patterns.map(expected)[..], answers);
    compare_watts(&patterns);
}

#[test]
fn watts_of_zeros_subnormals_and_what_is_no_number() {
    let mut draw = Draw::from_seed(101);
    let mut patterns = samples::corners();
    patterns.extend(samples::nans());
    for _ in 0..10_000 {
        let fraction = draw.any() & (!0 >> 12 >> draw.below(52));
        patterns.extend(samples::both_signs(&[fraction, 0x7ff << 52 | fraction]));
    }
    compare_watts(&patterns);
}

#[test]
fn watts_at_every_exponent() {
    let mut draw = Draw::from_seed(102);
    let edges = [0, 1, 2, (1 << 52) - 1, (1 << 52) - 2, 1 << 51, (1 << 51) - 1, (1 << 51) + 1];
    let mut patterns = Vec::new();
    for field in 0..2_048 {
        for fraction in edges {
            patterns.extend(samples::both_signs(&[field << 52 | fraction]));
        }
        patterns.extend((0..500).map(|_| samples::with_exponent(field, &mut draw)));
    }
    assert!(patterns.len() > 1_000_000);
    compare_watts(&patterns);
}

/// From the smallest exponent that can reach half a watt to the first past the accepted range.
#[test]
fn watts_where_they_are_neither_none_nor_too_many() {
    let mut draw = Draw::from_seed(103);
    let mut patterns = Vec::new();
    for field in 1_010..1_042 {
        patterns.extend((0..12_000).map(|_| samples::with_exponent(field, &mut draw)));
    }
    patterns.extend((0..100_000).map(|_| samples::metered(&mut draw)));
    compare_watts(&patterns);
}

#[test]
fn watts_at_ties_and_beside_them() {
    let mut draw = Draw::from_seed(104);
    let mut patterns = Vec::new();
    for sixteenths in (1..20_000).chain(1_580_001..1_600_000).step_by(2) {
        let tie = (f64::from(sixteenths) / 16.0).to_bits();
        patterns.extend(samples::both_signs(&samples::beside(tie)));
    }
    for _ in 0..60_000 {
        patterns.extend(samples::beside(samples::tie(&mut draw)));
        patterns.extend(samples::beside(samples::near_tie(&mut draw)));
    }
    compare_watts(&patterns);
}

#[test]
fn watts_around_the_ends_of_the_range() {
    let mut draw = Draw::from_seed(105);
    let patterns: Vec<u64> = (0..150_000).map(|_| samples::near_the_end(&mut draw)).collect();
    compare_watts(&patterns);
}

/// The last double of each sign that is accepted, and the first that is refused. No tie lies there, so
/// that they are where they would be if ties went away from zero.
#[test]
fn watts_at_the_last_accepted_and_the_first_refused() {
    let (last, first) = (0x40F8_6A00_020C_49BA, 0x40F8_6A00_020C_49BB);
    for sign in [0, 1 << 63] {
        let answers = [last, first].map(|bits| reading::watts(f64::from_bits(bits | sign)));
        let most = if sign == 0 { 100_000_000 } else { -100_000_000 };
        assert_eq!(answers, [Ok(most), Err(6)]);
    }
    compare_watts(&samples::both_signs(&[samples::beside(last), samples::beside(first)].concat()));
}

/// The comparison is worth nothing if the host answers frames that it has not understood.
#[test]
fn the_host_takes_no_malformed_frame() {
    let frames: [(&[u8], &str); 4] = [
        (b"W\x07\0\0\0sevenxx", "host: op W: the payload is no row of doubles\n"),
        (b"?\0\0\0\0", "host: unknown op\n"),
        (b"W\x08\0", "host: a frame's head is cut short\n"),
        (b"W\x08\0\0\0four", "host: a frame's payload is cut short\n"),
    ];
    for (frame, message) in frames {
        let mut host = Host::start_quietly();
        host.send_bytes(frame);
        let (status, messages) = host.end();
        assert_eq!((status.code(), messages.as_str()), (Some(1), message), "{frame:?}");
    }
    let mut host = Host::start();
    assert_eq!(host.call(b'W', &[]), [0u8; 0]);
    assert!(host.end().0.success());
}
