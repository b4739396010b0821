//! The calls that take a file: what each returns and leaves beside what the reference says, in rooms of every kind.

use std::ops::Range;

use crate::build;
use crate::case::Case;
use crate::compare::{hex, lending, number_of, Compare, Outcome};
use crate::fed;
use crate::lent::{pointers, Lent, Out, Plain};
use crate::passes::study_outs;
use crate::surface::*;
use yesbrulka_reference::partner::{Ours, Shown};
use yesbrulka_reference::peaks::{self, FIGURES};
use yesbrulka_reference::rescue::{self, Rescued};
use yesbrulka_reference::samples::{older, sticks, Draw};
use yesbrulka_reference::season;
use yesbrulka_reference::site::{self, Site};
use yesbrulka_reference::stick::{self, Answer};
use yesbrulka_reference::storage::Unit;

/// A file, and the seed of all that is chosen beside it: rooms, places, chunks, a partner's result.
#[derive(Clone)]
pub struct FileCase {
    pub file: Vec<u8>,
    pub choices: u64,
}

impl std::fmt::Debug for FileCase {
    fn fmt(&self, f: &mut std::fmt::Formatter) -> std::fmt::Result {
        write!(f, "a file of {} bytes, choices {:#018x}: {}", self.file.len(), self.choices, hex(&self.file))
    }
}

impl Case for FileCase {
    const KIND: &'static str = "files";

    fn fresh(draw: &mut Draw) -> FileCase {
        FileCase { file: build::fresh(draw), choices: draw.any() }
    }

    fn changed(&self, other: &FileCase, draw: &mut Draw) -> FileCase {
        // Now and then only what is chosen beside the file is another.
        let file = match draw.below(12) {
            0 if self.file.len() <= build::MOST_CHANGED => self.file.clone(),
            _ => build::changed(&self.file, &other.file, draw),
        };
        FileCase { file, choices: draw.any() }
    }

    fn compare(&self, to: &mut Compare) -> Outcome {
        let draw = &mut Draw::from_seed(self.choices);
        let file = &Lent::of(&self.file);
        let answer = stick::check(&self.file);
        compare_check(file, answer, to)?;
        compare_values(file, answer, draw, to)?;
        compare_site(file, draw, to)?;
        compare_run(file, draw, to)?;
        compare_peaks(file, draw, to)?;
        compare_rescue(file, draw, to)?;
        compare_partner(file, draw, to)?;
        // The reference takes ten times as long over a fed file as over all the rest.
        match draw.below(5) {
            0 => fed::compare(&self.file, draw, to),
            _ => Ok(()),
        }
    }

    fn smaller(&self) -> Vec<FileCase> {
        build::smaller(&self.file).into_iter().map(|file| FileCase { file, ..*self }).collect()
    }

    fn stored(&self) -> Vec<u8> {
        self.file.clone()
    }
}

/// The reference's steps of a file, and on purpose one more where it has a weather.
fn expected_steps(file: &[u8], steps: u32, to: &Compare) -> u32 {
    let sky = |file| stick::read(file).map_or(false, |run| run.weather.iter().any(Option::is_some));
    steps + u32::from(to.wrong_on_purpose && sky(file))
}

fn compare_check(file: &Lent<u8>, answer: Answer, to: &mut Compare) -> Outcome {
    let steps = expected_steps(file.list(), answer.steps, to);
    let (bytes, length) = (file.ptr(), file.len());
    to.same("yb_check", (unsafe { yb_check(bytes, length) }, file.kept()), (answer.number, true))?;
    to.same("yb_check_place", (unsafe { yb_check_place(bytes, length) }, file.kept()), (answer.place, true))?;
    to.same("yb_check_steps", (unsafe { yb_check_steps(bytes, length) }, file.kept()), (steps, true))?;
    let (mut place, mut all) = (Out::left(), Out::left());
    let number = unsafe { yb_checked(bytes, length, place.ptr(), all.ptr()) };
    let said = (Out::said(Some(answer.place)), Out::said(Some(steps)));
    to.same("yb_checked", (number, (place, all), file.kept()), (answer.number, said, true))
}

/// At the place of the refusal, at the ends of the file, and anywhere.
fn compare_values(file: &Lent<u8>, answer: Answer, draw: &mut Draw, to: &mut Compare) -> Outcome {
    let length = file.len() as u64;
    let beside = (length + draw.below(6)).saturating_sub(4);
    for place in [answer.place, 0, beside, draw.below(length + 1), draw.sized(), u64::MAX] {
        let part = stick::value_part(file.list(), place);
        let start = unsafe { yb_value_start(file.ptr(), file.len(), place) };
        let len = unsafe { yb_value_len(file.ptr(), file.len(), place) };
        let lent = || format!("place {place}");
        let kept = file.kept();
        lending(to.same("yb_value_start", (start, kept), (part.start as u64, true)), lent)?;
        lending(to.same("yb_value_len", (len, kept), (part.len() as u64, true)), lent)?;
    }
    Ok(())
}

fn compare_site(file: &Lent<u8>, draw: &mut Draw, to: &mut Compare) -> Outcome {
    let site = site::of(file.list());
    compare_counts(file, &site, to)?;
    compare_settings(file, &site, to)?;
    let units = site.as_ref().map_or(1, |site| site.units.len()) as u64;
    for unit in [draw.below(units), units - draw.below(2), draw.sized()] {
        let unit = unit as u32;
        let lent = || format!("unit {unit}");
        lending(compare_unit(file, &site, unit, to), lent)?;
        lending(compare_connection(file, &site, unit, to), lent)?;
    }
    compare_study(file, units as usize, draw, to)
}

fn compare_counts(file: &Lent<u8>, site: &Result<Site, u32>, to: &mut Compare) -> Outcome {
    let of = |count: fn(&Site) -> u32| site.as_ref().map_or(0, count);
    let (bytes, length) = (file.ptr(), file.len());
    let units = unsafe { yb_units(bytes, length) };
    to.same("yb_units", (units, file.kept()), (of(|site| site.units.len() as u32), true))?;
    let inverters = unsafe { yb_inverters(bytes, length) };
    to.same("yb_inverters", (inverters, file.kept()), (of(|site| site.inverters.len() as u32), true))?;
    let seconds = unsafe { yb_seconds(bytes, length) };
    to.same("yb_seconds", (seconds, file.kept()), (of(|site| site.seconds), true))
}

fn compare_settings(file: &Lent<u8>, site: &Result<Site, u32>, to: &mut Compare) -> Outcome {
    let (mut mode, mut phase) = (Out::left(), Out::left());
    let (mut target, mut band, mut factor) = (Out::left(), Out::left(), Out::left());
    let number = unsafe {
        yb_settings(file.ptr(), file.len(), mode.ptr(), target.ptr(), band.ptr(), factor.ptr(), phase.ptr())
    };
    let said = site.as_ref().ok();
    let of = said.map(|site| site.settings);
    let expected = (
        Out::said(of.map(|of| of.mode)),
        Out::said(of.map(|of| of.target)),
        Out::said(of.map(|of| of.band)),
        Out::said(of.map(|of| of.factor)),
        Out::said(said.map(|site| site.phase)),
    );
    let got = (mode, target, band, factor, phase);
    to.same("yb_settings", (number, got, file.kept()), (number_of(site), expected, true))
}

/// The number that is due, and what was asked for where that is 0.
fn asked<T>(site: &Result<Site, u32>, ask: impl Fn(&Site) -> Result<T, u32>) -> (u32, Option<T>) {
    match site.as_ref().map_err(|&number| number).and_then(ask) {
        Ok(found) => (0, Some(found)),
        Err(number) => (number, None),
    }
}

fn compare_unit(file: &Lent<u8>, site: &Result<Site, u32>, unit: u32, to: &mut Compare) -> Outcome {
    let (mut joules, mut watts) = ([Out::left(); 3], [Out::left(); 3]);
    let (mut vars, mut parts, mut priority) = (Out::left(), [Out::left(); 4], Out::left());
    let [rated, reserve, stored] = pointers(&mut joules);
    let [rating, kva, idle_loss] = pointers(&mut watts);
    let [weight, inverter, charge, discharge] = pointers(&mut parts);
    let number = unsafe {
        yb_unit(
            file.ptr(),
            file.len(),
            unit,
            rated,
            reserve,
            stored,
            rating,
            kva,
            idle_loss,
            vars.ptr(),
            weight,
            inverter,
            charge,
            discharge,
            priority.ptr(),
        )
    };
    let (due, of) = asked(site, |site| site.unit(unit));
    let said_joules = outs(of.map(|Unit { rated, reserve, stored, .. }| [rated, reserve, stored]));
    let said_watts = outs(of.map(|of| [of.rating, of.kva, of.idle_loss]));
    let said_parts = outs(of.map(|of| [of.weight, of.inverter, of.charge, of.discharge]));
    let said = (said_joules, said_watts, Out::said(of.map(|of| of.var_request)), said_parts);
    let said_priority = Out::said(of.map(|of| of.priority));
    let got = (joules, watts, vars, parts);
    to.same("yb_unit", (number, got, priority, file.kept()), (due, said, said_priority, true))?;
    compare_var_limits(file, due, of, unit, to)
}

/// So many out-numbers with what must have been written to them.
fn outs<T: Plain, const N: usize>(values: Option<[T; N]>) -> [Out<T>; N] {
    values.map_or([Out::left(); N], |values| values.map(|value| Out::said(Some(value))))
}

fn compare_var_limits(file: &Lent<u8>, due: u32, of: Option<Unit>, unit: u32, to: &mut Compare) -> Outcome {
    let mut limits = [Out::left(); 2];
    let [provide, absorb] = pointers(&mut limits);
    let number = unsafe { yb_var_limits(file.ptr(), file.len(), unit, provide, absorb) };
    let said = outs(of.map(|of| [of.provide, of.absorb]));
    to.same("yb_var_limits", (number, limits, file.kept()), (due, said, true))
}

fn compare_connection(file: &Lent<u8>, site: &Result<Site, u32>, unit: u32, to: &mut Compare) -> Outcome {
    let (mut phases, mut volts) = (Out::left(), Out::left());
    let number = unsafe { yb_connection(file.ptr(), file.len(), unit, phases.ptr(), volts.ptr()) };
    let (due, of) = asked(site, |site| site.connection(unit));
    let said = (Out::said(of.map(|of| of.phases)), Out::said(of.map(|of| of.volts)));
    to.same("yb_connection", (number, (phases, volts), file.kept()), (due, said, true))
}

/// A load and a budget in their ranges, at their ends and outside; for the most part a request for each unit.
fn compare_study(file: &Lent<u8>, units: usize, draw: &mut Draw, to: &mut Compare) -> Outcome {
    let any = draw.any() as i64 >> draw.below(64);
    let few = draw.within(0, 100_000_000) as i64;
    let load = draw.one_of(&[few, few, few, 0, -1, 100_000_000, 100_000_001, any]);
    let budget = draw.one_of(&[1, 5, 20, 40, 0, 10_001, u32::MAX]);
    let length = draw.one_of(&[units, units, units, units - 1, units + 1]);
    let requests: Vec<i32> = (0..length).map(|_| draw.any() as i32).collect();
    let mut lent = Lent::of(&requests);
    let (mut settled, mut passes) = (Out::left(), Out::left());
    let number = unsafe {
        yb_study(
            file.ptr(),
            file.len(),
            load,
            budget,
            lent.mut_ptr(),
            lent.len(),
            settled.ptr(),
            passes.ptr(),
        )
    };
    let mut expected = requests;
    let said = site::study(file.list(), load, budget, &mut expected);
    let kept = file.kept() && lent.guarded();
    let due = (number_of(&said), study_outs(said), true);
    let outcome = to.same("yb_study", (number, (settled, passes), kept), due);
    let outcome = outcome.and_then(|()| to.also("yb_study", lent.list(), &expected));
    lending(outcome, || format!("load {load}, budget {budget}, {length} requests"))
}

/// A room's length beside what is to be written: just that, one short, longer, none, or any.
pub fn room_length(needed: usize, draw: &mut Draw) -> usize {
    let more = draw.below(40) as usize;
    draw.one_of(&[needed, needed, needed.saturating_sub(1), needed + more, 0, more])
}

/// A room of any bytes, so that none is written by chance as it was.
pub fn room_of(length: usize, draw: &mut Draw) -> Vec<u8> {
    let fill = draw.any() as u8;
    (0..length).map(|at| fill.wrapping_add((7 * at) as u8)).collect()
}

fn compare_run(file: &Lent<u8>, draw: &mut Draw, to: &mut Compare) -> Outcome {
    let needed = season::room_needed(file.list());
    let room = unsafe { yb_run_room(file.ptr(), file.len()) };
    to.same("yb_run_room", (room, file.kept()), (needed, true))?;
    let result = season::run(file.list(), usize::MAX);
    let lengths = [needed as usize, room_length(needed as usize, draw)];
    for length in lengths {
        let mut expected = room_of(length, draw);
        let mut lent = Lent::of(&expected);
        let number = unsafe { yb_run(file.ptr(), file.len(), lent.mut_ptr(), lent.len()) };
        let due = match &result {
            Err(refused) => refused.number,
            Ok(result) if length < result.len() => yesbrulka_reference::ROOM_TOO_SHORT,
            Ok(result) => {
                expected[..result.len()].copy_from_slice(result);
                0
            }
        };
        let kept = file.kept() && lent.guarded();
        let outcome = to.same("yb_run", (number, kept), (due, true));
        let outcome = outcome.and_then(|()| to.also_bytes("yb_run", "the room", lent.list(), &expected));
        lending(outcome, || format!("a room of {length} bytes"))?;
    }
    Ok(())
}

/// For the file's own target, one near it, and one at an end of the range, outside it or any; for the most part in a
/// list that fits.
fn compare_peaks(file: &Lent<u8>, draw: &mut Draw, to: &mut Compare) -> Outcome {
    let own = site::of(file.list()).map_or(0, |site| site.settings.target);
    let near = own / 2 + draw.below(2_000) as i32;
    let any = draw.within(0, 200_000_000) as i32 - 100_000_000;
    let bits = draw.any() as i32;
    let ends = [any, any, bits, -100_000_000, 100_000_000, -100_000_001, 100_000_001, i32::MIN, i32::MAX];
    let more = draw.below(40) as usize;
    for target in [own, near, draw.one_of(&ends)] {
        let length = draw.one_of(&[FIGURES, FIGURES, FIGURES, FIGURES, FIGURES - 1, FIGURES + 1, 0, more]);
        let before: Vec<i64> = (0..length).map(|_| draw.any() as i64).collect();
        let mut lent = Lent::of(&before);
        let number = unsafe { yb_peaks(file.ptr(), file.len(), target, lent.mut_ptr(), lent.len()) };
        let said = peaks::peaks(file.list(), target, length);
        let expected = said.map_or(before, |figures| figures.to_vec());
        let kept = file.kept() && lent.guarded();
        let outcome = to.same("yb_peaks", (number, kept), (number_of(&said), true));
        let outcome = outcome.and_then(|()| to.also("yb_peaks", lent.list(), &expected));
        lending(outcome, || format!("target {target}, a list of {length}"))?;
    }
    Ok(())
}

fn compare_rescue(file: &Lent<u8>, draw: &mut Draw, to: &mut Compare) -> Outcome {
    let rescued = rescue::rescue(file.list());
    let (room, changes, steps) = rescued
        .as_ref()
        .map_or((0, 0, 0), |Rescued { output, changes, steps }| (output.len(), changes.len(), *steps));
    let (bytes, length) = (file.ptr(), file.len());
    let got = unsafe { yb_rescue_room(bytes, length) };
    to.same("yb_rescue_room", (got, file.kept()), (room as u64, true))?;
    let got = unsafe { yb_rescue_changes(bytes, length) };
    to.same("yb_rescue_changes", (got, file.kept()), (changes as u64, true))?;
    let got = unsafe { yb_rescue_steps(bytes, length) };
    to.same("yb_rescue_steps", (got, file.kept()), (steps, true))?;
    let lengths = [(room, rescue::CHANGE * changes), (room_length(room, draw), rescue::CHANGE * changes)];
    let short = (room + draw.below(2) as usize, room_length(rescue::CHANGE * changes, draw));
    for (out, list) in lengths.into_iter().chain([short]) {
        let outcome = compare_rescued(file, [out, list], draw, to);
        lending(outcome, || format!("a room of {out} bytes and a list of {list}"))?;
    }
    match rescued {
        Ok(Rescued { output, .. }) => {
            let answer = stick::check(&output);
            lending(compare_check(&Lent::of(&output), answer, to), || "the rescued file".to_string())
        }
        Err(_) => Ok(()),
    }
}

/// A rescue in rooms of two lengths.
fn compare_rescued(file: &Lent<u8>, lengths: [usize; 2], draw: &mut Draw, to: &mut Compare) -> Outcome {
    let [mut expected_out, mut expected_list] = lengths.map(|length| room_of(length, draw));
    let (mut out, mut list) = (Lent::of(&expected_out), Lent::of(&expected_list));
    let number =
        unsafe { yb_rescue(file.ptr(), file.len(), out.mut_ptr(), out.len(), list.mut_ptr(), list.len()) };
    let said = rescue::rescue_into(file.list(), &mut expected_out, &mut expected_list);
    let due = said.err().map_or(0, |refused| refused.number);
    let kept = file.kept() && out.guarded() && list.guarded();
    to.same("yb_rescue", (number, kept), (due, true))?;
    to.also_bytes("yb_rescue", "the room", out.list(), &expected_out)?;
    to.also_bytes("yb_rescue", "the list", list.list(), &expected_list)
}

fn compare_partner(file: &Lent<u8>, draw: &mut Draw, to: &mut Compare) -> Outcome {
    let ours = Ours::of(file.list());
    let result = ours.as_ref().map_or(Vec::new(), |ours| ours.result.clone());
    let mut results = vec![result.clone(), damaged_result(&result, draw)];
    match &ours {
        Ok(_) => results.extend([damaged_result(&result, draw), other_result(draw)]),
        Err(_) => results.truncate(1),
    }
    let said = |result: &[u8]| match &ours {
        Ok(ours) => Ok(ours.beside(result)),
        Err(refused) => Err(refused.number),
    };
    for result in results {
        let outcome = compare_beside(file, &Lent::of(&result), said(&result), to);
        lending(outcome, || format!("a result {}", hex(&result)))?;
    }
    // One list may be lent twice.
    lending(compare_beside(file, file, said(file.list()), to), || "the file for a result".to_string())
}

fn compare_beside(file: &Lent<u8>, result: &Lent<u8>, said: Result<Shown, u32>, to: &mut Compare) -> Outcome {
    let (mut verdict, mut start, mut len) = (Out::left(), Out::left(), Out::left());
    let number = unsafe {
        yb_partner(file.ptr(), file.len(), result.ptr(), result.len(), verdict.ptr(), start.ptr(), len.ptr())
    };
    let of = said.ok();
    let verdict_due = Out::said(of.map(|of| of.verdict as u8));
    let due = (verdict_due, Out::said(of.map(|of| of.start)), Out::said(of.map(|of| of.len)));
    let kept = file.kept() && result.kept();
    to.same("yb_partner", (number, (verdict, start, len), kept), (number_of(&said), due, true))
}

/// The result of another small stick.
fn other_result(draw: &mut Draw) -> Vec<u8> {
    let file = sticks::file(&older::small_run(draw));
    season::run(&file, usize::MAX).unwrap_or_default()
}

/// A part of some bytes, of any length.
fn any_part(length: usize, draw: &mut Draw) -> Range<usize> {
    let from = draw.below(length as u64 + 1) as usize;
    from..from + draw.below((length - from) as u64 + 1) as usize
}

/// A result that was cut, made longer, or changed in a byte, a bit or a part.
fn damaged_result(result: &[u8], draw: &mut Draw) -> Vec<u8> {
    let mut result = result.to_vec();
    let at = draw.below(result.len() as u64 + 1) as usize;
    let part = any_part(result.len(), draw);
    match draw.below(8) {
        0 => result.truncate(at),
        // Cut at a record's edge, or nearly.
        1 => result.truncate((at / 40 * 40 + draw.below(3) as usize).min(result.len())),
        2 => result.extend((0..1 + draw.below(50)).map(|_| draw.any() as u8)),
        3 => drop(result.drain(part)),
        4 => result.extend_from_within(part),
        5 => result.insert(at, draw.any() as u8),
        _ if at == result.len() => result.push(0),
        6 => result[at] = draw.any() as u8,
        _ => result[at] ^= 1 << draw.below(8),
    }
    result
}
