//! A partner's result beside the run file that it is for: it is right, or its first wrong field is shown.
//!
//! Our whole result is made first. Then each of its fields is looked for at its own place in the partner's, whatever
//! tags and lengths the partner has there.

use std::ops::Range;

use crate::octets::u32_at;
use crate::season::{self, LAST};
use crate::stick::{self, Answer, HEAD};

/// Whether a result is right, or else which file the shown bytes are of; by its number.
#[derive(Clone, Copy, Debug, PartialEq, Eq)]
pub enum Verdict {
    /// The result is the bytes that our run writes, and nothing is shown.
    Right = 0,
    /// The partner's bytes are shown.
    Wrong = 1,
    /// The partner has none there, and the field of the run file is shown that lacks its result.
    Lacking = 2,
}

/// What is said of a partner's result.
#[derive(Clone, Copy, Debug, PartialEq, Eq)]
pub struct Shown {
    pub verdict: Verdict,
    /// In the one file or in the other, as the verdict says; 0 where nothing is shown.
    pub start: u64,
    pub len: u64,
}

impl Shown {
    fn part(verdict: Verdict, part: Range<usize>) -> Shown {
        Shown { verdict, start: part.start as u64, len: part.len() as u64 }
    }
}

/// A field of our result.
#[derive(Clone, Debug, PartialEq, Eq)]
pub struct Field {
    /// Where it lies in our result.
    pub place: Range<usize>,
    /// Where in the run file the field lies that it is for: the reading of its step, or for the last one the end field.
    pub source: Range<usize>,
}

/// Our result of a run file.
#[derive(Clone, Debug, PartialEq, Eq)]
pub struct Ours {
    pub result: Vec<u8>,
    /// All of its fields, in order.
    pub fields: Vec<Field>,
}

/// Where the fields of a file lie, of which each is whole.
fn places(file: &[u8]) -> Vec<Range<usize>> {
    let mut places = Vec::new();
    let mut place = 0;
    while place < file.len() {
        let end = stick::value_part(file, place as u64).end;
        places.push(place..end);
        place = end;
    }
    places
}

impl Ours {
    /// Our result of a run file, or the check's refusal.
    pub fn of(run: &[u8]) -> Result<Ours, Answer> {
        let result = season::run(run, usize::MAX)?;
        let mut sources = places(run);
        let end = sources.pop().expect("a complete file has an end field");
        sources.retain(|source| stick::is_step(run[source.start]));
        let source = |place: &Range<usize>| match result[place.start] {
            LAST => end.clone(),
            // A record begins with its step.
            _ => sources[u32_at(&result, place.start + HEAD).expect("a record is whole") as usize].clone(),
        };
        let fields =
            places(&result).into_iter().map(|place| Field { source: source(&place), place }).collect();
        Ok(Ours { result, fields })
    }

    /// What is said of a partner's result.
    pub fn beside(&self, partner: &[u8]) -> Shown {
        for Field { place, source } in &self.fields {
            let there = place.start.min(partner.len())..place.end.min(partner.len());
            if partner[there.clone()] != self.result[place.clone()] {
                return match there.is_empty() {
                    true => Shown::part(Verdict::Lacking, source.clone()),
                    false => Shown::part(Verdict::Wrong, there),
                };
            }
        }
        match self.result.len()..partner.len() {
            none if none.is_empty() => Shown::part(Verdict::Right, 0..0),
            behind => Shown::part(Verdict::Wrong, behind),
        }
    }
}

/// What is said of a partner's result for a run file, or the check's refusal of the run file.
pub fn partner(run: &[u8], result: &[u8]) -> Result<Shown, Answer> {
    Ours::of(run).map(|ours| ours.beside(result))
}

#[cfg(test)]
mod tests {
    use super::*;
    use crate::connection::Connection;
    use crate::reading::{Phases, Reading};
    use crate::samples::inverters::document_inverter;
    use crate::samples::sticks::{self, power_of, whole_case};
    use crate::samples::wrecks::damaged_by_turns;
    use crate::samples::{currents, older, voltages, Draw};
    use crate::season::{RECORD, SOLAR};
    use crate::solar::Weather;
    use crate::stick::{check, Run, CURRENT, END, MISSING, POWER, VOLTAGE, WEATHER};
    use crate::volt_var::Function;
    use std::collections::BTreeMap;

    const RIGHT: (u32, u64, u64) = (0, 0, 0);

    fn numbers(shown: Shown) -> (u32, u64, u64) {
        (shown.verdict as u32, shown.start, shown.len)
    }

    /// Verdict, start and length for a run file that is not refused.
    fn said(run: &[u8], result: &[u8]) -> (u32, u64, u64) {
        numbers(partner(run, result).unwrap())
    }

    /// The file of a run and our result.
    fn both(run: &Run) -> (Vec<u8>, Vec<u8>) {
        let file = sticks::file(run);
        let result = season::run(&file, usize::MAX).unwrap();
        (file, result)
    }

    /// The bytes with another value at a place.
    fn changed(bytes: &[u8], place: usize) -> Vec<u8> {
        let mut bytes = bytes.to_vec();
        bytes[place] ^= 0x10;
        bytes
    }

    /// One unit and three steps, their readings at 76, 103 and 106, the end field at 133; the records are at 0, 40 and
    /// 80, and the last field at 120.
    fn three_steps() -> (Vec<u8>, Vec<u8>) {
        let (file, result) = both(&sticks::with(&whole_case(), |run| {
            run.readings = vec![power_of(1.5), Reading::Missing, power_of(-0.25)];
        }));
        assert_eq!((file.len(), result.len()), (140, 127));
        assert_eq!([76, 103, 106, 133].map(|place| file[place]), [POWER, MISSING, POWER, END]);
        (file, result)
    }

    #[test]
    fn a_right_result() {
        let (file, result) = three_steps();
        assert_eq!(said(&file, &result), RIGHT);
        let (file, result) = both(&whole_case());
        assert_eq!(said(&file, &result), RIGHT);
        assert_eq!(result.len(), 47);
    }

    /// The whole field is shown, also where its tag or its length is what is wrong.
    #[test]
    fn a_changed_byte() {
        let (file, result) = three_steps();
        for place in 0..127 {
            let (start, len) = [(0, 40), (40, 40), (80, 40), (120, 7)][place / 40];
            assert_eq!(said(&file, &changed(&result, place)), (1, start, len), "byte {place}");
        }
        // The first of several.
        assert_eq!(said(&file, &changed(&changed(&result, 125), 43)), (1, 40, 40));
        assert_eq!(said(&file, &changed(&result, 79)[..90]), (1, 40, 40));
    }

    /// Bytes that end within a field are shown as far as they go; where they end at its edge, what lacks its result is.
    #[test]
    fn a_result_cut_short() {
        let (file, result) = three_steps();
        for length in 0..127 {
            let due = match length {
                0 => (2, 76, 27),
                40 => (2, 103, 3),
                80 => (2, 106, 27),
                120 => (2, 133, 7),
                _ => (1, length as u64 / 40 * 40, length as u64 % 40),
            };
            assert_eq!(said(&file, &result[..length]), due, "{length} bytes");
        }
        // One byte that is not ours, and no more.
        assert_eq!(said(&file, &[0]), (1, 0, 1));
        assert_eq!(said(&file, &[&result[..120], &[0x11]].concat()), (1, 120, 1));
        assert_eq!(said(&file, &changed(&result[..45], 3)), (1, 0, 40));
    }

    #[test]
    fn bytes_behind_the_last_field() {
        let (file, result) = three_steps();
        for behind in [&[0][..], &[0x1F], &result[120..], &result, &[0xFF; 1_000]] {
            assert_eq!(said(&file, &[&result, behind].concat()), (1, 127, behind.len() as u64));
            // What is wrong before them comes first.
            assert_eq!(said(&file, &[&changed(&result, 126), behind].concat()), (1, 120, 7));
        }
    }

    /// Nothing is looked for anywhere but at its own place.
    #[test]
    fn fields_left_out_and_put_in() {
        let (file, result) = three_steps();
        assert_eq!(said(&file, &[&result[..40], &result[80..]].concat()), (1, 40, 40));
        assert_eq!(said(&file, &[&result[..80], &result[120..]].concat()), (1, 80, 7));
        assert_eq!(said(&file, &[&result[..40], &result].concat()), (1, 40, 40));
        assert_eq!(said(&file, &[&result[..120], &result[80..]].concat()), (1, 120, 7));
        assert_eq!(said(&file, &[&result[40..80], &result[..40], &result[80..]].concat()), (1, 0, 40));
        assert_eq!(said(&file, &[&[0], &result[..]].concat()), (1, 0, 40));
        assert_eq!(said(&file, &[&result[..40], &[0], &result[40..]].concat()), (1, 40, 40));
        // A partner who forgot the last step, and counted so.
        let forgot = [&result[..80], &[0x1F, 0, 4, 0, 0, 0, 2]].concat();
        assert_eq!(said(&file, &forgot), (1, 80, 7));
        assert_eq!(said(&file, &file), (1, 0, 40));
    }

    #[test]
    fn a_run_of_no_steps() {
        let (file, result) = both(&sticks::with(&whole_case(), |run| run.readings.clear()));
        assert_eq!((file.len(), &result[..]), (83, &[0x1F, 0, 4, 0, 0, 0, 0][..]));
        assert_eq!(said(&file, &result), RIGHT);
        assert_eq!(said(&file, &[]), (2, 76, 7));
        for length in 1..7 {
            assert_eq!(said(&file, &result[..length]), (1, 0, length as u64));
        }
        assert_eq!(said(&file, &changed(&result, 6)), (1, 0, 7));
        assert_eq!(said(&file, &[&result[..], &[7, 7]].concat()), (1, 7, 2));
        assert_eq!(said(&file, &both(&whole_case()).1), (1, 0, 7));
    }

    /// A unit and an inverter; a weather at 362 and its reading at 381, a missing reading at 408, the end field at 411.
    /// The fields of the result are at 0, 40, 69, 109 and 138.
    #[test]
    fn a_site_with_an_inverter() {
        let (file, result) = both(&sticks::with(&whole_case(), |run| {
            run.site.inverters = vec![document_inverter()];
            run.readings = vec![power_of(1.5), Reading::Missing];
            run.weather = vec![Some(Weather { irradiance: 0.8, temperature: 25.0 })];
        }));
        assert_eq!((file.len(), result.len()), (418, 145));
        assert_eq!([362, 381, 408, 411].map(|place| file[place]), [WEATHER, POWER, MISSING, END]);
        let tags = [RECORD, SOLAR, RECORD, SOLAR, LAST];
        assert_eq!([0, 40, 69, 109, 138].map(|place| result[place]), tags);
        assert_eq!(said(&file, &result), RIGHT);
        for (place, due) in
            [(39, (1, 0, 40)), (40, (1, 40, 29)), (68, (1, 40, 29)), (69, (1, 69, 40)), (108, (1, 69, 40))]
        {
            assert_eq!(said(&file, &changed(&result, place)), due, "byte {place}");
        }
        // The inverter of the second step is off and not on.
        assert_eq!((result[48], result[117]), (1, 0));
        assert_eq!(said(&file, &[&result[..117], &[1], &result[118..]].concat()), (1, 109, 29));
        for (length, due) in [
            (0, (2, 381, 27)),
            (39, (1, 0, 39)),
            (40, (2, 381, 27)),
            (41, (1, 40, 1)),
            (69, (2, 408, 3)),
            (109, (2, 408, 3)),
            (137, (1, 109, 28)),
            (138, (2, 411, 7)),
            (144, (1, 138, 6)),
        ] {
            assert_eq!(said(&file, &result[..length]), due, "{length} bytes");
        }
        // Without the records of its inverter, as a partner without a roof would have it.
        assert_eq!(said(&file, &[&result[..40], &result[69..109], &result[138..]].concat()), (1, 40, 29));
    }

    /// Two units that buy by current, under a function: a voltage at 289 and its reading at 294, a voltage at 321 and a
    /// missing reading at 326, the end field at 329.
    #[test]
    fn a_site_that_buys_by_current_and_is_led() {
        let (file, result) = both(&sticks::with(&whole_case(), |run| {
            run.site.edition = 2;
            run.site.units = vec![run.site.units[0]; 2];
            run.site.settings.mode = 4;
            run.site.connections = vec![Connection { phases: 3, volts: 230 }; 2];
            run.site.function = Some(Function { base: 0, curve: voltages::operators_curve() });
            run.readings = vec![Reading::Current(Phases::of([9.0, 0.0, 0.0])), Reading::Missing];
            run.voltages = vec![Some(9_500), Some(10_500)];
        }));
        let (fleet, units, settings, connections, function) = (9, 2 * 60, 15, 9, 136);
        let first = fleet + units + settings + connections + function;
        assert_eq!((first, file.len(), result.len()), (289, 336, 167));
        let tags = [VOLTAGE, CURRENT, VOLTAGE, MISSING, END];
        assert_eq!([289, 294, 321, 326, 329].map(|place| file[place]), tags);
        assert_eq!(said(&file, &result), RIGHT);
        for (length, due) in [
            (0, (2, 294, 27)),
            (40, (2, 294, 27)),
            (80, (2, 326, 3)),
            (81, (1, 80, 1)),
            (120, (2, 326, 3)),
            (160, (2, 329, 7)),
            (161, (1, 160, 1)),
        ] {
            assert_eq!(said(&file, &result[..length]), due, "{length} bytes");
        }
        assert_eq!(said(&file, &changed(&result, 121)), (1, 120, 40));
        // The vars that a partner gives who does not know the function.
        let plain = sticks::with(&stick::read(&file).unwrap(), |run| {
            run.site.function = None;
            run.voltages.clear();
        });
        assert_eq!(said(&file, &both(&plain).1), (1, 0, 40));
    }

    /// A run file that is refused gets the check's three numbers, whatever the result is.
    #[test]
    fn a_refused_run_file() {
        let (file, result) = three_steps();
        let refused = |file: &[u8]| partner(file, &result).map(numbers);
        let answer = |number, place, steps| Err(Answer { number, place, steps });
        assert_eq!(refused(&[]), answer(8, 0, 0));
        assert_eq!(refused(&file[..139]), answer(1, 133, 3));
        assert_eq!(refused(&file[..106]), answer(8, 106, 2));
        assert_eq!(refused(&changed(&file, 103)), answer(2, 103, 1));
        assert_eq!(refused(&changed(&file, 139)), answer(7, 133, 3));
        assert_eq!(refused(&[&file[..], &[0]].concat()), answer(9, 140, 3));
        assert_eq!(refused(&vec![0; 2_097_153]), answer(12, 0, 0));
        for length in 0..file.len() {
            for result in [&[][..], &result, &result[..40], &file] {
                assert_eq!(partner(&file[..length], result), Err(check(&file[..length])));
            }
        }
    }

    /// The same by where the two results part, and by counting: a step has 40 bytes for each unit and 29 for each
    /// inverter, and the places of a run file are the lengths of what it says.
    fn by_counting(run: &Run, ours: &[u8], partner: &[u8]) -> (u32, u64, u64) {
        let (units, inverters) = (run.site.units.len(), run.site.inverters.len());
        let (each, steps) = (40 * units + 29 * inverters, run.readings.len());
        let parts = ours.iter().zip(partner).take_while(|(one, other)| one == other).count();
        if parts == ours.len() {
            let behind = partner.len() - parts;
            return if behind == 0 { RIGHT } else { (1, parts as u64, behind as u64) };
        }
        let (step, within) = (parts / each, parts % each);
        let (start, len) = match within.checked_sub(40 * units) {
            _ if step == steps => (each * steps, 7),
            None => (each * step + within / 40 * 40, 40),
            Some(within) => (each * step + 40 * units + within / 29 * 29, 29),
        };
        if start < partner.len() {
            return (1, start as u64, len.min(partner.len() - start) as u64);
        }
        let unit = if run.site.edition == 1 { 52 } else { 60 };
        let connections = run.site.connections.len();
        let mut place = 24 + unit * units + 286 * inverters;
        place += if connections == 0 { 0 } else { 3 + 3 * connections };
        place += if run.site.function.is_some() { 136 } else { 0 };
        let reading = |k: usize| if matches!(run.readings[k], Reading::Missing) { 3 } else { 27 };
        let around = |k: usize| {
            let weather = run.weather_of(k).map_or(0, |_| 19);
            weather + run.voltage_of(k).map_or(0, |_| 5)
        };
        place += (0..step).map(|k| around(k) + reading(k)).sum::<usize>();
        match step == steps {
            true => (2, place as u64, 7),
            false => (2, (place + around(step)) as u64, reading(step) as u64),
        }
    }

    /// A small run of any edition and mode.
    fn any_run(draw: &mut Draw) -> Run {
        let makers = [older::small_run, currents::small_run, voltages::small_run];
        draw.one_of(&makers)(draw)
    }

    /// A partner's result that is near ours, or that of another run.
    fn any_result(ours: &[u8], draw: &mut Draw) -> Vec<u8> {
        let mut result = ours.to_vec();
        let mut at = |most: usize| draw.below(most as u64 + 1) as usize;
        match at(7) {
            0 => (),
            1 => result.truncate(at(ours.len())),
            2 => result.truncate(at(ours.len()) / 40 * 40),
            3 => result.insert(at(ours.len()), at(255) as u8),
            4 => drop(result.remove(at(ours.len() - 1))),
            5 => result.extend((0..=at(50)).map(|byte| byte as u8)),
            6 => result = both(&any_run(draw)).1,
            _ => {
                let place = at(ours.len() - 1);
                result[place] ^= 1 << at(7);
                result.truncate(at(2 * ours.len()));
            }
        }
        result
    }

    #[test]
    fn what_is_shown_is_where_the_results_part() {
        let mut draw = Draw::from_seed(151);
        let mut met = BTreeMap::new();
        for _ in 0..1_500 {
            let run = any_run(&mut draw);
            let (file, result) = both(&run);
            let ours = Ours::of(&file).unwrap();
            assert_eq!(ours.result, result);
            for _ in 0..20 {
                let partner = any_result(&result, &mut draw);
                let shown = numbers(ours.beside(&partner));
                assert_eq!(shown, by_counting(&run, &result, &partner), "{file:02X?} {partner:02X?}");
                holds(&file, &ours, &partner, shown);
                *met.entry(shown.0).or_insert(0) += 1;
            }
        }
        assert!((0..3).all(|verdict| met[&verdict] > 2_000), "{met:?}");
    }

    /// J8, J9 and J11.
    fn holds(file: &[u8], ours: &Ours, partner: &[u8], (verdict, start, len): (u32, u64, u64)) {
        assert_eq!(verdict == 0, ours.result == partner);
        let (start, end) = (start as usize, (start + len) as usize);
        match verdict {
            0 => assert_eq!((start, end), (0, 0)),
            1 => {
                assert_eq!(ours.result[..start], partner[..start]);
                let ours = ours.fields.iter().find(|field| field.place.start == start).map(|field| {
                    assert!(field.place.end == end || end == partner.len());
                    &ours.result[field.place.clone()]
                });
                assert_ne!(ours.unwrap_or_default(), &partner[start..end]);
            }
            _ => {
                assert!(ours.result.starts_with(partner) && end <= file.len());
                assert_eq!(stick::value_part(file, start as u64), start + 3..end);
                assert!([POWER, MISSING, CURRENT, END].contains(&file[start]));
            }
        }
    }

    /// J10: the fields are all bytes of our result, and each is what its tag and its length say.
    #[test]
    fn our_fields_are_all_of_our_result() {
        let mut draw = Draw::from_seed(152);
        let mut met = BTreeMap::new();
        for _ in 0..1_000 {
            let run = any_run(&mut draw);
            let ours = Ours::of(&sticks::file(&run)).unwrap();
            let mut place = 0;
            for field in &ours.fields {
                assert_eq!(field.place.start, place);
                place = field.place.end;
                let tag = ours.result[field.place.start];
                let len = BTreeMap::from([(RECORD, 40), (SOLAR, 29), (LAST, 7)])[&tag];
                assert_eq!(field.place.len(), len);
                *met.entry(tag).or_insert(0) += 1;
            }
            assert_eq!(place, ours.result.len());
            let each = run.site.units.len() + run.site.inverters.len();
            assert_eq!(ours.fields.len(), each * run.readings.len() + 1);
        }
        assert!([RECORD, SOLAR, LAST].iter().all(|tag| met[tag] >= 1_000), "{met:?}");
    }

    /// Damaged sticks of every kind: no verdict, whatever the result.
    #[test]
    fn damaged_run_files() {
        let mut draw = Draw::from_seed(153);
        let mut refused = 0;
        for round in 0..3_000 {
            let file = damaged_by_turns(&mut draw, round);
            let answer = check(&file);
            let result = season::run(&file, usize::MAX).unwrap_or_default();
            match partner(&file, &result) {
                Ok(shown) => assert_eq!((numbers(shown), answer.number), (RIGHT, 0)),
                Err(refusal) => assert_eq!(refusal, answer),
            }
            refused += u32::from(answer.number != 0);
        }
        assert!((1_000..2_900).contains(&refused), "{refused}");
    }
}
