//! The fuzzer: calls the archive's functions and the reference with the same inputs, and compares all that they return
//! and leave.
//!
//! Where the reference was compiled with counters, inputs that take it through something new are kept and changed
//! further. The archive has no counters: it is guided by what the reference, which says the same rules, goes through.

mod build;
mod case;
mod compare;
mod cover;
mod fed;
mod files;
mod lent;
mod numbers;
mod passes;
mod surface;

use std::time::{Duration, Instant};
use std::{env, fs};

use case::{Case, Found, Pool};
use compare::Compare;
use cover::Seen;
use files::FileCase;
use numbers::Doubles;
use yesbrulka_reference::samples::currents::CurrentCall;
use yesbrulka_reference::samples::fleets::{PassCall, StudyCall};
use yesbrulka_reference::samples::inverters::SolarCall;
use yesbrulka_reference::samples::units::StepCall;
use yesbrulka_reference::samples::Draw;

extern "C" {
    fn isatty(descriptor: i32) -> i32;
}

/// What the command line says.
struct Order {
    seed: u64,
    seconds: u64,
    /// Where a difference is written.
    folder: String,
    wrong_on_purpose: bool,
    /// What to begin with.
    files: Vec<Vec<u8>>,
}

/// `fuzz SEED SECONDS FOLDER right|wrong FILE..`; none where that is not so, or a file cannot be read.
fn order() -> Option<Order> {
    let mut words = env::args().skip(1);
    let order = Order {
        seed: words.next()?.parse().ok()?,
        seconds: words.next()?.parse().ok()?,
        folder: words.next()?,
        wrong_on_purpose: words.next()? == "wrong",
        files: words.map(fs::read).collect::<Result<_, _>>().ok()?,
    };
    Some(order)
}

/// All pools, the draw and the tally.
struct Fuzz {
    draw: Draw,
    to: Compare,
    files: Pool<FileCase>,
    doubles: Pool<Doubles>,
    steps: Pool<StepCall>,
    inverters: Pool<SolarCall>,
    passes: Pool<PassCall>,
    currents: Pool<CurrentCall>,
    studies: Pool<StudyCall>,
    /// What building inputs goes through, which is no call's.
    built: Seen,
}

type Turn = Result<(), Box<Found>>;

/// Builds an input of a pool and tries it.
fn turn<C: Case>(pool: &mut Pool<C>, draw: &mut Draw, to: &mut Compare) -> Turn {
    let case = pool.next(draw);
    pool.try_one(case, to, draw)
}

impl Fuzz {
    fn new(order: &Order) -> Fuzz {
        Fuzz {
            draw: Draw::from_seed(order.seed),
            to: Compare::new(order.wrong_on_purpose),
            files: Pool::new(),
            doubles: Pool::new(),
            steps: Pool::new(),
            inverters: Pool::new(),
            passes: Pool::new(),
            currents: Pool::new(),
            studies: Pool::new(),
            built: Seen::nothing(),
        }
    }

    /// The files of the order as they are, and one that is too long.
    fn begin(&mut self, files: &[Vec<u8>]) -> Turn {
        let too_long = build::too_long(&mut self.draw);
        for file in files.iter().chain([&too_long]) {
            let case = FileCase { file: file.clone(), choices: self.draw.any() };
            self.files.try_one(case, &mut self.to, &mut self.draw)?;
        }
        Ok(())
    }

    /// One input of each kind, and a few of those that take little time.
    fn round(&mut self) -> Turn {
        let Fuzz { draw, to, .. } = self;
        turn(&mut self.files, draw, to)?;
        turn(&mut self.doubles, draw, to)?;
        for _ in 0..4 {
            turn(&mut self.steps, draw, to)?;
            turn(&mut self.inverters, draw, to)?;
            turn(&mut self.passes, draw, to)?;
            turn(&mut self.currents, draw, to)?;
        }
        turn(&mut self.studies, draw, to)
    }

    /// Notes what building some inputs goes through, for the report.
    fn note_building(&mut self) {
        cover::reset();
        // Not the run's own draw, which goes by the seed and never by the clock.
        let draw = &mut Draw::from_seed(self.files.tried);
        for _ in 0..50 {
            let _ = (self.files.next(draw), self.doubles.next(draw), self.steps.next(draw));
            let _ = (self.inverters.next(draw), self.passes.next(draw));
            let _ = (self.currents.next(draw), self.studies.next(draw));
        }
        self.built.take();
    }

    /// Kind, inputs tried and inputs kept of each pool.
    fn pools(&self) -> [(&'static str, u64, usize); 7] {
        fn row<C: Case>(pool: &Pool<C>) -> (&'static str, u64, usize) {
            (C::KIND, pool.tried, pool.kept())
        }
        [
            row(&self.files),
            row(&self.doubles),
            row(&self.steps),
            row(&self.inverters),
            row(&self.passes),
            row(&self.currents),
            row(&self.studies),
        ]
    }

    /// How many counters the calls reached, and how many only the building of inputs did.
    fn reached(&self) -> (usize, usize) {
        let calls = [
            self.files.seen(),
            self.doubles.seen(),
            self.steps.seen(),
            self.inverters.seen(),
            self.passes.seen(),
            self.currents.seen(),
            self.studies.seen(),
        ];
        let mut all = vec![false; cover::all()];
        for seen in calls {
            all.iter_mut().zip(seen.reached()).for_each(|(any, reached)| *any |= reached);
        }
        let by_building = all.iter().zip(self.built.reached()).filter(|&(&any, built)| built && !any);
        (all.iter().filter(|&&any| any).count(), by_building.count())
    }

    /// Rounds until the time is over or something differs.
    fn run(&mut self, order: &Order) -> Turn {
        let started = Instant::now();
        let watched = unsafe { isatty(1) } == 1;
        let mut told = 0;
        self.begin(&order.files)?;
        while started.elapsed() < Duration::from_secs(order.seconds) {
            self.round()?;
            let now = started.elapsed().as_secs();
            if now / 10 > told {
                told = now / 10;
                self.note_building();
                if watched {
                    self.tell_progress(now);
                }
            }
        }
        self.note_building();
        Ok(())
    }

    fn tell_progress(&self, seconds: u64) {
        let (calls, files) = (self.to.all_calls(), self.files.tried);
        println!("{seconds} s: {calls} calls, {files} files, {} counters", self.reached().0);
    }

    fn tell(&self, seconds: f64) {
        println!("\n{:>20}  {:>12}", "call", "compared");
        for (call, count) in self.to.calls() {
            println!("{call:>20}  {count:>12}");
        }
        println!("{:>20}  {:>12}", "all", self.to.all_calls());
        println!("\n{:>20}  {:>12}  {:>12}", "inputs", "tried", "kept");
        for (kind, tried, kept) in self.pools() {
            println!("{kind:>20}  {tried:>12}  {kept:>12}");
        }
        let (calls, building) = self.reached();
        println!(
            "\ncounters of the reference: {} in all, its samples' and those of panics too",
            cover::all()
        );
        println!("reached by the calls: {calls}; by building inputs alone: {building}");
        println!("{seconds:.0} s");
    }
}

/// Writes what was found, and says what it is.
fn tell_found(order: &Order, found: &Found) {
    let Found { difference, kind, stored, input } = found;
    let name = (1..)
        .map(|n| format!("{}/DIFFERENCE-{}-{n}.bin", order.folder, order.seed))
        .find(|name| fs::metadata(name).is_err())
        .expect("there is always a next number");
    println!("\nDIFFERENCE in {}, an input of the kind: {kind}", difference.call);
    println!("  input      {input}");
    println!("  lent       {}", difference.lent);
    println!("  archive    {}", difference.archive);
    println!("  reference  {}", difference.reference);
    match fs::write(&name, stored) {
        Ok(()) => println!("  kept in    {name}"),
        Err(error) => println!("  NOT kept: {name}: {error}"),
    }
    println!(
        "Find out by docs/RULES.md and docs/LAYOUTS.md which side is wrong, and add it as a stored case."
    );
}

#[no_mangle]
pub extern "C" fn main() -> i32 {
    let order = match order() {
        Some(order) => order,
        None => {
            eprintln!("usage: fuzz SEED SECONDS FOLDER right|wrong FILE.., with files that can be read");
            return 2;
        }
    };
    println!("seed {}, {} s", order.seed, order.seconds);
    match cover::all() {
        0 => {
            println!("NOT GUIDED: the reference has no counters, so that inputs come from its samples alone")
        }
        all => println!("guided by {all} counters in the reference; the archive itself has none"),
    }
    let started = Instant::now();
    let mut fuzz = Fuzz::new(&order);
    let outcome = fuzz.run(&order);
    fuzz.tell(started.elapsed().as_secs_f64());
    match outcome {
        Ok(()) => {
            println!("seed {}: {} calls compared, 0 differences", order.seed, fuzz.to.all_calls());
            0
        }
        Err(found) => {
            tell_found(&order, &found);
            1
        }
    }
}
