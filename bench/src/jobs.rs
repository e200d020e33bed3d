//! Random DC and transient jobs on every side.

use crate::compare::*;
use crate::form::{file, Form};
use crate::generate::{self, Sort};
use crate::job::*;
use crate::model::{self, wrong_coils, Situation, Situations, Wrong, SITUATIONS};
use crate::model::{WRONG, WRONG_BEHIND, WRONG_LIMIT, WRONG_PATTERN, WRONG_WORD};
use crate::shrink::shrink;
use crate::sides::{self, MUST_AGREE, OURS, PAIRS};
use crate::tally::{Progress, Tally};

const LIMITS: [f64; 7] = [1e-15, 1e-14, 1e-13, 1e-12, 1e-9, 1e-6, 1e-3];

/// How the shipped code and the unmodified Rust differ: in numbers, and in floats by size.
#[derive(Default)]
struct Apart {
    numbers: Tally,
    /// Jobs by the worst relative difference of a float, held against at least 1e-6.
    sizes: [u64; LIMITS.len() + 1],
    /// Sound circuits: compared, other numbers, floats alone.
    sound: [u64; 3],
    /// The worst job of all, and the worst among small sound circuits.
    worst: Option<Worst>,
    worst_sound: Option<Worst>,
}

struct Worst {
    relative: f64,
    place: u64,
    text: String,
}

impl Apart {
    fn add(&mut self, job: &Job, sort: Sort, place: u64, d: &[Difference]) {
        self.sound[0] += (sort == Sort::Sound) as u64;
        if d.is_empty() {
            return;
        }
        let mut fields: Vec<&str> = d.iter().filter(|x| !x.float).map(|x| x.field).collect();
        fields.dedup();
        for f in &fields {
            self.numbers.add(f);
        }
        for x in d.iter().filter(|x| x.field == "verdict") {
            self.numbers.add(&format!("verdict {} of the Rust is {} here", x.left, x.right));
        }
        if !fields.is_empty() {
            self.sound[1] += (sort == Sort::Sound) as u64;
            return;
        }
        let sized = d.iter().map(|x| {
            let (l, r) = (f64::from_bits(x.left), f64::from_bits(x.right));
            let size = (l - r).abs() / l.abs().max(r.abs()).max(1e-6);
            (if size.is_nan() { f64::INFINITY } else { size }, x)
        });
        let (relative, x) = sized.fold((-1.0, &d[0]), |a, b| if b.0 > a.0 { b } else { a });
        self.sizes[LIMITS.iter().take_while(|l| relative > **l).count()] += 1;
        self.sound[2] += (sort == Sort::Sound) as u64;
        let (l, r) = (f64::from_bits(x.left), f64::from_bits(x.right));
        let text = format!("{}; relative {:.1e}, {:?} floats apart", show(x), relative, distance(l, r));
        let sound = sort == Sort::Sound && job.nodes + job.sources <= 5;
        let slots = [(true, &mut self.worst), (sound, &mut self.worst_sound)];
        for (fits, slot) in slots {
            if fits && slot.as_ref().map_or(true, |w| w.relative < relative) {
                *slot = Some(Worst { relative, place, text: text.clone() });
            }
        }
    }

    fn tell(&self, seed: u64, draw: Draw) {
        println!("  of these, other numbers: {}", self.numbers.line());
        let sizes: Vec<String> = LIMITS.iter().zip(&self.sizes).map(|(l, n)| format!("to {:e} {}", l, n)).collect();
        println!(
            "  of these, floats alone, by the worst relative difference (against at least 1e-6): {}, above {}",
            sizes.join(", "),
            self.sizes[LIMITS.len()]
        );
        let [compared, numbers, floats] = self.sound;
        println!(
            "  sound circuits alone: {} compared, {} with other numbers, {} with other floats",
            compared, numbers, floats
        );
        if let Some(w) = &self.worst {
            println!("  largest of all: {} (job {} of seed {})", w.text, w.place, seed);
        }
        if let Some(w) = &self.worst_sound {
            println!(
                "  largest among sound circuits of up to 5 unknowns: {} (job {} of seed {})",
                w.text, w.place, seed
            );
            println!("    {}", describe(&draw(seed, w.place).0));
        }
    }
}

/// The job of a seed and a place.
type Draw = fn(u64, u64) -> (Job, Sort);

/// One of the four lists of random jobs: with every option off, with `catchup` on, with `pattern_first` on, and with coils.
struct List {
    name: &'static str,
    draw: Draw,
    /// Readings that its jobs could tell apart.
    wrong: Vec<(Wrong, &'static str)>,
}

fn off() -> List {
    // the diode that is behind is told here too, and the option must do nothing
    let of_option = |w: &Wrong| format!("{:?}", w).starts_with("Catchup") && *w != Wrong::CatchupAlways;
    let behind = WRONG_BEHIND.iter().filter(|w| !of_option(&w.0) && w.0 != Wrong::WaitingIsFree);
    let always = WRONG_WORD.iter().filter(|w| w.0 == Wrong::FirstAlways);
    let limit = WRONG_LIMIT.iter().filter(|w| !WRONG.iter().any(|known| known.0 == w.0));
    let wrong = WRONG.iter().chain(behind).chain(always).chain(limit).copied().collect();
    List { name: "jobs", draw: generate::job, wrong }
}

fn on() -> List {
    let wrong = WRONG_BEHIND.iter().filter(|w| w.0 != Wrong::CatchupAlways).copied().collect();
    List { name: "waiting jobs", draw: generate::waiting, wrong }
}

fn first() -> List {
    let wrong = WRONG_PATTERN.iter().chain(WRONG_WORD).filter(|w| w.0 != Wrong::FirstAlways).copied().collect();
    List { name: "pattern jobs", draw: generate::first, wrong }
}

fn coils() -> List {
    List { name: "jobs with coils", draw: generate::coils, wrong: wrong_coils() }
}

/// Runs `count` jobs with both options off, as many with `catchup` on, as many with `pattern_first` on and as many with coils; answers
/// the number that differ where none may.
pub fn run(seed: u64, count: u64, folder: &str) -> u64 {
    [off(), on(), first(), coils()].iter().map(|list| run_list(list, seed, count, folder)).sum()
}

fn run_list(list: &List, seed: u64, count: u64, folder: &str) -> u64 {
    let mut progress = Progress::new(list.name, count);
    let mut outcomes = Tally::default();
    let mut sorts = Tally::default();
    let mut compared = [0u64; 5];
    let mut differing = [0u64; 5];
    let mut domain = 0u64;
    let mut first: [Option<u64>; 5] = [None; 5];
    let mut apart = Apart::default();
    let mut told = vec![0u64; list.wrong.len()];
    let mut sizes = [0u64; 49];
    let mut diodes = Diodes::default();
    let mut moved = Moved::default();
    let mut coils = Coiled::default();
    for place in 0..count {
        let (job, sort) = (list.draw)(seed, place);
        let outcome = sides::run(&job);
        diodes.add(&job, &outcome);
        moved.add(&job, &outcome);
        coils.add(&job, &outcome);
        outcomes.add(&outcome.answer.outcome());
        sorts.add(&format!("{:?}", sort));
        if outcome.answer.refusal == 0 {
            sizes[(job.nodes + job.sources) as usize] += 1;
        }
        domain += outcome.domain as u64;
        for (p, pair) in outcome.pairs.iter().enumerate() {
            if let Some(d) = pair {
                compared[p] += 1;
                if !d.is_empty() {
                    differing[p] += 1;
                    first[p] = first[p].or(Some(place));
                }
            }
        }
        if let Some(d) = &outcome.pairs[4] {
            apart.add(&job, sort, place, d);
        }
        // one in twenty also shows which wrong readings it would tell apart
        if place % 20 == 0 {
            for (i, (wrong, _)) in list.wrong.iter().enumerate() {
                let other = model::run(&job, &OURS, *wrong);
                told[i] += !compare(&job, &other, &outcome.answer, ALL).is_empty() as u64;
            }
        }
        let bad: u64 = differing[..MUST_AGREE].iter().sum();
        progress.at(place + 1, &format!(", {} differ", bad));
    }
    progress.end();
    println!(
        "{}: {} from seed {} in {:.0} s, {} in the domain of demand 2",
        list.name,
        count,
        seed,
        progress.seconds(),
        domain
    );
    println!("  outcomes: {}", outcomes.line());
    println!("  sorts: {}", sorts.line());
    let low: u64 = sizes[1..=8].iter().sum();
    let high: u64 = sizes[25..].iter().sum();
    println!(
        "  unknowns: {} jobs with 1 to 8, {} with 9 to 24, {} with 25 to 48",
        low,
        sizes[9..=24].iter().sum::<u64>(),
        high
    );
    diodes.tell();
    moved.tell();
    coils.tell();
    for p in 0..5 {
        if compared[p] > 0 {
            println!("  {}: {} compared, {} differ", PAIRS[p], compared[p], differing[p]);
        }
    }
    if compared[4] > 0 {
        apart.tell(seed, list.draw);
    }
    let text: Vec<String> = list.wrong.iter().zip(&told).map(|((w, _), n)| format!("{:?} {}", w, n)).collect();
    println!("  of {} jobs so many would tell a wrong reading: {}", (count + 19) / 20, text.join(", "));
    for p in 0..MUST_AGREE {
        if let Some(place) = first[p] {
            report(list, seed, place, p, folder);
        }
    }
    differing[..MUST_AGREE].iter().sum()
}

/// What a list has of diodes: those that are behind, and the situations that they were in.
#[derive(Default)]
struct Diodes {
    /// Jobs in which a pass waited: DC runs, transients; and the passes that did.
    waited: [u64; 2],
    passes: u64,
    waited_to: Tally,
    /// Runs that name a diode: settled ones, others.
    named: [u64; 2],
    /// How often each situation held, and the runs in which it did.
    situations: Situations,
    runs: Situations,
}

impl Diodes {
    fn add(&mut self, job: &Job, o: &sides::Outcome) {
        if o.beyond.held != 0 {
            self.waited[job.transient as usize] += 1;
            self.passes += o.beyond.held;
            self.waited_to.add(&o.answer.outcome());
        }
        self.named[(o.answer.verdict != 0) as usize] += (o.answer.behind != Some(0)) as u64;
        for (k, times) in o.situations.into_iter().enumerate() {
            self.situations[k] += times;
            self.runs[k] += (times > 0) as u64;
        }
    }

    fn tell(&self) {
        let [settled, others] = self.named;
        println!("  runs that name a diode: {} settled, {} others", settled, others);
        let met = |(s, text): &(Situation, &str)| {
            let k = *s as usize;
            format!("{} {} in {} runs", text, self.situations[k], self.runs[k])
        };
        println!("  situations of diodes: {}", SITUATIONS.iter().map(met).collect::<Vec<_>>().join(", "));
        let [dc, transient] = self.waited;
        if dc + transient > 0 {
            println!(
                "  held back at least once: {} jobs, {} DC and {} transient, {} passes in all; they end with {}",
                dc + transient,
                dc,
                transient,
                self.passes,
                self.waited_to.line()
            );
        }
    }
}

/// What a list has of patterns that the option moves.
#[derive(Default)]
struct Moved {
    /// Jobs with the option on that run, those with a pattern in them, and those where another word than 1 turns it on.
    on: [u64; 3],
    /// Jobs in which an evaluation gave other bits: DC runs, transients; and the evaluations that did.
    moved: [u64; 2],
    evaluations: u64,
    moved_to: Tally,
    /// Jobs that are answered in another way with the option off: DC runs, transients; and those of them with another verdict.
    other: [u64; 2],
    verdicts: u64,
}

impl Moved {
    fn add(&mut self, job: &Job, o: &sides::Outcome) {
        if job.options.pattern_first == 0 || o.answer.refusal != 0 {
            return;
        }
        let has = job.elements().iter().any(|e| e.kind == 7);
        for (count, more) in self.on.iter_mut().zip([true, has, job.options.pattern_first != 1]) {
            *count += more as u64;
        }
        if o.beyond.moved == 0 {
            return;
        }
        let at = job.transient as usize;
        self.moved[at] += 1;
        self.evaluations += o.beyond.moved;
        self.moved_to.add(&o.answer.outcome());
        let mut off = job.clone();
        off.options.pattern_first = 0;
        let before = model::run(&off, &OURS, Wrong::Nothing);
        self.other[at] += !compare(job, &before, &o.answer, ALL).is_empty() as u64;
        self.verdicts += (before.verdict != o.answer.verdict) as u64;
    }

    fn tell(&self) {
        let [on, has, words] = self.on;
        if on == 0 {
            return;
        }
        println!(
            "  pattern_first on: {} jobs that run, {} of them with a pattern; by another word than 1: {}",
            on, has, words
        );
        let [dc, transient] = self.moved;
        println!(
            "  a pattern is moved at least once: {} jobs, {} DC and {} transient, {} evaluations in all; they end with {}",
            dc + transient,
            dc,
            transient,
            self.evaluations,
            self.moved_to.line()
        );
        let [dc, transient] = self.other;
        println!(
            "  answered in another way with pattern_first off: {} jobs, {} DC and {} transient; of these with another verdict {}",
            dc + transient,
            dc,
            transient,
            self.verdicts
        );
    }
}

/// What a list has of coils.
#[derive(Default)]
struct Coiled {
    /// Jobs with a coil that run: DC runs, transients; and the coils in them.
    run: [u64; 2],
    coils: u64,
    ends: Tally,
    dc_ends: Tally,
    /// Jobs in which the end of DC gave a coil a current, and these currents.
    set: [u64; 2],
    /// Jobs in which an accepted step moved a coil's current, and these moves.
    moved: [u64; 2],
    /// Jobs in which a step was cut, these cuts, and the jobs among them in which a step was accepted too and moved a current.
    cut: [u64; 3],
    /// Jobs in which a diode held a step open.
    held: u64,
    /// Jobs with a coil that are refused, and those of them by 9 at a number that is below the count and so a shared one.
    refused: Tally,
    shared: u64,
}

impl Coiled {
    fn add(&mut self, job: &Job, o: &sides::Outcome) {
        let elements = job.elements();
        let a = &o.answer;
        if !elements.iter().any(|e| e.is_coil()) {
            return;
        }
        if a.refusal != 0 {
            self.refused.add(&a.outcome());
            self.shared += (a.refusal == 9 && (elements[a.place as usize].source as u64) < job.sources) as u64;
            return;
        }
        let c = o.beyond.coils;
        self.run[job.transient as usize] += 1;
        self.coils += c.present;
        self.ends.add(&a.outcome());
        self.dc_ends.add(&format!("{}", if job.transient { a.dc_verdict } else { a.verdict }));
        let count = |counts: &mut [u64], times: u64| {
            counts[0] += (times > 0) as u64;
            counts[1] += times;
        };
        count(&mut self.set, c.set);
        count(&mut self.moved, c.moved);
        count(&mut self.cut, c.cut);
        self.cut[2] += (c.cut > 0 && c.moved > 0) as u64;
        self.held += (o.beyond.held > 0) as u64;
    }

    fn tell(&self) {
        let [dc, transient] = self.run;
        if dc + transient == 0 {
            return;
        }
        println!(
            "  jobs with coils that run: {}, {} DC and {} transient, {} coils in all; they end with {}; DC ends with {}",
            dc + transient,
            dc,
            transient,
            self.coils,
            self.ends.line(),
            self.dc_ends.line()
        );
        let [set, moved, cut] = [self.set[0], self.moved[0], self.cut[0]];
        println!("  the end of DC gives a current in {} of them, {} currents in all", set, self.set[1]);
        println!("  an accepted step moves a current in {} of them, {} moves in all", moved, self.moved[1]);
        println!(
            "  a step is cut in {} of them, {} cuts in all; in {} of these a current moves too; a diode holds a pass open in {}",
            cut, self.cut[1], self.cut[2], self.held
        );
        println!("  jobs with coils refused: {}; for a shared number {}", self.refused.line(), self.shared);
    }
}

/// One job of a seed, of one of the four lists: its words, its answer, and what differs.
pub fn show_one(seed: u64, place: u64, which: usize) -> u64 {
    let list = [off, on, first, coils][which]();
    let (job, sort) = (list.draw)(seed, place);
    let o = sides::run(&job);
    println!("job {} of seed {} ({:?}): {}", place, seed, sort, describe(&job));
    let a = &o.answer;
    println!("{}, DC verdict {}, passes {}, rows {}, end {:?}", a.outcome(), a.dc_verdict, a.passes, a.rows, a.end);
    let (held, moved) = (o.beyond.held, o.beyond.moved);
    println!(
        "diode behind {:?}, passes that waited {}, patterns moved {}, {:?}",
        a.behind, held, moved, o.beyond.coils
    );
    for (p, pair) in o.pairs.iter().enumerate() {
        for d in pair.iter().flatten().take(20) {
            println!("  {}: {}", PAIRS[p], show(d));
        }
    }
    o.pairs[..MUST_AGREE].iter().flatten().map(|d| d.len() as u64).sum()
}

/// Shows the first job of a pair that differs, and the smallest one made from it.
fn report(list: &List, seed: u64, place: u64, pair: usize, folder: &str) {
    let (job, sort) = (list.draw)(seed, place);
    println!("\nDIFFERENCE: {}; job {} of seed {} of {} ({:?})", PAIRS[pair], place, seed, list.name, sort);
    let differences = |j: &Job| sides::run(j).pairs[pair].clone().unwrap_or_default();
    for d in differences(&job).iter().take(8) {
        println!("  {}", show(d));
    }
    println!("  {}", describe(&job));
    let small = shrink(&job, &mut |j| !differences(j).is_empty());
    println!(" smallest:");
    for d in differences(&small).iter().take(8) {
        println!("  {}", show(d));
    }
    println!("  {}", describe(&small));
    let path = format!("{}/difference-{}-{}.jobs", folder, pair, place);
    if std::fs::write(&path, file(Form::Two, &[(small, None)])).is_ok() {
        println!("  written to {}", path);
    }
}
