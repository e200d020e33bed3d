//! All spreads in one call, held against single runs of every side and against the report that these add up to.

use crate::compare::{same, show, Difference};
use crate::door;
use crate::exact;
use crate::job::*;
use crate::model::{self, Beyond, Wrong};
use crate::oracle::hooked;
use crate::sides::OURS;
use crate::spread_calls::{self, *};
use crate::spread_rules::{refusal, report, Slip, BEHIND, REJECTED, SLIPS, SOUND_SLIPS};
use crate::tally::{Progress, Tally};

/// What a call is held against: one that is refused against the rules, one that runs against single runs of three sides.
const SIDES: [&str; 4] = [
    "the rules of refusal",
    "single runs of the shipped savrunte_dc",
    "single runs of the model",
    "single runs of the Rust with our functions",
];

/// One call: the shipped report, the model's single runs with what they did that the Rust never does, and what differs from each side.
struct Outcome {
    shipped: Report,
    runs: Vec<Answer>,
    beyond: Vec<Beyond>,
    differences: [Vec<Difference>; 4],
}

/// Every field in which the shipped report differs from the one that single runs add up to.
fn compare(call: &Call, shipped: &Report, single: &Report) -> Vec<Difference> {
    let mut d = Vec::new();
    let mut word = |field, place, left: u64, right: u64, float| {
        if left != right && !(float && same(f64::from_bits(left), f64::from_bits(right))) {
            d.push(Difference { field, place, left, right, float });
        }
    };
    let (s, t) = (&shipped.answer, &single.answer);
    word("refusal", 0, s.refusal, t.refusal, false);
    word("settled", 0, s.settled, t.settled, false);
    word("smallest", 0, s.smallest.to_bits(), t.smallest.to_bits(), true);
    word("largest", 0, s.largest.to_bits(), t.largest.to_bits(), true);
    word("smallest_at", 0, s.smallest_at, t.smallest_at, false);
    word("largest_at", 0, s.largest_at, t.largest_at, false);
    word("sound", 0, s.sound, t.sound, false);
    word("sound_smallest", 0, s.sound_smallest.to_bits(), t.sound_smallest.to_bits(), true);
    word("sound_largest", 0, s.sound_largest.to_bits(), t.sound_largest.to_bits(), true);
    word("sound_smallest_at", 0, s.sound_smallest_at, t.sound_smallest_at, false);
    word("sound_largest_at", 0, s.sound_largest_at, t.sound_largest_at, false);
    for (b, field) in FLOATS.iter().enumerate() {
        // the first four are scratch: only what lies past the lengths named is fixed, and all of it on a refusal
        let scratch = if t.refusal != 0 || b == VECTORS { 0 } else { call.needed().0[b] };
        for (i, (l, r)) in shipped.floats[b].iter().zip(&single.floats[b]).enumerate().skip(scratch) {
            word(field, i, l.to_bits(), r.to_bits(), true);
        }
    }
    for (b, field) in WORDS.iter().enumerate() {
        for (i, (l, r)) in shipped.words[b].iter().zip(&single.words[b]).enumerate() {
            word(field, i, *l, *r, false);
        }
    }
    d
}

/// The shipped judge.
fn shipped_judge(system: &[f64], vector: &[f64], tolerances: &[f64], rows: usize) -> (u64, u64) {
    door::judge(system, vector, tolerances, rows).expect("an archive is linked")
}

/// The call and its single runs, held against each other. Without an archive the model's report stands for the shipped one.
fn held(call: &Call) -> Outcome {
    let number = refusal(call);
    if number != 0 {
        let expected = Report::refused(call, number);
        let shipped = door::spreads(call).unwrap_or_else(|| expected.clone());
        let d = compare(call, &shipped, &expected);
        let differences = [d, Vec::new(), Vec::new(), Vec::new()];
        return Outcome { shipped, runs: Vec::new(), beyond: Vec::new(), differences };
    }
    let jobs: Vec<Job> = (0..call.jobs).map(|k| call.single(k)).collect();
    let (runs, beyond): (Vec<Answer>, Vec<Beyond>) =
        jobs.iter().map(|j| model::run_beyond(j, &OURS, Wrong::Nothing)).unzip();
    // the Rust has no refusals and no options of ours: those jobs are the model's
    let rust = |(job, (run, beyond)): (&Job, (&Answer, &Beyond))| match run.refusal {
        0 if beyond.none() => hooked::run(job, &OURS).0,
        _ => run.clone(),
    };
    let theirs: Vec<Answer> = jobs.iter().zip(runs.iter().zip(&beyond)).map(rust).collect();
    let of_model = report(call, &runs, exact::judge, Slip::Nothing);
    let shipped = door::spreads(call).unwrap_or_else(|| of_model.clone());
    let mut ours = Vec::new();
    if door::LINKED {
        let single: Vec<Answer> = jobs.iter().filter_map(door::run).collect();
        ours = compare(call, &shipped, &report(call, &single, shipped_judge, Slip::Nothing));
    }
    let of_rust = report(call, &theirs, exact::judge, Slip::Nothing);
    let differences = [Vec::new(), ours, compare(call, &shipped, &of_model), compare(call, &shipped, &of_rust)];
    Outcome { shipped, runs, beyond, differences }
}

/// One of the calls: its name, its directed and its random calls, and the wrong readings of it.
struct Kind {
    name: &'static str,
    directed: fn() -> Vec<Call>,
    call: fn(u64, u64) -> Call,
    slips: Vec<Slip>,
    /// Those that a directed call must tell.
    told: &'static [Slip],
}

fn plain() -> Kind {
    let (directed, call) = (spread_calls::every_directed, spread_calls::every_call);
    Kind { name: "spreads", directed, call, slips: SLIPS.to_vec(), told: &[] }
}

fn sound() -> Kind {
    let (directed, call) = (spread_calls::every_sound_directed, spread_calls::every_sound_call);
    Kind { name: "sound spreads", directed, call, slips: [&SLIPS[..], &SOUND_SLIPS].concat(), told: &SOUND_SLIPS }
}

/// Calls of either sort with coils in them.
fn coils() -> Kind {
    let (directed, call) = (spread_calls::coil_directed, spread_calls::coil_call);
    Kind { name: "spreads with coils", directed, call, slips: SLIPS.to_vec(), told: &[] }
}

/// Whether a call that runs would tell a wrong reading.
fn tells(call: &Call, runs: &[Answer], single: &Report, slip: Slip) -> bool {
    !compare(call, &report(call, runs, exact::judge, slip), single).is_empty()
}

/// What was run, counted.
#[derive(Default)]
struct Counts {
    calls: Tally,
    numbers: Tally,
    jobs: u64,
    answered: u64,
    /// Jobs of which a pass waited.
    waited: u64,
    /// Calls that run with the option `pattern_first` on, those that are answered in another way with it off, and their jobs with a
    /// pattern that it moves.
    first: [u64; 3],
    /// Calls that run with a coil in a job that runs, and these jobs.
    coils: [u64; 2],
    none_settled: u64,
    /// Calls whose smallest or largest stands more than once.
    ties: u64,
    /// Calls with settled jobs that are not sound, and such calls in which both reports differ in smallest or largest.
    doubtful: [u64; 2],
    /// Calls that would tell a wrong reading.
    told: Vec<u64>,
    /// Calls compared and differing.
    compared: [u64; 4],
    differing: [u64; 4],
}

impl Counts {
    fn add(&mut self, kind: &Kind, call: &Call, o: &Outcome) {
        let refused = refusal(call);
        for (side, d) in o.differences.iter().enumerate() {
            self.compared[side] += ((side == 0) == (refused != 0)) as u64;
            self.differing[side] += !d.is_empty() as u64;
        }
        if refused != 0 {
            self.calls.add(&format!("refusal {}", refused));
            return;
        }
        self.calls.add("run");
        let single = report(call, &o.runs, exact::judge, Slip::Nothing);
        self.add_jobs(call, o, &single);
        self.add_first(call, o, &single);
        let answer = &single.answer;
        self.none_settled += (answer.settled == 0) as u64;
        let at = call.unknown as usize;
        let settled = o.runs.iter().filter(|r| r.refusal == 0 && r.verdict == 0).map(|r| r.buffers[VECTOR][at]);
        let often = |x: f64| settled.clone().filter(|v| *v == x).count() > 1;
        self.ties += (answer.settled > 0 && (often(answer.smallest) || often(answer.largest))) as u64;
        let other = answer.smallest_at != answer.sound_smallest_at || answer.largest_at != answer.sound_largest_at;
        self.doubtful[0] += (answer.sound < answer.settled) as u64;
        self.doubtful[1] += (answer.sound < answer.settled && other) as u64;
        self.told.resize(kind.slips.len(), 0);
        for (told, slip) in self.told.iter_mut().zip(&kind.slips) {
            *told += tells(call, &o.runs, &single, *slip) as u64;
        }
    }

    /// What the option for patterns brings.
    fn add_first(&mut self, call: &Call, o: &Outcome, single: &Report) {
        if call.options.pattern_first == 0 {
            return;
        }
        let mut off = call.clone();
        off.options.pattern_first = 0;
        let moved = o.beyond.iter().filter(|b| b.moved != 0).count() as u64;
        let runs =
            || (0..call.jobs).map(|k| model::run(&off.single(k), &OURS, Wrong::Nothing)).collect::<Vec<Answer>>();
        let other = moved > 0 && !compare(call, &report(&off, &runs(), exact::judge, Slip::Nothing), single).is_empty();
        for (count, more) in self.first.iter_mut().zip([1, other as u64, moved]) {
            *count += more;
        }
    }

    /// The jobs of a call by their numbers.
    fn add_jobs(&mut self, call: &Call, o: &Outcome, single: &Report) {
        self.jobs += call.jobs as u64;
        for (k, (run, beyond)) in o.runs.iter().zip(&o.beyond).enumerate() {
            match single.words[NUMBER][k] {
                cause @ (BEHIND | REJECTED | 11) => self.numbers.add(&format!("cause {}", cause)),
                _ => self.numbers.add(&run.outcome()),
            }
            self.answered += (run.refusal == 0 && beyond.none()) as u64;
            self.waited += (beyond.held != 0) as u64;
        }
        let coiled = o.beyond.iter().filter(|b| b.coils.present != 0).count() as u64;
        self.coils[0] += (coiled > 0) as u64;
        self.coils[1] += coiled;
    }

    fn tell(&self, kind: &Kind) {
        println!("  calls: {}", self.calls.line());
        println!(
            "  their jobs: {}, {} of them answered by the Rust; {}",
            self.jobs,
            self.answered,
            self.numbers.line()
        );
        println!("  calls without a settled job {}, with a tie {}", self.none_settled, self.ties);
        if !kind.told.is_empty() {
            let [doubtful, other] = self.doubtful;
            println!(
                "  calls with settled jobs that are not sound {}, of these with another smallest or largest {}; jobs of which a pass waited {}",
                doubtful, other, self.waited
            );
        }
        let [on, other, moved] = self.first;
        println!(
            "  calls that run with pattern_first on {}, of these answered in another way with it off {}; jobs with a pattern that it moves {}",
            on, other, moved
        );
        let [calls, jobs] = self.coils;
        if jobs > 0 {
            println!("  calls that run with coils {}, jobs of them with coils that run {}", calls, jobs);
        }
        let told: Vec<String> = kind.slips.iter().zip(&self.told).map(|(s, n)| format!("{:?} {}", s, n)).collect();
        println!("  so many calls would tell a wrong reading: {}", told.join(", "));
        for (side, name) in SIDES.iter().enumerate() {
            let (compared, differ) = (self.compared[side], self.differing[side]);
            // without an archive the model stands for it
            if door::LINKED || side == 3 {
                println!("  one call against {}: {} compared, {} differ", name, compared, differ);
            }
        }
    }
}

/// Runs `calls` calls of each kind; answers how many differ.
pub fn run(seed: u64, calls: u64) -> u64 {
    if !door::LINKED {
        println!("spreads: no archive linked, the model's reports stand for its own");
    }
    [plain(), sound(), coils()].iter().map(|kind| run_kind(kind, seed, calls)).sum()
}

fn run_kind(kind: &Kind, seed: u64, calls: u64) -> u64 {
    let amiss = directed(kind);
    let mut progress = Progress::new(kind.name, calls);
    let mut counts = Counts::default();
    let mut first = None;
    for place in 0..calls {
        let call = (kind.call)(seed, place);
        let o = held(&call);
        counts.add(kind, &call, &o);
        if o.differences.iter().any(|d| !d.is_empty()) {
            first = first.or(Some(place));
        }
        progress.at(place + 1, &format!(", {} differ", counts.differing.iter().max().unwrap_or(&0)));
    }
    progress.end();
    println!("{}: {} calls from seed {} in {:.0} s", kind.name, calls, seed, progress.seconds());
    counts.tell(kind);
    if let Some(place) = first {
        explain(kind, seed, place);
    }
    amiss + counts.differing.iter().sum::<u64>()
}

/// The directed calls; answers how many differ, and how many wrong readings none of them tells.
fn directed(kind: &Kind) -> u64 {
    let calls = (kind.directed)();
    let outcomes: Vec<Outcome> = calls.iter().map(held).collect();
    let pairs = || calls.iter().zip(&outcomes);
    let amiss: Vec<&Call> = pairs().filter(|(_, o)| o.differences.iter().any(|d| !d.is_empty())).map(|p| p.0).collect();
    let mut refusals = Tally::default();
    for call in &calls {
        refusals.add(&format!("refusal {}", refusal(call)));
    }
    let (count, differ) = (calls.len(), amiss.len());
    println!("{}: {} directed calls at the limits, {} differ; {}", kind.name, count, differ, refusals.line());
    for call in &amiss {
        tell(call);
    }
    let told = |slip: &&Slip| {
        let tell = |(call, o): (&Call, &Outcome)| {
            let runs = || report(call, &o.runs, exact::judge, Slip::Nothing);
            refusal(call) == 0 && tells(call, &o.runs, &runs(), **slip)
        };
        pairs().any(tell)
    };
    let untold: Vec<&Slip> = kind.told.iter().filter(|slip| !told(slip)).collect();
    if !kind.told.is_empty() {
        println!("  they tell {} of {} wrong readings", kind.told.len() - untold.len(), kind.told.len());
    }
    if !untold.is_empty() {
        println!("  NOT TOLD by a directed call: {:?}", untold);
    }
    (amiss.len() + untold.len()) as u64
}

/// The first call that differs, and what is left of it with as few jobs as may be.
fn explain(kind: &Kind, seed: u64, place: u64) {
    let mut call = (kind.call)(seed, place);
    println!("\nDIFFERENCE in call {} of seed {} of {}", place, seed, kind.name);
    tell(&call);
    if refusal(&call) != 0 {
        return;
    }
    let differs = |c: &Call| held(c).differences.iter().any(|d| !d.is_empty());
    let mut k = call.jobs;
    while k > 0 {
        k -= 1;
        if call.jobs > 1 && differs(&call.without(k)) {
            call = call.without(k);
        }
    }
    println!(" with the fewest jobs:");
    tell(&call);
    for k in 0..call.jobs.min(4) {
        println!("  job {}: {}", k, crate::compare::describe(&call.single(k)));
    }
}

fn tell(call: &Call) -> u64 {
    println!(
        "  jobs {}, nodes {}, sources {}, unknown {}, catchup {}, pattern_first {}, sheets of {} bytes, points of {} bytes, tolerances {:?}, floats lent {:?}, words lent {:?}",
        call.jobs,
        call.nodes,
        call.sources,
        call.unknown,
        call.options.catchup,
        call.options.pattern_first,
        call.sheets.len(),
        call.points.len(),
        call.tolerances,
        call.floats,
        call.words
    );
    let o = held(call);
    let s = &o.shipped.answer;
    println!(
        "  refusal {}, settled {}, smallest {:e} at {}, largest {:e} at {}",
        s.refusal, s.settled, s.smallest, s.smallest_at, s.largest, s.largest_at
    );
    if call.sound {
        println!(
            "  sound {}, smallest {:e} at {}, largest {:e} at {}",
            s.sound, s.sound_smallest, s.sound_smallest_at, s.sound_largest, s.sound_largest_at
        );
    }
    for (side, differences) in o.differences.iter().enumerate() {
        for d in differences.iter().take(8) {
            println!("  against {}, place {}: {}", SIDES[side], d.place, show(d));
        }
    }
    o.differences.iter().map(|d| d.len() as u64).sum()
}

/// One call of a seed, of one of the three kinds: its report, and what differs.
pub fn show_one(seed: u64, place: u64, which: usize) -> u64 {
    let kind = [plain, sound, coils][which]();
    println!("call {} of seed {} of {}", place, seed, kind.name);
    tell(&(kind.call)(seed, place))
}
