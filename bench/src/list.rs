//! The fixed list: jobs and the oracle's answers, for a replay without any Rust; and the replay
//! of such a list, or of a file of jobs, on every side.

use crate::coils;
use crate::compare::*;
use crate::directed;
use crate::door;
use crate::first;
use crate::form::{file, read_file, Form};
use crate::generate;
use crate::job::*;
use crate::model::{self, Beyond, Coils, Wrong};
use crate::oracle::hooked;
use crate::sides::{self, MUST_AGREE, OURS, PAIRS};
use crate::tally::Tally;
use crate::waiting;

/// No job of the list lends more floats than these, buffer by buffer.
const MOST_LENT: [usize; 6] = [2360, 2360, 2360, 64, 264, 2048];
const MOST_ROW_FLOATS: usize = MOST_LENT[ROWS];

/// How many jobs of an outcome the list takes.
fn quota(job: &Job, answer: &Answer) -> (String, u64) {
    if answer.refusal != 0 {
        let most = if answer.refusal > 5 { 40 } else { 15 };
        return (format!("refusal {}", answer.refusal), most);
    }
    let key = if job.transient {
        format!("transient {} after {}", answer.verdict, answer.dc_verdict)
    } else {
        format!("DC {}", answer.verdict)
    };
    let most = match (job.transient, answer.verdict) {
        (true, 0) => 220,
        (false, 0) => 150,
        _ => 80,
    };
    (key, most)
}

/// The oracle's answer: the Rust's own where it has one, else the model's; they must agree. The Rust has none where a pass waits, a
/// pattern is moved or a step has a coil; at DC a coil is a V of 0 to it.
pub fn answer(job: &Job) -> Answer {
    let (answer, beyond) = model::run_beyond(job, &OURS, Wrong::Nothing);
    if answer.refusal != 0 || !beyond.none() {
        return answer;
    }
    let (rust, stopped) = hooked::run(job, &OURS);
    let scope = Scope { end: !stopped, elimination: false };
    assert!(compare(job, &answer, &rust, scope).is_empty(), "model and Rust differ: {}", describe(job));
    if stopped {
        answer
    } else {
        rust
    }
}

/// Lends few rows, so that a replay needs no large buffer; the answer stays.
fn tighten(job: &mut Job, a: &Answer) {
    if a.refusal == 0 && job.transient && a.verdict != 25 {
        let n = (job.nodes + job.sources) as usize;
        let spare = job.lengths[ROWS] % 5;
        job.lengths[ROWS] = job.lengths[ROWS].min((a.rows as usize).max(1) * (n + 1) + spare);
    } else if a.refusal != 0 {
        job.lengths[ROWS] = job.lengths[ROWS].min(MOST_ROW_FLOATS);
    }
}

/// A job that a list may take, lending few rows, with what the model says of it.
struct Candidate {
    job: Job,
    answer: Answer,
    beyond: Beyond,
}

impl Candidate {
    /// None where it lends too much, which no directed job may.
    fn new(mut job: Job, directed: bool) -> Option<Candidate> {
        let (answer, beyond) = model::run_beyond(&job, &OURS, Wrong::Nothing);
        tighten(&mut job, &answer);
        let large = job.lengths.iter().zip(MOST_LENT).any(|(l, most)| *l > most);
        assert!(!(directed && large), "a directed job lends too much: {}", describe(&job));
        (!large).then_some(Candidate { job, answer, beyond })
    }

    /// Its ending, with a word behind it where such jobs are counted apart.
    fn class(&self, apart: bool, word: &str) -> String {
        format!("{}{}", quota(&self.job, &self.answer).0, if apart { word } else { "" })
    }
}

/// The jobs taken with their answers, and how many there are of each class.
#[derive(Default)]
struct Taken {
    list: Vec<(Job, Option<Answer>)>,
    classes: Tally,
}

impl Taken {
    fn put(&mut self, job: Job) {
        let a = answer(&job);
        self.list.push((job, Some(a)));
    }

    /// Takes a job while there are fewer of its class than these; a directed one always. Says whether it did.
    fn take(&mut self, c: Candidate, class: &str, most: u64, directed: bool) -> bool {
        let taken = directed || self.classes.get(class) < most;
        if taken {
            self.classes.add(class);
            self.put(c.job);
        }
        taken
    }

    fn write(&self, seed: u64, path: &str, form: Form) {
        let bytes = file(form, &self.list);
        println!("{}: {} jobs, {} bytes, seed {}; {}", path, self.list.len(), bytes.len(), seed, stored(path, &bytes));
    }
}

/// Mostly jobs of few unknowns and no more records than these; a larger one now and then.
fn small(job: &Job, place: u64, records: usize) -> bool {
    let unknowns = job.nodes.saturating_add(job.sources);
    unknowns <= 5 && job.sheet.len() <= records * RECORD || unknowns <= 12 && place % 40 == 0
}

/// A job as the first list has it, which was drawn when 11 was no kind: its jobs stay what they were to the byte, chosen by what they
/// are with an unknown kind and stored with 11. In ten of them that record decides the answer, which is then that of a coil.
fn as_then(mut job: Job) -> Job {
    for record in job.sheet.chunks_exact_mut(RECORD).filter(|r| r[0] == generate::UNKNOWN_KIND) {
        record[0] = COIL;
    }
    job
}

/// Writes the list made from a seed.
pub fn write(seed: u64, path: &str, form: Form) -> u64 {
    let mut taken = Taken::default();
    let mut take = |job: Job, directed: bool| {
        if let Some(mut c) = Candidate::new(job, directed) {
            let (class, most) = quota(&c.job, &c.answer);
            c.job = as_then(c.job);
            taken.take(c, &class, most, directed);
        }
    };
    for d in directed::all() {
        take(d.job, true);
    }
    for place in 0..400_000 {
        let (job, _) = generate::job(seed, place);
        let unknowns = job.nodes.saturating_add(job.sources);
        let refused = job.sheet.len() <= 12 * RECORD && model::refusal(&job).0 != 0;
        // a large one now and then, among the first
        if small(&job, place, 9) || refused || (unknowns <= 48 && place < 4_000 && place % 60 == 0) {
            take(job, false);
        }
    }
    let mut outcomes = Tally::default();
    taken.list.iter().filter_map(|(_, a)| a.as_ref()).for_each(|a| outcomes.add(&a.outcome()));
    taken.write(seed, path, form);
    println!("  {}", outcomes.line());
    println!("  {}", taken.classes.line());
    0
}

/// Writes a file, and says whether it was there before with these very bytes.
pub fn stored(path: &str, bytes: &[u8]) -> &'static str {
    let before = std::fs::read(path);
    std::fs::write(path, bytes).expect("the list cannot be written");
    match before {
        Ok(b) if b == bytes => "as it was stored, to the byte",
        Ok(_) => "NOT as it was stored",
        Err(_) => "not stored before",
    }
}

/// How many random jobs of an ending `write_waiting` takes, of those that wait and of the others.
const WAITING: u64 = 40;
const NOT_WAITING: u64 = 6;

/// Writes the jobs about diodes that are behind: the directed ones, then random ones with the option on, in form 2.
pub fn write_waiting(seed: u64, path: &str) -> u64 {
    let mut taken = Taken::default();
    let mut held_back = 0;
    let mut take = |job: Job, directed: bool| {
        if let Some(c) = Candidate::new(job, directed) {
            let waits = c.beyond.held > 0;
            let class = c.class(waits, ", waits");
            let most = if waits { WAITING } else { NOT_WAITING };
            held_back += (taken.take(c, &class, most, directed) && waits) as u64;
        }
    };
    for d in waiting::all() {
        take(d.job, true);
    }
    for place in 0..100_000 {
        let (job, _) = generate::waiting(seed, place);
        if small(&job, place, 9) {
            take(job, false);
        }
    }
    taken.write(seed, path, Form::Two);
    println!("  {} of them wait; {}", held_back, taken.classes.line());
    0
}

/// How many random jobs of an ending `write_patterns` takes: of those with a pattern that the option moves, settled and others, and of
/// those without.
const MOVED: [u64; 2] = [20, 5];
const NOT_MOVED: u64 = 1;

/// Its random jobs have short answers; the first of each ending may have a longer one.
const SHORT: [usize; 2] = [2_400, 800];

/// Writes the jobs about patterns that start away from zero: the directed ones, each once, then random ones with the option on, in
/// form 2.
pub fn write_patterns(seed: u64, path: &str) -> u64 {
    let mut taken = Taken::default();
    let mut counts = [0; 4];
    let mut seen = Vec::new();
    for d in first::all() {
        let bytes = d.job.bytes(Form::Two);
        if !seen.contains(&bytes) {
            seen.push(bytes);
            take_pattern(&mut taken, &mut counts, d.job, true);
        }
    }
    for place in 0..100_000 {
        let (job, _) = generate::first(seed, place);
        if small(&job, place, 6) {
            take_pattern(&mut taken, &mut counts, job, false);
        }
    }
    taken.write(seed, path, Form::Two);
    let [directed, random, moved, waits] = counts;
    println!("  {} directed, {} random: {}", directed, random, taken.classes.line());
    println!("  in {} of them a pattern is moved, in {} of these a pass waits too", moved, waits);
    0
}

/// Takes a job about patterns, and counts it: directed, random, moved, and with a pass that waits too. Only the random ones are
/// counted by class.
fn take_pattern(taken: &mut Taken, counts: &mut [u64; 4], job: Job, directed: bool) {
    let c = match Candidate::new(job, directed) {
        None => return,
        Some(c) => c,
    };
    let (moved, waits) = (c.beyond.moved > 0, c.beyond.held > 0);
    if directed {
        taken.put(c.job);
    } else {
        let class = c.class(moved, ", moved");
        let most = if moved { MOVED[(c.answer.verdict != 0) as usize] } else { NOT_MOVED };
        let short = SHORT[(taken.classes.get(&class) > 0) as usize];
        if c.answer.bytes(&c.job, Form::Two).len() > short || !taken.take(c, &class, most, false) {
            return;
        }
    }
    for (count, more) in counts.iter_mut().zip([directed, !directed, moved, moved && waits]) {
        *count += more as u64;
    }
}

/// How many random jobs of an ending `write_coils` takes: of those in which an accepted step moves a coil's current and one is cut, of
/// the others in which it moves, and of those in which it does not.
const WOUND: [u64; 3] = [6, 6, 1];

/// Writes the jobs about coils: the directed ones, each once, then random ones, in form 2.
pub fn write_coils(seed: u64, path: &str) -> u64 {
    let mut taken = Taken::default();
    let mut seen = Vec::new();
    for d in coils::all() {
        let bytes = d.job.bytes(Form::Two);
        if !seen.contains(&bytes) {
            seen.push(bytes);
            taken.put(Candidate::new(d.job, true).expect("a directed job fits").job);
        }
    }
    let directed = taken.list.len();
    for place in 0..100_000 {
        let (job, _) = generate::coils(seed, place);
        if small(&job, place, 7) {
            take_coil(&mut taken, job);
        }
    }
    taken.write(seed, path, Form::Two);
    println!("  {} directed, {} random: {}", directed, taken.list.len() - directed, taken.classes.line());
    let with = |what: fn(&Coils) -> bool| {
        taken.list.iter().filter(|(j, _)| what(&model::run_beyond(j, &OURS, Wrong::Nothing).1.coils)).count()
    };
    println!(
        "  in {} of them a coil runs, in {} an accepted step moves its current, in {} a step is cut",
        with(|c| c.present > 0),
        with(|c| c.moved > 0),
        with(|c| c.cut > 0)
    );
    0
}

/// Takes a random job with a coil whose answer is short, while there are few of its class.
fn take_coil(taken: &mut Taken, job: Job) {
    let coiled = job.elements().iter().any(|e| e.is_coil());
    let c = match Candidate::new(job, false) {
        Some(c) if coiled => c,
        _ => return,
    };
    let Coils { moved, cut, .. } = c.beyond.coils;
    let (class, most) = match (moved > 0, cut > 0) {
        (true, true) => (c.class(true, ", moved and cut"), WOUND[0]),
        (true, false) => (c.class(true, ", moved"), WOUND[1]),
        _ => (c.class(false, ""), WOUND[2]),
    };
    let short = SHORT[(taken.classes.get(&class) > 0) as usize];
    if c.answer.bytes(&c.job, Form::Two).len() <= short {
        taken.take(c, &class, most, false);
    }
}

/// Writes the jobs at the end of the budget.
pub fn write_budgets(path: &str) -> u64 {
    let answered = |d: directed::Directed| {
        let a = answer(&d.job);
        (d.job, Some(a))
    };
    let list: Vec<(Job, Option<Answer>)> = directed::budgets().into_iter().map(answered).collect();
    let bytes = file(Form::Two, &list);
    println!("{}: {} jobs, {} bytes; {}", path, list.len(), bytes.len(), stored(path, &bytes));
    for (_, a) in &list {
        println!("  {}", a.as_ref().map_or(String::new(), |a| format!("{}, {} passes", a.outcome(), a.passes)));
    }
    0
}

/// Runs a file of jobs on every side, and holds stored answers against the shipped code.
pub fn replay(path: &str) -> u64 {
    let bytes = std::fs::read(path).expect("the file cannot be read");
    let list = match read_file(&bytes) {
        Ok(list) => list,
        Err(text) => {
            eprintln!("{}: {}", path, text);
            return 1;
        }
    };
    let mut bad = 0;
    for (place, (job, stored)) in list.iter().enumerate() {
        let o = sides::run(job);
        let mut found = Vec::new();
        for p in 0..MUST_AGREE {
            found.extend(o.pairs[p].iter().flatten().map(|d| format!("{}: {}", PAIRS[p], show(d))));
        }
        if let Some(stored) = stored {
            let now = door::run(job).unwrap_or(o.answer);
            found.extend(compare(job, &now, stored, ALL).iter().map(|d| format!("now against stored: {}", show(d))));
        }
        if !found.is_empty() {
            bad += 1;
            println!("job {}: {}", place, describe(job));
            for line in found.iter().take(8) {
                println!("  {}", line);
            }
        }
    }
    println!("{}: {} jobs replayed, {} differ", path, list.len(), bad);
    bad
}

#[cfg(test)]
mod tests {
    use super::*;

    const FIRST: &[u8] = include_bytes!("../answers.bin");
    const OF_COILS: &[u8] = include_bytes!("../answers6.bin");
    /// Between them in time, and calls of spreads: written before there were coils, but for the unknown kind.
    const OTHERS: [&[u8]; 4] = [
        include_bytes!("../answers2.bin"),
        include_bytes!("../answers3.bin"),
        include_bytes!("../answers4.bin"),
        include_bytes!("../answers5.bin"),
    ];

    fn has_coil(job: &Job) -> bool {
        job.elements().iter().any(|e| e.is_coil())
    }

    fn read(bytes: &[u8]) -> Vec<(Job, Answer)> {
        read_file(bytes).unwrap().into_iter().map(|(job, answer)| (job, answer.unwrap())).collect()
    }

    #[test]
    fn of_the_first_list_ten_answers_are_a_coils() {
        let list = read(FIRST);
        let mut with = Vec::new();
        let mut decided = Vec::new();
        for (place, (job, stored)) in list.iter().enumerate().filter(|(_, (job, _))| has_coil(job)) {
            with.push(place);
            let now = model::run(job, &OURS, Wrong::Nothing);
            assert!(compare(job, &now, stored, ALL).is_empty(), "job {}", place);
            let then = model::run(job, &OURS, Wrong::CoilUnknownKind);
            if !compare(job, &then, stored, ALL).is_empty() {
                assert_eq!(then.refusal, 6);
                decided.push(place);
            }
        }
        assert_eq!(decided, [854, 976, 1190, 1315, 1381, 1523, 1537, 1554, 1612, 1673]);
        assert_eq!(with.len(), 13);
    }

    #[test]
    fn other_lists_from_before_coils_have_none() {
        for bytes in OTHERS {
            assert!(!read(bytes).iter().any(|(job, _)| has_coil(job)));
        }
    }

    #[test]
    fn the_list_of_coils_is_the_models() {
        let list = read(OF_COILS);
        assert!(list.iter().filter(|(job, _)| has_coil(job)).count() > 300);
        for (place, (job, stored)) in list.iter().enumerate() {
            let now = model::run(job, &OURS, Wrong::Nothing);
            assert!(compare(job, &now, stored, ALL).is_empty(), "job {}", place);
        }
    }

    #[test]
    fn only_the_kind_of_an_unknown_record_becomes_11() {
        let mut job = generate::job(1, 0).0;
        job.sheet = vec![generate::UNKNOWN_KIND; 2 * RECORD + 7];
        job.sheet[RECORD] = 12;
        let mut expected = job.sheet.clone();
        expected[0] = COIL;
        assert_eq!(as_then(job).sheet, expected);
    }
}
