//! Sound spreads through the safe crate and the archive: every cause, counts that add up, the settled report as of `spreads`, wrong calls that change nothing.
use savrunte::*;

const NODES: usize = 3;
const SOURCES: usize = 1;
const RECORDS: usize = 3;
const N: usize = NODES + SOURCES;

/// Tolerances that every row of these circuits is within.
const LOOSE: [f64; N] = [1e-6; N];

/// A diode behind 1 kOhm.
fn job(volt: f64, i_sat: f64) -> Vec<u8> {
    Record::sheet(&[
        Record::V { p: 1, n: 0, value: volt, source: 0 },
        Record::R { p: 1, n: 2, value: 1000.0 },
        Record::D { p: 2, n: 0, i_sat, tdegc: 27.0 },
    ])
}

/// A resistor of 0 ohms to ground: it settles, and its system is not finite.
fn short() -> Vec<u8> {
    Record::sheet(&[
        Record::I { p: 0, n: 1, value: 1.0 },
        Record::R { p: 1, n: 0, value: 0.0 },
        Record::V { p: 2, n: 0, value: 1.0, source: 0 },
    ])
}

/// A source from ground to ground: it settles at zeros, which the judge does not accept.
fn contradiction() -> Vec<u8> {
    Record::sheet(&[
        Record::R { p: 1, n: 0, value: 1.0 },
        Record::R { p: 2, n: 0, value: 1.0 },
        Record::V { p: 0, n: 0, value: 5.0, source: 0 },
    ])
}

/// One job of each sort: sound, behind, refused, not settled by 22, not judged, rejected, sound.
fn mixed() -> Vec<u8> {
    let mut refused = job(0.5, 1e-12);
    refused[80 + 4] = 9;
    [job(0.5, 1e-12), job(5.0, 1e-12), refused, job(0.5, f64::INFINITY), short(), contradiction(), job(0.25, 1e-12)].concat()
}

fn ran(answer: Sound) -> SoundReport {
    match answer {
        Sound::Ran(report) => report,
        Sound::Refused(why) => panic!("{why}"),
    }
}

fn causes(report: &SoundReport) -> Vec<Cause> {
    report.jobs().map(|job| job.cause).collect()
}

/// Buffers with marks in them, and so much longer than the call needs.
fn marked(jobs: usize, longer: usize) -> SoundLent {
    let mut lent = SoundLent::new(jobs, NODES, SOURCES, RECORDS);
    let s = &mut lent.spreads;
    for part in [&mut s.base, &mut s.system, &mut s.elimination, &mut s.memory, &mut s.vectors] {
        *part = vec![0.25; part.len() + longer];
    }
    for part in [&mut s.numbers, &mut s.places, &mut s.passes, &mut s.counts, &mut s.plus, &mut s.minus, &mut lent.sound_plus, &mut lent.sound_minus] {
        *part = vec![77; part.len() + longer];
    }
    lent
}

/// Jobs of `mixed` with these tolerances.
fn judged(tolerances: &[f64], test: impl Fn(SoundReport)) {
    let mut lent = marked(7, 0);
    test(ran(sound_spreads(&mixed(), &[], tolerances, 7, NODES, SOURCES, 2, Options::bench(), lent.buffers())));
}

const NODE: Cause = Cause::Refused { refusal: Refusal::Node, place: 2 };
const DIODE: Cause = Cause::Ended { verdict: Verdict::DiodeNotFinite };

#[test]
fn every_cause_has_its_jobs() {
    use Cause::*;
    judged(&LOOSE, |r| {
        assert_eq!(causes(&r), [Sound, Behind { place: 2 }, NODE, DIODE, NotJudged, Rejected { row: 3 }, Sound]);
        assert_eq!((r.settled.jobs, r.sound.jobs), (5, 2));
        for (number, jobs) in [(0, 2), (27, 1), (8, 1), (22, 1), (11, 1), (28, 1)] {
            assert_eq!(r.count(number), jobs);
        }
        assert_eq!(r.counts.iter().sum::<u64>(), 7);
    });
    judged(&[], |r| assert_eq!(causes(&r), [Sound, Behind { place: 2 }, NODE, DIODE, Sound, Sound, Sound]));
    // of more tolerances than rows the first count
    judged(&[1e-6, 1e-6, 1e-6, 5.0, f64::NAN], |r| assert_eq!(causes(&r)[4..], [NotJudged, Sound, Sound]));
    // the judge is asked last
    judged(&[f64::NAN; N], |r| assert_eq!(causes(&r), [NotJudged, Behind { place: 2 }, NODE, DIODE, NotJudged, NotJudged, NotJudged]));
}

#[test]
fn causes_have_their_numbers() {
    judged(&LOOSE, |r| {
        let numbers: Vec<u64> = r.jobs().map(|j| j.cause.number()).collect();
        assert_eq!(numbers, [0, 27, 8, 22, 11, 28, 0]);
        let settled: Vec<bool> = r.jobs().map(|j| j.cause.settled()).collect();
        assert_eq!(settled, [true, true, false, false, true, true, true]);
    });
}

/// What is over the settled jobs is what `spreads` says, and a job's own number too; what is over the sound ones is theirs alone.
#[test]
fn both_reports() {
    let mut plain = SpreadsLent::new(7, NODES, SOURCES, RECORDS);
    let plain = match spreads(&mixed(), &[], 7, NODES, SOURCES, 2, Options::bench(), plain.buffers()) {
        Spreads::Ran(plain) => plain,
        other => panic!("{other:?}"),
    };
    judged(&LOOSE, |r| {
        let s = &r.settled;
        assert_eq!((s.jobs, s.smallest, s.largest, s.sum), (plain.settled, plain.smallest, plain.largest, plain.sum));
        assert_eq!((s.mean(), r.vectors), (plain.mean(), plain.vectors));
        for (ours, theirs) in r.jobs().zip(plain.jobs()) {
            let outcome = match ours.cause {
                Cause::Refused { refusal, place } => Outcome::Refused { refusal, place },
                Cause::Ended { verdict } => Outcome::Ended { verdict, passes: ours.passes },
                _ => Outcome::Ended { verdict: Verdict::Settled, passes: ours.passes },
            };
            assert_eq!((outcome, ours.vector), (theirs.answer, theirs.vector));
        }
        let volts: Vec<f64> = r.jobs().filter(|j| j.cause == Cause::Sound).map(|j| j.vector[2]).collect();
        assert_eq!(r.sound.largest, Some(Extreme { value: volts[0], job: 0 }));
        assert_eq!(r.sound.smallest, Some(Extreme { value: volts[1], job: 6 }));
        assert!((r.sound.mean() - (volts[0] + volts[1]) / 2.0).abs() < 1e-15);
        assert!(r.settled.largest.unwrap().value > 4.9 && r.sound.largest.unwrap().value < 0.6);
    });
}

/// With the option no settled job is behind.
#[test]
fn waiting_makes_them_sound() {
    let mut lent = marked(7, 0);
    let options = Options { catchup: 1, ..Options::bench() };
    let report = ran(sound_spreads(&mixed(), &[], &LOOSE, 7, NODES, SOURCES, 2, options, lent.buffers()));
    assert_eq!(report.count(27), 0);
    assert_eq!(report.sound.jobs, 3);
    assert!((report.sound.largest.unwrap().value - 0.7447).abs() < 1e-4);
}

#[test]
fn without_a_sound_job_its_report_is_zero() {
    let mut lent = marked(2, 0);
    let report = ran(sound_spreads(&job(5.0, 1e-12).repeat(2), &[], &[], 2, NODES, SOURCES, 2, Options::bench(), lent.buffers()));
    assert_eq!((report.settled.jobs, report.sound.jobs, report.sound.smallest, report.sound.mean()), (2, 0, None, 0.0));
    assert_eq!((report.sound.sum.plus, report.sound.sum.minus), (&[0; 66][..], &[0; 66][..]));
    assert_eq!(report.settled.smallest.map(|e| e.job), Some(0));
}

/// Refused in the order 13, 1 to 5, and nothing changes; 5 also for fewer tolerances than rows.
#[test]
fn wrong_calls_change_nothing() {
    let all = mixed();
    let good = Options::bench();
    let none = Options { budget: 0, ..good };
    let few = &LOOSE[..N - 1];
    let wrong: Vec<(&[u8], &[u8], &[f64], usize, usize, usize, Options, Refusal)> = vec![
        (&all, &[], &LOOSE, 0, NODES, 0, good, Refusal::Jobs),
        (&all, &[], &LOOSE, 257, NODES, 0, good, Refusal::Jobs),
        (&all, &[], few, 7, NODES, N, none, Refusal::Jobs),
        (&all[1..], &[0], few, 7, 0, 0, none, Refusal::Order),
        (&all, &[], &LOOSE, 7, 48, 0, good, Refusal::Order),
        (&all[1..], &[0], few, 7, NODES, 0, none, Refusal::Sheet),
        (&all, &[0], few, 7, NODES, 0, none, Refusal::Points),
        (&all, &[], few, 7, NODES, 0, none, Refusal::Counts),
        (&all, &[], few, 7, NODES, 0, good, Refusal::Room),
        (&all, &[], &LOOSE[..1], 7, NODES, 0, good, Refusal::Room),
        (&all, &[], &LOOSE, 7, NODES + 1, 0, good, Refusal::Room),
    ];
    for (place, (sheets, points, tolerances, jobs, nodes, unknown, options, refusal)) in wrong.into_iter().enumerate() {
        let mut lent = marked(7, 0);
        let before = lent.clone();
        let answer = sound_spreads(sheets, points, tolerances, jobs, nodes, SOURCES, unknown, options, lent.buffers());
        assert_eq!(answer, Sound::Refused(refusal), "wrong call {place}");
        assert_eq!(lent, before, "wrong call {place}");
    }
}

/// Each buffer one short, and each empty, is refused by 5 and changes no other.
#[test]
fn short_buffers_are_refused() {
    for short in 0..13 {
        for empty in [false, true] {
            let mut lent = marked(7, 0);
            let cut = |length: usize| if empty { 0 } else { length - 1 };
            let s = &mut lent.spreads;
            let floats = [&mut s.base, &mut s.system, &mut s.elimination, &mut s.memory, &mut s.vectors];
            let words = [&mut s.numbers, &mut s.places, &mut s.passes, &mut s.counts, &mut s.plus, &mut s.minus, &mut lent.sound_plus, &mut lent.sound_minus];
            for (_, part) in floats.into_iter().enumerate().filter(|(k, _)| *k == short) {
                part.truncate(cut(part.len()));
            }
            for (_, part) in words.into_iter().enumerate().filter(|(k, _)| k + 5 == short) {
                part.truncate(cut(part.len()));
            }
            let before = lent.clone();
            let answer = sound_spreads(&mixed(), &[], &LOOSE, 7, NODES, SOURCES, 2, Options::bench(), lent.buffers());
            assert_eq!(answer, Sound::Refused(Refusal::Room));
            assert_eq!(lent, before);
        }
    }
    // 27 counts, as many as `spreads` wants, are too few
    let mut lent = marked(7, 0);
    lent.spreads.counts.truncate(27);
    assert_eq!(sound_spreads(&mixed(), &[], &[], 7, NODES, SOURCES, 2, Options::bench(), lent.buffers()), Sound::Refused(Refusal::Room));
}

#[test]
fn longer_buffers_keep_their_rest() {
    let mut lent = marked(7, 3);
    ran(sound_spreads(&mixed(), &[], &LOOSE, 7, NODES, SOURCES, 2, Options::bench(), lent.buffers()));
    let s = &lent.spreads;
    for part in [&s.base, &s.system, &s.elimination, &s.memory, &s.vectors] {
        assert_eq!(part[part.len() - 3..], [0.25; 3]);
    }
    for part in [&s.numbers, &s.places, &s.passes, &s.counts, &s.plus, &s.minus, &lent.sound_plus, &lent.sound_minus] {
        assert_eq!(part[part.len() - 3..], [77; 3]);
    }
}
