//! All spreads in one call through the safe crate and the archive: equal to single runs, counts that add up, wrong calls that change nothing.
use savrunte::*;

const NODES: usize = 3;
const SOURCES: usize = 1;
const RECORDS: usize = 4;
const N: usize = NODES + SOURCES;

/// A divider with a diode across its lower half.
fn divider(volt: f64, ohm: f64, i_sat: f64) -> Vec<u8> {
    Record::sheet(&[
        Record::V { p: 1, n: 0, value: volt, source: 0 },
        Record::R { p: 1, n: 2, value: ohm },
        Record::R { p: 2, n: 0, value: 1000.0 },
        Record::D { p: 2, n: 0, i_sat, tdegc: 27.0 },
    ])
}

/// So many spreads of it; every eleventh has a faulty record, every seventh a diode whose current is not finite.
fn sheets(jobs: usize) -> Vec<u8> {
    let job = |k: usize| {
        let i_sat = if k % 7 == 2 { f64::INFINITY } else { 1e-12 };
        let mut sheet = divider(0.5 + 0.01 * (k * 37 % 50) as f64, 900.0 + k as f64, i_sat);
        match k % 55 {
            4 => sheet[0] = 13,
            15 => sheet[40 + 39] = 1,
            26 => sheet[80 + 4] = 3,
            37 => sheet[10] = 1,
            48 => sheet[..40].copy_from_slice(&Record::Vpwl { p: 1, n: 0, t_delay: 0.0, repeat: 0.0, first: 0, count: 1, source: 0 }.bytes()),
            _ => {}
        }
        sheet
    };
    (0..jobs).flat_map(job).collect()
}

/// Buffers with marks in them, and so much longer than the call needs.
fn marked(jobs: usize, longer: usize) -> SpreadsLent {
    let mut lent = SpreadsLent::new(jobs, NODES, SOURCES, RECORDS);
    for part in [&mut lent.base, &mut lent.system, &mut lent.elimination, &mut lent.memory, &mut lent.vectors] {
        let length = part.len() + longer;
        *part = vec![0.25; length];
    }
    for part in [&mut lent.numbers, &mut lent.places, &mut lent.passes, &mut lent.counts, &mut lent.plus, &mut lent.minus] {
        let length = part.len() + longer;
        *part = vec![77; length];
    }
    lent
}

fn ran(answer: Spreads) -> Report {
    match answer {
        Spreads::Ran(report) => report,
        Spreads::Refused(why) => panic!("{why}"),
    }
}

#[test]
fn every_job_is_a_single_run() {
    let jobs = 256;
    let all = sheets(jobs);
    let options = Options { itl1: 12, ..Options::bench() };
    let mut lent = marked(jobs, 0);
    let report = ran(spreads(&all, &[], jobs, NODES, SOURCES, 2, options, lent.buffers()));
    assert_eq!(report.jobs().count(), jobs);
    let mut counts = [0; 27];
    let mut settled = Vec::new();
    for (k, (job, sheet)) in report.jobs().zip(all.chunks(RECORDS * 40)).enumerate() {
        let mut single = Lent::new(NODES, SOURCES, RECORDS);
        let answer = dc_operating_point(sheet, &[], NODES, SOURCES, options, &mut single.buffers());
        assert_eq!(job.answer, Outcome::from(answer));
        match answer {
            Dc::Refused { refusal, .. } => {
                counts[refusal.number() as usize] += 1;
                assert_eq!(job.vector, [0.0; N]);
            }
            Dc::Ended { verdict, .. } => {
                counts[verdict.number() as usize] += 1;
                assert_eq!(job.vector, single.vector);
                if verdict == Verdict::Settled {
                    settled.push((k, job.vector[2]));
                }
            }
        }
    }
    assert_eq!(report.counts, counts);
    assert_eq!(report.counts.iter().sum::<u64>(), jobs as u64);
    assert_eq!(report.ended(Verdict::Settled), report.settled);
    assert_eq!(settled.len() as u64, report.settled);
    for refusal in [Refusal::Kind, Refusal::Unused, Refusal::Node, Refusal::Source, Refusal::Range] {
        assert!(report.refused(refusal) > 0);
    }
    assert!(report.ended(Verdict::DiodeNotFinite) > 0 && report.settled > 100);
    let low = settled.iter().fold(settled[0], |a, b| if b.1 < a.1 { *b } else { a });
    let high = settled.iter().fold(settled[0], |a, b| if b.1 > a.1 { *b } else { a });
    assert_eq!(report.smallest, Some(Extreme { job: low.0, value: low.1 }));
    assert_eq!(report.largest, Some(Extreme { job: high.0, value: high.1 }));
    // these voltages are whole multiples of 2^-80, so their sum fits a wide integer: limb 32 begins at 2^-100
    let sum: u128 = settled.iter().map(|s| (s.1 * 2f64.powi(80)) as u128).sum();
    let mut limbs = [0; 66];
    limbs[32] = (sum << 20) as u64;
    limbs[33] = (sum >> 44) as u64;
    assert_eq!((report.sum.plus, report.sum.minus), (&limbs[..], &[0; 66][..]));
    let about = settled.iter().map(|s| s.1).sum::<f64>() / settled.len() as f64;
    assert!((report.mean() - about).abs() < 1e-14);
}

#[test]
fn wrong_calls_change_nothing() {
    let all = sheets(4);
    let good = Options::bench();
    let wrong: Vec<(&[u8], &[u8], usize, usize, usize, usize, Options, Refusal)> = vec![
        (&all, &[], 0, NODES, SOURCES, 0, good, Refusal::Jobs),
        (&[], &[], 0, NODES, SOURCES, 0, good, Refusal::Jobs),
        (&all, &[], 257, NODES, SOURCES, 0, good, Refusal::Jobs),
        (&all, &[], usize::MAX, NODES, SOURCES, 0, good, Refusal::Jobs),
        (&all, &[], 4, NODES, SOURCES, N, good, Refusal::Jobs),
        (&all, &[], 4, NODES, SOURCES, usize::MAX, good, Refusal::Jobs),
        (&all, &[], 4, 0, 0, 0, good, Refusal::Jobs),
        // 13 before all others
        (&all[1..], &[0], 0, 0, 99, 0, Options { budget: 0, ..good }, Refusal::Jobs),
        (&all, &[], 4, 0, 1, 0, good, Refusal::Order),
        (&all, &[], 4, 3, 46, 0, good, Refusal::Order),
        (&all, &[], 4, usize::MAX, usize::MAX, 0, good, Refusal::Order),
        (&all, &[], 4, usize::MAX, 1, 0, good, Refusal::Order),
        (&all[1..], &[0], 4, 3, 46, 0, Options { budget: 0, ..good }, Refusal::Order),
        // not whole records, not even sheets
        (&all[..all.len() - 1], &[], 4, NODES, SOURCES, 0, good, Refusal::Sheet),
        (&all[..all.len() - 40], &[], 4, NODES, SOURCES, 0, good, Refusal::Sheet),
        (&all[..40], &[], 4, NODES, SOURCES, 0, good, Refusal::Sheet),
        (&all, &[], 3, NODES, SOURCES, 0, good, Refusal::Sheet),
        (&all[1..], &[0], 4, NODES, SOURCES, 0, Options { budget: 0, ..good }, Refusal::Sheet),
        (&all, &[0; 15], 4, NODES, SOURCES, 0, good, Refusal::Points),
        (&all, &[0; 16 * 1025], 4, NODES, SOURCES, 0, good, Refusal::Points),
        (&all, &[0; 15], 4, NODES, SOURCES, 0, Options { budget: 0, ..good }, Refusal::Points),
        (&all, &[], 4, NODES, SOURCES, 0, Options { budget: 0, ..good }, Refusal::Counts),
        (&all, &[], 4, NODES, SOURCES, 0, Options { budget: 1_000_001, ..good }, Refusal::Counts),
        (&all, &[], 4, NODES, SOURCES, 0, Options { itl1: 10_001, ..good }, Refusal::Counts),
        (&all, &[], 4, NODES, 40, 0, Options { itl4: 10_001, ..good }, Refusal::Counts),
        (&all, &[], 4, NODES, 40, 0, good, Refusal::Room),
        (&all, &[], 8, NODES, SOURCES, 0, good, Refusal::Room),
    ];
    for (place, (sheets, points, jobs, nodes, sources, unknown, options, refusal)) in wrong.into_iter().enumerate() {
        let mut lent = marked(4, 0);
        let before = lent.clone();
        let answer = spreads(sheets, points, jobs, nodes, sources, unknown, options, lent.buffers());
        assert_eq!(answer, Spreads::Refused(refusal), "wrong call {place}");
        assert_eq!(lent, before, "wrong call {place}");
    }
    assert_eq!(Refusal::Jobs.to_string(), "no job, more than 256 of them, or an unknown outside the vector");
    assert_eq!(Refusal::of(13), Some(Refusal::Jobs));
}

/// Each buffer one short, and each empty, is refused by 5 and changes no other.
#[test]
fn short_buffers_are_refused() {
    let all = sheets(4);
    for short in 0..11 {
        for empty in [false, true] {
            let mut lent = marked(4, 0);
            let cut = |length: usize| if empty { 0 } else { length - 1 };
            let floats = [&mut lent.base, &mut lent.system, &mut lent.elimination, &mut lent.memory, &mut lent.vectors];
            let words = [&mut lent.numbers, &mut lent.places, &mut lent.passes, &mut lent.counts, &mut lent.plus, &mut lent.minus];
            for (k, part) in floats.into_iter().enumerate() {
                if k == short {
                    part.truncate(cut(part.len()));
                }
            }
            for (k, part) in words.into_iter().enumerate() {
                if k + 5 == short {
                    part.truncate(cut(part.len()));
                }
            }
            let before = lent.clone();
            let answer = spreads(&all, &[], 4, NODES, SOURCES, 2, Options::bench(), lent.buffers());
            assert_eq!(answer, Spreads::Refused(Refusal::Room));
            assert_eq!(lent, before);
        }
    }
}

#[test]
fn longer_buffers_keep_their_rest() {
    let all = sheets(4);
    let mut lent = marked(4, 3);
    ran(spreads(&all, &[], 4, NODES, SOURCES, 2, Options::bench(), lent.buffers()));
    for part in [&lent.base, &lent.system, &lent.elimination, &lent.memory, &lent.vectors] {
        assert_eq!(part[part.len() - 3..], [0.25; 3]);
    }
    for part in [&lent.numbers, &lent.places, &lent.passes, &lent.counts, &lent.plus, &lent.minus] {
        assert_eq!(part[part.len() - 3..], [77; 3]);
    }
}

#[test]
fn the_limits_run() {
    // 256 jobs of 256 records, and empty sheets
    let sheet = Record::sheet(&[Record::R { p: 1, n: 0, value: 1.0 }; 256]);
    let mut lent = SpreadsLent::new(256, 2, 0, 256);
    let report = ran(spreads(&sheet.repeat(256), &[], 256, 2, 0, 1, Options::bench(), lent.buffers()));
    assert_eq!((report.settled, report.smallest, report.mean()), (256, Some(Extreme { value: 0.0, job: 0 }), 0.0));
    let mut lent = SpreadsLent::new(2, 2, 0, 257);
    let long = [&sheet[..], &sheet[..40]].concat().repeat(2);
    assert_eq!(spreads(&long, &[], 2, 2, 0, 1, Options::bench(), lent.buffers()), Spreads::Refused(Refusal::Sheet));
    let mut lent = SpreadsLent::new(256, 1, 0, 0);
    let report = ran(spreads(&[], &[], 256, 1, 0, 0, Options::bench(), lent.buffers()));
    assert_eq!((report.settled, report.jobs().count()), (256, 256));
}

#[test]
fn with_no_settled_job_all_is_zero() {
    let mut lent = marked(3, 0);
    let mut all = sheets(3);
    for k in 0..3 {
        all[k * RECORDS * 40] = 0;
    }
    let report = ran(spreads(&all, &[], 3, NODES, SOURCES, 1, Options::bench(), lent.buffers()));
    assert_eq!((report.settled, report.smallest, report.largest), (0, None, None));
    assert_eq!((report.sum.plus, report.sum.minus, report.mean()), (&[0; 66][..], &[0; 66][..], 0.0));
    assert_eq!(report.refused(Refusal::Kind), 3);
    assert_eq!(report.vectors, [0.0; 3 * N]);
}

/// A source across a resistor: its level is the unknown to the last bit.
fn levels(list: &[f64], test: impl Fn(Report)) {
    let job = |x: &f64| Record::sheet(&[Record::V { p: 1, n: 0, value: *x, source: 0 }, Record::R { p: 1, n: 0, value: 1.0 }]);
    let all: Vec<u8> = list.iter().flat_map(job).collect();
    let mut lent = SpreadsLent::new(list.len(), 2, 1, 2);
    let report = ran(spreads(&all, &[], list.len(), 2, 1, 1, Options::bench(), lent.buffers()));
    assert_eq!(report.settled, list.len() as u64);
    let seen: Vec<f64> = report.jobs().map(|j| j.vector[1]).collect();
    assert_eq!(seen, list);
    test(report);
}

#[test]
fn the_earliest_stands_on_a_tie() {
    let at = |job, value| Some(Extreme { job, value });
    levels(&[2.0, 1.0, 3.0, 1.0, 3.0], |r| assert_eq!((r.smallest, r.largest), (at(1, 1.0), at(2, 3.0))));
    levels(&[-1.0, -1.0], |r| assert_eq!((r.smallest, r.largest), (at(0, -1.0), at(0, -1.0))));
}

#[test]
fn the_mean_is_rounded_once() {
    let (next, tiny) = (1.0 + f64::EPSILON, 5e-324);
    let cases: [(&[f64], f64); 15] = [
        (&[1.0], 1.0),
        (&[1.0, 2.0], 1.5),
        (&[1.0, 1.0, 2.0], 4.0 / 3.0),
        (&[-1.0, -1.0, -2.0], -4.0 / 3.0),
        (&[1e300, 1.0, -1e300], 1.0 / 3.0),
        (&[1e300, -1.0, -1e300], -1.0 / 3.0),
        // a carry out of two limbs
        (&[0.24999999999999997, 2251799813685247.75, 0.125], 750599937895082.8),
        // ties go to the even neighbour
        (&[1.0, next], 1.0),
        (&[next, 1.0 + 2.0 * f64::EPSILON], 1.0 + 2.0 * f64::EPSILON),
        (&[1.0, next, next], next),
        (&[f64::MAX, f64::MAX, f64::MAX], f64::MAX),
        (&[f64::MAX, -f64::MAX, 0.0], 0.0),
        (&[tiny, 0.0], 0.0),
        (&[tiny, tiny, 0.0], tiny),
        (&[f64::MIN_POSITIVE, f64::MIN_POSITIVE - tiny], f64::MIN_POSITIVE),
    ];
    for (list, mean) in cases {
        levels(list, |r| assert_eq!(r.mean().to_bits(), mean.to_bits(), "{list:?}"));
    }
}
