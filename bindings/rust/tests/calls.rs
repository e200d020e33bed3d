//! The bench's cases and wrong calls, through the safe crate and the archive.
use savrunte::*;

fn bits(x: &[f64]) -> Vec<u64> {
    x.iter().map(|v| v.to_bits()).collect()
}

/// Runs DC with buffers of the very lengths.
fn dc(records: &[Record], nodes: usize, sources: usize, options: Options) -> (Dc, Lent) {
    let mut lent = Lent::new(nodes, sources, records.len());
    let answer = dc_operating_point(&Record::sheet(records), &[], nodes, sources, options, &mut lent.buffers());
    (answer, lent)
}

fn ended(verdict: Verdict, passes: u64) -> Dc {
    Dc::Ended { verdict, passes, behind: None }
}

fn case_b() -> [Record; 3] {
    [
        Record::V { p: 1, n: 0, value: 4.0, source: 0 },
        Record::R { p: 1, n: 2, value: 1.0 },
        Record::R { p: 2, n: 0, value: 1.0 },
    ]
}

#[test]
fn operating_points() {
    let a = [Record::I { p: 0, n: 1, value: 2.0 }, Record::R { p: 1, n: 0, value: 0.5 }];
    let (answer, lent) = dc(&a, 2, 0, Options::bench());
    assert_eq!(answer, ended(Verdict::Settled, 2));
    assert_eq!(lent.vector, [0.0, 1.0]);

    let (answer, _) = dc(&a, 2, 0, Options { itl1: 0, ..Options::bench() });
    assert_eq!(answer, ended(Verdict::PassesUsedUp, 1));

    let (answer, lent) = dc(&case_b(), 3, 1, Options::bench());
    assert_eq!(answer, ended(Verdict::Settled, 2));
    assert_eq!(lent.vector, [0.0, 4.0, 2.0, -2.0]);

    let c = [Record::V { p: 0, n: 0, value: 5.0, source: 0 }];
    let (answer, lent) = dc(&c, 1, 1, Options::bench());
    assert_eq!(answer, ended(Verdict::Settled, 1));
    assert_eq!(lent.vector, [0.0, 0.0]);

    let e = [Record::R { p: 2, n: 0, value: 1.0 }, Record::I { p: 0, n: 2, value: 1.0 }];
    let (answer, _) = dc(&e, 3, 0, Options::bench());
    assert_eq!(answer, ended(Verdict::ConvergenceError, 2));
}

#[test]
fn a_charging_capacitor() {
    let j = [
        Record::R { p: 1, n: 0, value: 1.0 },
        Record::C { p: 1, n: 0, value: 1.0 },
        Record::I { p: 0, n: 1, value: 1.0 },
    ];
    let mut lent = Lent::new(2, 0, 3);
    let mut rows = vec![-7.0; 3 * 4 + 2];
    let answer = transient_analysis(&Record::sheet(&j), &[], 2, 0, Options::bench(), &mut lent.buffers(), &mut rows);
    let ended = |verdict, passes, rows| Transient::Ended { verdict, dc_verdict: Verdict::Settled, passes, rows, end: 2.0, behind: None };
    assert_eq!(answer, ended(Verdict::Settled, 8, 4));
    assert_eq!(rows, [0.0, 0.0, 1.0, 1.0, 0.0, 0.5, 2.0, 0.0, 0.75, 2.0, 0.0, 0.875, -7.0, -7.0]);

    let options = Options { budget: 7, ..Options::bench() };
    let answer = transient_analysis(&Record::sheet(&j), &[], 2, 0, options, &mut lent.buffers(), &mut rows);
    assert_eq!(answer, ended(Verdict::BudgetSpent, 7, 3));
}

/// Runs a transient with room for so many rows, in a memory that holds other numbers.
fn moving(records: &[Record], points: &[u8], nodes: usize, sources: usize, options: Options, room: usize) -> (Transient, Lent, Vec<f64>) {
    let mut lent = Lent::new(nodes, sources, records.len());
    lent.memory.fill(0.25);
    let mut rows = vec![0.0; room * (nodes + sources + 1)];
    let answer = transient_analysis(&Record::sheet(records), points, nodes, sources, options, &mut lent.buffers(), &mut rows);
    (answer, lent, rows)
}

/// At DC an inductor is a short with a current of its own, which its memory has afterwards, unless the budget ended the run. Other records' floats stay.
#[test]
fn an_inductor_is_a_short_at_dc() {
    let records = [
        Record::I { p: 0, n: 1, value: 1.0 },
        Record::R { p: 1, n: 0, value: 5.0 },
        Record::L { p: 1, n: 0, value: 3.0, source: 0 },
    ];
    let bench = Options::bench();
    for (options, verdict, passes, current) in [
        (bench, Verdict::Settled, 2, 1.0),
        (Options { itl1: 0, ..bench }, Verdict::PassesUsedUp, 1, 1.0),
        (Options { budget: 1, ..bench }, Verdict::BudgetSpent, 1, 0.0),
    ] {
        let mut lent = Lent::new(2, 1, 3);
        lent.memory.fill(0.25);
        let answer = dc_operating_point(&Record::sheet(&records), &[], 2, 1, options, &mut lent.buffers());
        assert_eq!(answer, ended(verdict, passes));
        assert_eq!(bits(&lent.vector), bits(&[0.0, 0.0, 1.0]));
        assert_eq!(bits(&lent.memory), bits(&[0.25, 0.25, current]));
    }
    // from ground to ground its row is empty: it is no number here, and the memory has it so
    let ground = [
        Record::V { p: 1, n: 0, value: 1.0, source: 1 },
        Record::R { p: 1, n: 0, value: 1.0 },
        Record::L { p: 0, n: 0, value: 1.0, source: 0 },
    ];
    let (answer, lent) = dc(&ground, 2, 2, bench);
    assert!(matches!(answer, Dc::Ended { verdict: Verdict::ConvergenceError, .. }));
    assert!(lent.memory[2].is_nan());
}

/// 8 V come on in a ramp, through half an ohm, into so many henries. The source has the last number, so that nothing of the inductor is hidden there.
fn choke(henries: f64) -> [Record; 3] {
    [
        Record::Vpwl { p: 1, n: 0, t_delay: 0.0, repeat: -1.0, first: 0, count: 3, source: 1 },
        Record::R { p: 1, n: 2, value: 0.5 },
        Record::L { p: 2, n: 0, value: henries, source: 0 },
    ]
}

fn ramp(time: f64) -> Vec<u8> {
    points(&[(0.0, 0.0), (time, 8.0), (100.0, 8.0)])
}

/// Step by step the current in the memory is the one through the resistor; the inductor's own unknown is 0.0 after the first row.
#[test]
fn an_inductor_keeps_its_current() {
    let bench = Options::bench();
    let of = |verdict, passes, rows, end| Transient::Ended { verdict, dc_verdict: Verdict::Settled, passes, rows, end, behind: None };
    let (answer, lent, rows) = moving(&choke(0.5), &ramp(1.0), 3, 2, bench, 4);
    assert_eq!(answer, of(Verdict::Settled, 7, 4, 2.0));
    let expected = [
        [0.0, 0.0, 0.0, 0.0, 0.0, -0.0],
        [1.0, 0.0, 8.0, 4.0, 0.0, -8.0],
        [2.0, 0.0, 8.0, 2.0, 0.0, -12.0],
        [2.0, 0.0, 8.0, 1.0, 0.0, -14.0],
    ];
    assert_eq!(bits(&rows), bits(&expected.concat()));
    assert_eq!(bits(&lent.memory), bits(&[0.25, 0.25, 14.0]));

    // with the step over the henries as the conductance itself, and product and sum rounded each for itself
    let (_, lent, rows) = moving(&choke(49.0), &ramp(3.0), 3, 2, Options { tstep: 3.0, tstop: 3.0, ..bench }, 3);
    let g = 3.0 / 49.0;
    let first = g * rows[6 + 3] + 0.0;
    assert_eq!(lent.memory[2].to_bits(), (g * rows[12 + 3] + first).to_bits());
}

/// The memory moves where a step is accepted, also where its row has no room, and by the step as it was solved. A step that is cut, or does not end, moves nothing.
#[test]
fn an_inductor_waits_for_the_step() {
    let bench = Options::bench();
    let cut = Options { reltol: 0.9, itl4: 1, ft: 0.5, tstop: 0.25, ..bench };
    let cases = [
        (0.5, 1.0, bench, 1, Verdict::NoRoom, 8.0),
        (0.5, 1.0, bench, 2, Verdict::NoRoom, 12.0),
        (0.5, 1.0, Options { budget: 2, ..bench }, 4, Verdict::BudgetSpent, 0.0),
        (0.5, 1.0, Options { budget: 3, ..bench }, 4, Verdict::BudgetSpent, 8.0),
        (0.5, 1.0, Options { budget: 6, ..bench }, 4, Verdict::BudgetSpent, 12.0),
        (0.5, 1.0, Options { itl4: 1, ft: 0.05, ..bench }, 4, Verdict::StepTooSmall, 0.0),
        (0.5, 1.0, Options { itl3: 5, rmax: 5.0, tstop: 1.0, ..bench }, 4, Verdict::Settled, 8.0), // not by the doubled step
        (0.25, 0.25, cut, 4, Verdict::Settled, 8.0),
    ];
    for (henries, time, options, room, verdict, current) in cases {
        let (answer, lent, _) = moving(&choke(henries), &ramp(time), 3, 2, options, room);
        assert!(matches!(answer, Transient::Ended { verdict: v, .. } if v == verdict), "{answer:?}, not {verdict:?}");
        assert_eq!(bits(&lent.memory), bits(&[0.25, 0.25, current]), "{answer:?}");
    }
}

/// Of two records with one source number, of which one is an inductor, the later is refused; without an inductor they may share it.
#[test]
fn an_inductor_shares_its_number_with_no_record() {
    let with = |source: u16| {
        [
            Record::V { p: 1, n: 0, value: 1.0, source },
            Record::Vsin { p: 1, n: 0, vo: 0.0, va: 1.0, freq: 1.0, source },
            Record::Vpwl { p: 1, n: 0, t_delay: 0.0, repeat: -1.0, first: 0, count: 0, source },
            Record::Vcvs { p: 1, n: 0, cp: 1, cn: 0, k: 2.0, source },
            Record::L { p: 1, n: 0, value: 1.0, source },
        ]
    };
    let place = |records: &[Record]| match dc(records, 2, 2, Options::bench()).0 {
        Dc::Refused { refusal: Refusal::Source, place } => Some(place),
        Dc::Refused { refusal, .. } => panic!("{refusal}"),
        Dc::Ended { .. } => None,
    };
    let inductor = 4;
    for a in 0..5 {
        for b in 0..5 {
            let shared = if a == inductor || b == inductor { Some(1) } else { None };
            assert_eq!(place(&[with(0)[a], with(0)[b]]), shared);
            assert_eq!(place(&[with(0)[a], with(1)[b]]), None);
        }
    }
    let [v, .., l] = with(0);
    let resistor = Record::R { p: 1, n: 0, value: 1.0 };
    assert_eq!(place(&[v, v, with(1)[inductor]]), None);
    assert_eq!(place(&[v, v, l]), Some(2));
    assert_eq!(place(&[l, resistor, resistor, v]), Some(3));
    assert_eq!(place(&[with(2)[inductor], l, l]), Some(0)); // not below the source count
}

/// A diode behind 1 kOhm.
fn with_diode(volt: f64) -> [Record; 3] {
    [
        Record::V { p: 1, n: 0, value: volt, source: 0 },
        Record::R { p: 1, n: 2, value: 1000.0 },
        Record::D { p: 2, n: 0, i_sat: 1e-12, tdegc: 27.0 },
    ]
}

/// A run that settles with a diode behind says which, and with the option it waits for it.
#[test]
fn a_run_can_wait_for_its_diodes() {
    let (answer, off) = dc(&with_diode(5.0), 3, 1, Options::bench());
    assert_eq!(answer, Dc::Ended { verdict: Verdict::Settled, passes: 2, behind: Some(2) });
    assert!((off.vector[2] - 4.99998).abs() < 1e-5);
    for catchup in [1, 2, 1 << 63, u64::MAX] {
        let (answer, on) = dc(&with_diode(5.0), 3, 1, Options { catchup, ..Options::bench() });
        assert_eq!(answer, ended(Verdict::Settled, 7));
        assert!((on.vector[2] - 0.7447).abs() < 1e-4);
    }
    // waiting counts: ITL1 + 1 passes, and the budget
    for itl1 in [1, 5] {
        let (answer, _) = dc(&with_diode(5.0), 3, 1, Options { catchup: 1, itl1, ..Options::bench() });
        assert_eq!(answer, Dc::Ended { verdict: Verdict::PassesUsedUp, passes: itl1 + 1, behind: Some(2) });
    }
    let (answer, _) = dc(&with_diode(5.0), 3, 1, Options { catchup: 1, budget: 4, ..Options::bench() });
    assert_eq!(answer, Dc::Ended { verdict: Verdict::BudgetSpent, passes: 4, behind: Some(2) });
}

/// In a transient `behind` speaks of the last vector.
#[test]
fn a_transient_says_where_its_last_vector_is_behind() {
    let run = |catchup: u64| {
        let mut lent = Lent::new(3, 1, 3);
        let mut rows = vec![0.0; 5 * 8];
        let options = Options { catchup, ..Options::bench() };
        let answer = transient_analysis(&Record::sheet(&with_diode(5.0)), &[], 3, 1, options, &mut lent.buffers(), &mut rows);
        (answer, lent)
    };
    for catchup in [0, 1] {
        let (answer, lent) = run(catchup);
        let named = match answer {
            Transient::Ended { verdict: Verdict::Settled, behind, .. } => behind,
            other => panic!("{other:?}"),
        };
        assert_eq!(named, behind(&Record::sheet(&with_diode(5.0)), &lent.vector, &lent.memory, Options::bench()));
        assert_eq!(named, None);
    }
    assert_ne!(run(0).0, run(1).0);
}

/// The definition itself: at the tolerance a diode has caught up, one float beyond it is behind, and with a NaN or without a number too.
#[test]
fn diodes_that_are_behind() {
    let o = Options { reltol: 0.5, vntol: 0.25, abstol: f64::NAN, ..Options::bench() };
    let diode = Record::D { p: 1, n: 2, i_sat: 1e-12, tdegc: 27.0 };
    let sheet = Record::sheet(&[Record::R { p: 1, n: 0, value: 1.0 }, diode, diode]);
    let vector = [0.0, 3.0, 1.0]; // 2 V across, so 1.25 V either way
    let next = |x: f64| f64::from_bits(x.to_bits() + 1);
    for (first, second, answer) in [
        (2.0, 2.0, None),
        (3.25, 0.75, None),
        (next(3.25), 2.0, Some(1)),
        (2.0, next(3.25), Some(2)),
        (next(3.25), next(3.25), Some(1)),
        (2.0, 0.75 - f64::EPSILON, Some(2)),
        (f64::NAN, 2.0, Some(1)),
        (2.0, f64::INFINITY, Some(2)),
    ] {
        assert_eq!(behind(&sheet, &vector, &[f64::NAN, first, second], o), answer);
    }
    let memory = [0.0, 2.0, 2.0];
    assert_eq!(behind(&sheet, &vector[..2], &memory, o), Some(1));
    assert_eq!(behind(&sheet, &vector, &memory[..2], o), Some(2));
    assert_eq!(behind(&sheet, &[], &[], o), Some(1));
    assert_eq!(behind(&sheet[..119], &vector, &memory[..2], o), None);
    assert_eq!(behind(&[], &[], &[], o), None);
    for (reltol, vntol) in [(f64::NAN, 0.25), (0.5, f64::NAN)] {
        assert_eq!(behind(&sheet, &vector, &memory, Options { reltol, vntol, ..o }), Some(1));
    }
    // a record with a byte that must be zero is no diode
    let mut dirty = sheet.clone();
    dirty[40 + 6] = 1;
    assert_eq!(behind(&dirty, &[], &[], o), Some(2));
}

/// Every wrong call is refused by its number and place, and leaves every buffer as it was.
#[test]
fn wrong_calls_change_nothing() {
    let sheet = Record::sheet(&case_b());
    let good = Options::bench();
    let mut node = sheet.clone();
    node[40 + 4] = 9; // record 1, second node
    let mut unused = sheet.clone();
    unused[80 + 39] = 1; // record 2
    let mut kind = sheet.clone();
    kind[0] = 13;
    let mut source = sheet.clone();
    source[10] = 1;
    let wrong: Vec<(&[u8], &[u8], usize, usize, Options, Refusal, usize)> = vec![
        (&sheet, &[], 0, 1, good, Refusal::Order, 0),
        (&sheet, &[], 3, 46, good, Refusal::Order, 0),
        (&sheet, &[], usize::MAX, usize::MAX, good, Refusal::Order, 0),
        (&sheet[..119], &[], 3, 1, good, Refusal::Sheet, 0),
        (&sheet, &[0; 15], 3, 1, good, Refusal::Points, 0),
        (&sheet, &[], 3, 1, Options { budget: 0, ..good }, Refusal::Counts, 0),
        (&sheet, &[], 3, 1, Options { budget: 1_000_001, ..good }, Refusal::Counts, 0),
        (&sheet, &[], 3, 1, Options { itl3: 10_001, ..good }, Refusal::Counts, 0),
        (&sheet, &[], 3, 45, good, Refusal::Room, 0),
        (&kind, &[], 3, 1, good, Refusal::Kind, 0),
        (&unused, &[], 3, 1, good, Refusal::Unused, 2),
        (&node, &[], 3, 1, good, Refusal::Node, 1),
        (&source, &[], 3, 1, good, Refusal::Source, 0),
    ];
    for (sheet, points, nodes, sources, options, refusal, place) in wrong {
        let mut lent = Lent::new(3, 1, 3);
        for part in [&mut lent.base, &mut lent.system, &mut lent.elimination, &mut lent.vector, &mut lent.memory] {
            part.fill(0.25);
        }
        let before = lent.clone();
        let mut rows = vec![0.5; 10];
        let answer = dc_operating_point(sheet, points, nodes, sources, options, &mut lent.buffers());
        assert_eq!(answer, Dc::Refused { refusal, place });
        let answer = transient_analysis(sheet, points, nodes, sources, options, &mut lent.buffers(), &mut rows);
        assert_eq!(answer, Transient::Refused { refusal, place });
        assert_eq!(lent, before);
        assert_eq!(rows, [0.5; 10]);
    }
}

/// Each buffer one float short is refused by 5; empty slices too.
#[test]
fn short_buffers_are_refused() {
    let sheet = Record::sheet(&case_b());
    for short in 0..6 {
        let mut lent = Lent::new(3, 1, 3);
        let mut rows = vec![0.5; 5];
        match short {
            0 => lent.base.truncate(19),
            1 => lent.system.truncate(19),
            2 => lent.elimination.truncate(19),
            3 => lent.vector.truncate(3),
            4 => lent.memory.truncate(2),
            _ => rows.truncate(4),
        }
        let before = lent.clone();
        let answer = transient_analysis(&sheet, &[], 3, 1, Options::bench(), &mut lent.buffers(), &mut rows);
        assert_eq!(answer, Transient::Refused { refusal: Refusal::Room, place: 0 });
        assert_eq!(lent, before);
    }
    let none = &mut Buffers { base: &mut [], system: &mut [], elimination: &mut [], vector: &mut [], memory: &mut [] };
    assert_eq!(dc_operating_point(&[], &[], 1, 0, Options::bench(), none), Dc::Refused { refusal: Refusal::Room, place: 0 });
    assert_eq!(solve(&mut [], &mut [], 0), Err(Refusal::Order));
    assert_eq!(solve(&mut [1.0; 6], &mut [7.0], 2), Err(Refusal::Room));
    assert_eq!(judge(&[], &[], &[], 0), Judgement::Refused(Refusal::Order));
    assert_eq!(judge(&[0.0; 49 * 50], &[0.0; 49], &[0.0; 49], 49), Judgement::Refused(Refusal::Order));
}

#[test]
fn a_longer_buffer_keeps_its_rest() {
    let mut lent = Lent::new(3, 1, 3);
    for part in [&mut lent.base, &mut lent.system, &mut lent.elimination, &mut lent.vector, &mut lent.memory] {
        part.extend([0.125, 0.125]);
    }
    let answer = dc_operating_point(&Record::sheet(&case_b()), &[], 3, 1, Options::bench(), &mut lent.buffers());
    assert_eq!(answer, ended(Verdict::Settled, 2));
    for part in [&lent.base, &lent.system, &lent.elimination, &lent.vector, &lent.memory] {
        assert_eq!(part[part.len() - 2..], [0.125, 0.125]);
    }
    // neither diode nor inductor in the sheet: the memory is untouched
    assert_eq!(lent.memory[..3], [0.0; 3]);
}

#[test]
fn the_judge_is_exact() {
    let (_, lent) = dc(&case_b(), 3, 1, Options::bench());
    assert_eq!(judge(&lent.system, &lent.vector, &[0.0; 4], 4), Judgement::Accepted);
    let off = [0.0, 4.0, 2.0, -1.0];
    assert_eq!(judge(&lent.system, &off, &[0.5; 4], 4), Judgement::Rejected { row: 1 });
    assert_eq!(judge(&lent.system, &off, &[1.0; 4], 4), Judgement::Accepted);
    assert_eq!(judge(&lent.system, &off, &[f64::NAN; 4], 4), Judgement::Refused(Refusal::Number));
    assert_eq!(judge(&lent.system, &lent.vector, &[-0.0; 4], 4), Judgement::Accepted);

    // 2^-1000 + 2^1000 - 2^1000 is not zero
    let mut system = [0.0; 20];
    system[6] = 2f64.powi(-1000);
    system[7] = 2f64.powi(1000);
    system[8] = 2f64.powi(1000);
    assert_eq!(judge(&system, &[0.0, 1.0, 1.0, -1.0], &[0.0; 4], 4), Judgement::Rejected { row: 1 });
}

#[test]
fn convergence_answers() {
    let o = Options::bench();
    assert_eq!(convergence_check(&[f64::NAN, 5.0], &[0.0, 0.0], 2, o), Convergence::No);
    assert_eq!(convergence_check(&[5.0, f64::NAN], &[0.0, 0.0], 2, o), Convergence::Error);
    assert_eq!(convergence_check(&[0.0, 1.0], &[0.0, f64::NAN], 2, o), Convergence::Yes);
    assert_eq!(convergence_check(&[0.0, 1.0], &[0.0], 2, o), Convergence::Refused(Refusal::Room));
}

/// Each sentence of the rule with the option on, in its order: (points, delay, repeat, time) and the level.
fn patterns_by_the_option() {
    let (zero, ramp, late) = ([(0.0, 0.0), (1.0, 4.0)], [(0.0, 3.0), (1.0, 4.0)], [(1.0, 3.0), (2.0, 5.0)]);
    let cases: &[(&[(f64, f64)], f64, f64, f64, f64)] = &[
        (&[], 0.0, -1.0, 0.5, 0.0),                  // no points
        (&ramp, 1.0, -1.0, 0.5, 0.0),                // before the delay
        (&ramp, 1.0, -1.0, 1.0, 3.0),                // at it
        (&zero, 0.0, -1.0, 1.0, 4.0),                // at the end, where without the option it is 0
        (&zero, 0.0, -1.0, 2.0, 4.0),                // past it
        (&ramp, 0.0, -0.0, 1.0, 3.0),                // a repeat of -0.0 repeats
        (&ramp, 0.0, f64::NAN, 1.0, 3.0),            // and so does one that is no number
        (&[(-2.0, 7.0)], 0.0, 1.0, 0.5, 7.0),        // a single point
        (&ramp, 0.0, -1.0, 0.0, 3.0),                // at the first point's time
        (&late, 0.0, -1.0, 0.0, 3.0),                // before it
        (&[(0.0, 3.0), (0.0, 4.0)], 0.0, 1.0, 0.5, 3.0), // a cycle time that is no number
        (&ramp, 0.0, -1.0, 0.5, 3.5),                // as before
        (&late, 0.0, -1.0, 1.5, 4.0),
    ];
    for (pairs, delay, repeat, t, level) in cases {
        assert_eq!(pattern_first(&points(pairs), *delay, *repeat, *t).to_bits(), level.to_bits(), "{pairs:?} at {t}");
    }
    // the end is a sum of floats: at this time it is not reached, and the cycle is over
    assert_eq!(pattern_first(&points(&[(0.0, 3.0), (1.4, 4.0)]), 0.39, -1.0, f64::from_bits(0x3ffc_a3d7_0a3d_70a3)), 3.0);
}

/// A ramp that starts at 3 V drives node 1 from time 0 on, at DC and through a transient; any word but 0 is on.
#[test]
fn a_ramp_starts_at_its_first_level() {
    let sheet = Record::sheet(&[
        Record::Vpwl { p: 1, n: 0, t_delay: 0.0, repeat: -1.0, first: 0, count: 2, source: 0 },
        Record::R { p: 1, n: 0, value: 1.0 },
    ]);
    let ramp = points(&[(0.0, 3.0), (1.0, 4.0)]);
    for (word, level, passes) in [(0, 0.0, 1), (1, 3.0, 2), (2, 3.0, 2), (1 << 63, 3.0, 2), (u64::MAX, 3.0, 2)] {
        let mut lent = Lent::new(2, 1, 2);
        let options = Options { pattern_first: word, ..Options::bench() };
        let answer = dc_operating_point(&sheet, &ramp, 2, 1, options, &mut lent.buffers());
        assert_eq!(answer, ended(Verdict::Settled, passes));
        assert_eq!(lent.vector, [0.0, level, -level]);
    }
    let mut lent = Lent::new(2, 1, 2);
    let mut rows = [0.0; 16];
    let options = Options { pattern_first: 1, ..Options::bench() };
    let answer = transient_analysis(&sheet, &ramp, 2, 1, options, &mut lent.buffers(), &mut rows);
    let (verdict, dc_verdict) = (Verdict::Settled, Verdict::Settled);
    assert_eq!(answer, Transient::Ended { verdict, dc_verdict, passes: 8, rows: 4, end: 2.0, behind: None });
    assert_eq!(rows, [0.0, 0.0, 3.0, -3.0, 1.0, 0.0, 4.0, -4.0, 2.0, 0.0, 4.0, -4.0, 2.0, 0.0, 4.0, -4.0]);
}

#[test]
fn functions_and_models() {
    assert_eq!((exp(0.0), exp(-0.0), exp(710.0), exp(-709.0)), (1.0, 1.0, f64::INFINITY, 0.0));
    assert_eq!((ln(1.0), ln(0.0), ln(f64::INFINITY)), (0.0, f64::NEG_INFINITY, f64::INFINITY));
    assert!(ln(-1.0).is_nan() && exp(f64::NAN).is_nan());
    assert_eq!(sin(-0.0).map(f64::to_bits), Ok((-0.0f64).to_bits()));
    assert!(sin(1048576.0).is_ok());
    assert_eq!(sin(f64::from_bits(1048576f64.to_bits() + 1)), Err(Refusal::Sine));
    assert!((exp(1.0) - std::f64::consts::E).abs() < 1e-11);

    let g = points(&[(0.0, 0.0), (1.0, 4.0)]);
    let levels: Vec<f64> = [0.5, 1.0, 2.0, -0.5].iter().map(|t| pattern(&g, 0.0, -1.0, *t)).collect();
    assert_eq!(bits(&levels), bits(&[2.0, 0.0, 4.0, 0.0]));
    assert!(pattern(&points(&[(0.0, 3.0), (1.0, 4.0)]), 0.0, -1.0, 0.0).is_nan());
    patterns_by_the_option();
    assert_eq!(capacitor(1.0, 3.0, 0.5), (2.0, 6.0));
    assert_eq!(diode(f64::INFINITY, 27.0, 0.5, 0.0, Options::bench()), Diode::NotFinite);
}
