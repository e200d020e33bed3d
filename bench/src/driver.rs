// Runs a job on one build of the published Rust, called `spice` here. Included once per build.

use crate::job::*;
use crate::oracle::Seen;
use recorder::{Record, Stop};
use self::spice::analysis::Configuration;
use self::spice::circuit::{Capacitor, Circuit, CurrentSource, CurrentSourceSine, Diode, Resistor};
use self::spice::circuit::{Vccs, Vcvs, VoltageSource, VoltageSourcePwl, VoltageSourceSine};
use self::spice::element::Element as Part;
use self::spice::engine::Engine;

/// The job's sheet as the Rust's circuit; source numbers as they stand.
pub fn circuit(job: &Job) -> Circuit {
    let points = job.pattern();
    let mut circuit = Circuit::new();
    for e in job.elements() {
        let (p, n, idx) = (e.a as usize, e.b as usize, e.source as usize);
        let (cp, cn) = (e.cp as usize, e.cn as usize);
        let [x, y, z] = e.value;
        let ident = String::new();
        circuit.elements.push(match e.kind {
            1 => Part::R(Resistor { ident, a: p, b: n, value: x }),
            2 => Part::I(CurrentSource { p, n, value: x }),
            3 => Part::V(VoltageSource { p, n, value: x, idx }),
            4 => Part::D(Diode::new("", p, n, x, y)),
            5 => Part::Isin(CurrentSourceSine { p, n, vo: x, va: y, freq: z }),
            6 => Part::Vsin(VoltageSourceSine { p, n, vo: x, va: y, freq: z, idx }),
            7 => {
                let pat = points[e.first as usize..e.first as usize + e.count as usize].to_vec();
                Part::Vpwl(VoltageSourcePwl { p, n, pat, t_delay: x, repeat: y, idx })
            }
            8 => Part::C(Capacitor { ident, a: p, b: n, value: x }),
            9 => Part::Vcvs(Vcvs { ident, p, n, cp, cn, k: x, idx }),
            // what a coil is at DC; runs that go on into a step with one are not the Rust's
            COIL => Part::V(VoltageSource { p, n, value: 0.0, idx }),
            _ => Part::Vccs(Vccs { ident, p, n, cp, cn, k: x }),
        });
    }
    circuit
}

pub fn configuration(o: &Options) -> Configuration {
    let mut c = Configuration::new();
    c.RELTOL = o.reltol;
    c.VNTOL = o.vntol;
    c.ABSTOL = o.abstol;
    c.TSTART = o.tstart;
    c.TSTOP = o.tstop;
    c.TSTEP = o.tstep;
    c.FS = o.fs;
    c.FT = o.ft;
    c.RMIN = o.rmin;
    c.RMAX = o.rmax;
    c.ITL1 = o.itl1 as usize;
    c.ITL3 = o.itl3 as usize;
    c.ITL4 = o.itl4 as usize;
    c
}

/// One fresh engine, one run: what its returned statistics, rows and prints tell.
fn drive(job: &Job, record: Record) -> (Seen, Engine) {
    recorder::begin(record);
    let circuit = circuit(job);
    let configuration = configuration(&job.options);
    let mut engine = Engine::new();
    let result = std::panic::catch_unwind(std::panic::AssertUnwindSafe(|| {
        let s = if job.transient {
            engine.transient_analysis(&circuit, &configuration)
        } else {
            engine.dc_operating_point(&circuit, &configuration)
        };
        (s.end, s.iterations as u64)
    }));
    let record = recorder::end();
    let dc = if record.dc_error {
        21
    } else if record.dc_divergent {
        20
    } else {
        0
    };
    let own = if record.step_error {
        21
    } else if record.step_too_small {
        23
    } else {
        0
    };
    let mut seen = Seen {
        verdict: if job.transient { own } else { dc },
        dc_verdict: dc,
        passes: 0,
        end: None,
        stopped: false,
        record,
    };
    match result {
        Ok((end, passes)) => {
            seen.end = Some(end);
            seen.passes = passes;
        }
        Err(why) => {
            seen.stopped = true;
            seen.verdict = match why.downcast_ref::<Stop>() {
                Some(Stop::Budget) => 24,
                Some(Stop::Room) => 25,
                Some(Stop::Sine) => 26,
                None => match why.downcast_ref::<String>() {
                    Some(text) if text.starts_with("*FATAL* Possibly bad I_d") => 22,
                    Some(text) => panic!("the Rust panicked: {}", text),
                    None => panic!("the Rust panicked"),
                },
            };
        }
    }
    (seen, engine)
}
