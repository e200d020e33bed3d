// A run for the clock, on one build of the published Rust. Included once per build.

/// A run on a circuit made beforehand: the statistics alone.
pub fn run(transient: bool, circuit: &Circuit, configuration: &Configuration) -> u64 {
    let mut engine = Engine::new();
    let s = if transient {
        engine.transient_analysis(circuit, configuration)
    } else {
        engine.dc_operating_point(circuit, configuration)
    };
    s.iterations as u64
}

#[allow(dead_code)]
fn unused(job: &Job) -> Seen {
    drive(job, Record::new()).0
}
