//! The differential bench: the shipped engine against the published Rust and a plain model.

mod behind;
mod coils;
mod compare;
mod directed;
#[cfg_attr(not(archive), path = "no_door.rs")]
mod door;
mod exact;
mod first;
mod form;
mod functions;
mod generate;
mod inductor;
mod job;
mod jobs;
mod leaves;
mod limits;
mod list;
mod model;
mod netlist;
mod oracle;
mod random;
// the one declaration of the C door in Rust; the bench calls most of it
#[rustfmt::skip]
#[allow(dead_code)]
#[path = "../../bindings/rust/src/raw.rs"]
mod raw;
mod shrink;
mod sides;
mod speed;
mod spread_calls;
mod spread_list;
mod spread_rules;
mod spreads;
mod spreads_speed;
mod tally;
mod waiting;

use form::Form;

/// Panics of the Rust that stand for a verdict are caught and not shown.
fn quiet_panics() {
    std::panic::set_hook(Box::new(|info| {
        let stop = info.payload().downcast_ref::<recorder::Stop>().is_some();
        let text = info.payload().downcast_ref::<String>();
        if !stop && !text.map_or(false, |t| t.starts_with("*FATAL*")) {
            eprintln!("{}", info);
        }
    }));
}

fn conclude(differences: u64) -> u64 {
    println!("{}", if differences == 0 { "0 differences" } else { "DIFFERENCES: see above" });
    differences
}

const USAGE: &str = "usage: bench run SEED COUNT FOLDER | directed | show | leaves SEED COUNT | jobs SEED COUNT FOLDER
    | job SEED PLACE | waiting-job SEED PLACE | pattern-job SEED PLACE | coil-job SEED PLACE | find READING SEED COUNT
    | list SEED FILE [FORM] | list-budget FILE | list-catchup SEED FILE | list-pattern SEED FILE
    | list-inductors SEED FILE | list-spreads SEED FILE | list-sound SEED FILE | list-spreads-inductors FILE
    | replay FILE | speed | time [ROW [FILE]] | spreads SEED CALLS | spread SEED PLACE | sound-spread SEED PLACE | coil-spread SEED PLACE
    | spreads-speed FOLDER FILE";

fn main() {
    quiet_panics();
    let args: Vec<String> = std::env::args().skip(1).collect();
    let number = |i: usize, or: u64| args.get(i).map_or(or, |a: &String| a.parse().expect("a number"));
    let text = |i: usize, or: &'static str| args.get(i).map_or(or, |a: &String| a.as_str());
    let (seed, count) = (|| number(1, 1), || number(2, 100_000));
    let amiss = match text(0, "") {
        "run" => {
            let runs = directed::run() + leaves::run(seed(), count()) + jobs::run(seed(), count(), text(3, "."));
            conclude(runs + spreads::run(seed(), count() / 100))
        }
        "directed" => directed::run(),
        "show" => directed::show_all(),
        "leaves" => leaves::run(seed(), count()),
        "jobs" => jobs::run(seed(), count(), text(3, ".")),
        "job" => jobs::show_one(seed(), number(2, 0), 0),
        "waiting-job" => jobs::show_one(seed(), number(2, 0), 1),
        "pattern-job" => jobs::show_one(seed(), number(2, 0), 2),
        "coil-job" => jobs::show_one(seed(), number(2, 0), 3),
        "find" => directed::find(number(1, 0) as usize, number(2, 1), number(3, 100_000)),
        "list" => match number(3, 1) {
            1 => list::write(seed(), text(2, "answers.bin"), Form::One),
            2 => list::write(seed(), text(2, "answers.bin"), Form::Two),
            _ => {
                eprintln!("the form of a list is 1 or 2");
                1
            }
        },
        "list-budget" => list::write_budgets(text(1, "answers3.bin")),
        "list-catchup" => list::write_waiting(seed(), text(2, "answers4.bin")),
        "list-pattern" => list::write_patterns(seed(), text(2, "answers5.bin")),
        "list-inductors" => list::write_coils(seed(), text(2, "answers6.bin")),
        "list-spreads" => spread_list::write(seed(), text(2, "spreads.bin")),
        "list-sound" => spread_list::write_sound(seed(), text(2, "sound.bin")),
        "list-spreads-inductors" => spread_list::write_coils(text(1, "spreads2.bin")),
        "replay" => list::replay(text(1, "answers.bin")),
        "speed" => speed::run(),
        "time" => speed::time(args.get(1).map(|_| number(1, 0) as usize), text(2, "-")),
        "spreads" => conclude(spreads::run(seed(), number(2, 1000))),
        "spreads-speed" => spreads_speed::run(text(1, "-"), text(2, "-")),
        "spread" => spreads::show_one(seed(), number(2, 0), 0),
        "sound-spread" => spreads::show_one(seed(), number(2, 0), 1),
        "coil-spread" => spreads::show_one(seed(), number(2, 0), 2),
        _ => {
            eprintln!("{}", USAGE);
            1
        }
    };
    std::process::exit((amiss != 0) as i32);
}
