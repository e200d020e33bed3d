//! DC jobs of one circuit as a netlist for ngspice, and its loop of `alter` and `op` over them, timed.

use crate::job::*;
use crate::model::{self, Wrong};
use std::fmt::Write;
use std::process::{Command, Stdio};

/// ngspice's own constants, by which a thermal voltage becomes a temperature.
const BOLTZMANN_NG: f64 = 1.38064852e-23;
const CHARGE_NG: f64 = 1.6021766208e-19;

/// Loops over all jobs in a timed run, and rounds of which the least counts.
const LOOPS: usize = 20;
const ROUNDS: usize = 5;

pub struct Times {
    pub version: String,
    /// Seconds of processor time for one loop over all jobs, start and reading of the netlist taken off.
    pub loops: [f64; 3],
    /// The watched node's voltage for each job.
    pub outputs: Vec<f64>,
}

/// The loops that are timed: with the jobs' tolerances, with ngspice's own, which are wider, and with `alter` alone.
const SORTS: [&str; 3] = ["same", "own", "alter"];

/// Celsius at which ngspice has this diode's thermal voltage.
fn celsius(e: &Element, o: &Options) -> f64 {
    let vt = o.boltzmann * (363.0 + e.value[1]) / o.charge;
    vt * CHARGE_NG / BOLTZMANN_NG - 273.15
}

/// The record as an element card; its number makes its name.
fn card(k: usize, e: &Element, job: &Job) -> String {
    let (a, b, cp, cn) = (e.a, e.b, e.cp, e.cn);
    match e.kind {
        1 => format!("r{} {} {} {:e}", k, a, b, e.value[0]),
        2 | 5 => format!("i{} {} {} {:e}", k, a, b, e.value[0]),
        3 | 6 => format!("v{} {} {} {:e}", k, a, b, e.value[0]),
        4 => {
            let t = celsius(e, &job.options);
            format!("d{0} {1} {2} m{0} area={3:e} temp={4}\n.model m{0} d(is=1 tnom={4})", k, a, b, e.value[0], t)
        }
        7 => {
            let part = &job.pattern()[e.first as usize..e.first as usize + e.count as usize];
            format!("v{} {} {} {:e}", k, a, b, model::pattern(part, e.value[0], e.value[1], 0.0, Wrong::Nothing))
        }
        8 => format!("c{} {} {} {:e}", k, a, b, e.value[0]),
        9 => format!("e{} {} {} {} {} {:e}", k, a, b, cp, cn, e.value[0]),
        _ => format!("g{} {} {} {} {} {:e}", k, a, b, cp, cn, e.value[0]),
    }
}

/// The command that gives record `k` its value of another job.
fn alter(k: usize, e: &Element) -> String {
    let (letter, which) = match e.kind {
        1 => ("r", ""),
        2 | 5 => ("i", ""),
        4 => ("d", "area "),
        9 => ("e", "gain "),
        10 => ("g", "gain "),
        _ => ("v", ""),
    };
    format!("alter {}{} {}= {:e}", letter, k, which, e.value[0])
}

/// The jobs' tolerances as ngspice names them.
fn tolerances(o: &Options) -> String {
    format!(
        ".options reltol={:e} vntol={:e} abstol={:e} gmin={:e} itl1={}",
        o.reltol, o.vntol, o.abstol, o.gmin, o.itl1
    )
}

/// Every job altered into the netlist and then the commands given, so many times over.
fn netlist(jobs: &[Job], options: &str, loops: usize, commands: &str) -> String {
    let mut s = String::from("* the jobs of one circuit\n");
    for (k, e) in jobs[0].elements().iter().enumerate() {
        let _ = writeln!(s, "{}", card(k, e, &jobs[0]));
    }
    let _ = writeln!(s, "{}\n.control\nset numdgt=15\nrepeat {}", options, loops);
    let mut before = jobs[jobs.len() - 1].elements();
    for job in jobs {
        let now = job.elements();
        for (k, (e, old)) in now.iter().zip(&before).enumerate() {
            // patterns and capacitors do not move at DC
            if e.value[0] != old.value[0] && !matches!(e.kind, 7 | 8) {
                let _ = writeln!(s, "{}", alter(k, e));
            }
        }
        s += commands;
        before = now;
    }
    s += "end\nquit\n.endc\n.end\n";
    s
}

#[repr(C)]
struct Usage {
    user: [i64; 2],
    system: [i64; 2],
    rest: [i64; 14],
}

extern "C" {
    fn getrusage(who: i32, usage: *mut Usage) -> i32;
}

const CHILDREN: i32 = -1;

/// Seconds of processor time of all programs started here that have ended.
fn spent() -> f64 {
    let mut u = Usage { user: [0; 2], system: [0; 2], rest: [0; 14] };
    unsafe { getrusage(CHILDREN, &mut u) };
    let seconds = |t: [i64; 2]| t[0] as f64 + t[1] as f64 * 1e-6;
    seconds(u.user) + seconds(u.system)
}

/// Seconds of processor time of one run on a netlist; nothing it writes is kept.
fn timed(path: &str) -> Result<f64, String> {
    let begun = spent();
    let status = Command::new("ngspice")
        .args(["-b", path])
        .stdin(Stdio::null())
        .stdout(Stdio::null())
        .stderr(Stdio::null())
        .status();
    match status {
        Ok(s) if s.success() => Ok(spent() - begun),
        Ok(s) => Err(format!("ended with {}", s)),
        Err(e) => Err(format!("{}", e)),
    }
}

/// What a run on a netlist writes.
fn told(arguments: &[&str]) -> Result<String, String> {
    let out = Command::new("ngspice").args(arguments).stdin(Stdio::null()).output().map_err(|e| format!("{}", e))?;
    Ok(String::from_utf8_lossy(&out.stdout).into_owned())
}

/// The number behind the equals sign of lines that begin so.
fn numbers(text: &str, start: &str) -> Vec<f64> {
    let lines = text.lines().filter(|l| l.starts_with(start));
    lines.filter_map(|l| l.split('=').nth(1)?.trim().parse().ok()).collect()
}

/// Times the loop over these jobs, which differ in their numbers alone. `between` is called once in each round, so that what
/// it times has the same neighbours on the machine.
pub fn time(folder: &str, jobs: &[Job], node: usize, between: &mut dyn FnMut()) -> Result<Times, String> {
    let file = |name: &str, text: String| -> Result<String, String> {
        let path = format!("{}/{}.cir", folder, name);
        std::fs::write(&path, text).map_err(|e| format!("{}: {}", path, e))?;
        Ok(path)
    };
    let same = tolerances(&jobs[0].options);
    let run = "op\ndestroy\n";
    let mut paths = Vec::new();
    for (name, (options, commands)) in SORTS.iter().zip([(same.as_str(), run), ("", run), (same.as_str(), "")]) {
        for loops in [1, 1 + LOOPS] {
            paths.push(file(&format!("spreads-{}-{}", name, loops), netlist(jobs, options, loops, commands))?);
        }
    }
    let mut least = [f64::INFINITY; 6];
    for _ in 0..ROUNDS {
        between();
        for (best, path) in least.iter_mut().zip(&paths) {
            *best = best.min(timed(path)?);
        }
    }
    let one = |k: usize| (least[2 * k + 1] - least[2 * k]) / LOOPS as f64;
    let watched = format!("op\nprint v({})\ndestroy\n", node);
    let printed = file("spreads-printed", netlist(jobs, &same, 1, &watched))?;
    let outputs = numbers(&told(&["-b", &printed])?, &format!("v({})", node));
    let text = told(&["--version"])?;
    let version = text.split_whitespace().find(|w| w.starts_with("ngspice-")).unwrap_or("ngspice").to_string();
    Ok(Times { version, loops: [one(0), one(1), one(2)], outputs })
}
