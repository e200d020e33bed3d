//! Copies the published Rust and makes the few edits under which it becomes an oracle.
//! Every edit names the text it replaces and how often that stands there; a miss is an error.
//!
//! usage: prepare plain|quiet|timed|hooked SOURCE OUT WAVEWRITER

use std::env;
use std::fs;
use std::path::{Path, PathBuf};
use std::process::exit;

/// One edit: file, text that stands there, how often, text that takes its place.
struct Edit(&'static str, &'static str, usize, &'static str);

const MODULES: &[Edit] = &[Edit("lib.rs", "pub mod spice;\n", 1, ""), Edit("lib.rs", "pub mod expander;\n", 1, "")];

/// Prints become notes: four of them tell the verdict.
const NOTES: &[Edit] = &[Edit(
    "lib.rs",
    "// Circuit and Analysis Datastructures\n",
    1,
    "extern crate recorder;
macro_rules! println {
    () => {};
    ($fmt:expr $(, $($arg:tt)*)?) => { ::recorder::note($fmt) };
}
macro_rules! print { ($($arg:tt)*) => {}; }
// Circuit and Analysis Datastructures\n",
)];

/// Prints vanish: for timing.
const SILENCE: &[Edit] = &[Edit(
    "lib.rs",
    "// Circuit and Analysis Datastructures\n",
    1,
    "extern crate recorder;
macro_rules! println { ($($arg:tt)*) => {}; }
macro_rules! print { ($($arg:tt)*) => {}; }
// Circuit and Analysis Datastructures\n",
)];

const HOOKS: &[Edit] = &[
    // counts as numbers
    Edit("engine.rs", "self.c_nodes = ckt.count_nodes();", 1, "self.c_nodes = ::recorder::nodes();"),
    Edit("engine.rs", "self.c_vsrcs = ckt.count_voltage_sources();", 1, "self.c_vsrcs = ::recorder::sources();"),
    // one unit before each pass, so that a run without end can be stopped
    Edit("engine.rs", "let mut m = mna.to_owned();", 1, "::recorder::pass(); let mut m = mna.to_owned();"),
    Edit(
        "engine.rs",
        "let mut m = self.base_matrix.clone();",
        1,
        "::recorder::pass(); let mut m = self.base_matrix.clone();",
    ),
    // the system before elimination, and the solved vector
    Edit("engine.rs", "let ia = c_mna; // index for ampere vector", 1, "let ia = c_mna; ::recorder::system(&v);"),
    Edit("engine.rs", "trace!(\" [SOLVE] Results\");", 1, "::recorder::solved(&n);"),
    // constants as numbers
    Edit(
        "element/diode.rs",
        "use crate::circuit::{NodeId, BOLTZMANN, CHARGE, GMIN};",
        1,
        "use crate::circuit::NodeId;",
    ),
    Edit("element/diode.rs", "Cell::new(GMIN)", 1, "Cell::new(::recorder::gmin())"),
    Edit("element/diode.rs", "if g_eq < GMIN {", 1, "if g_eq < ::recorder::gmin() {"),
    Edit("element/diode.rs", "g_eq = GMIN;", 1, "g_eq = ::recorder::gmin();"),
    Edit(
        "element/diode.rs",
        "BOLTZMANN * (363.0 + self.tdegc) / CHARGE",
        1,
        "::recorder::boltzmann() * (363.0 + self.tdegc) / ::recorder::charge()",
    ),
];

/// exp, ln and sin from outside.
const FUNCTIONS: &[Edit] = &[
    Edit("element/diode.rs", ".exp()", 1, ".our_exp()"),
    Edit("element/diode.rs", ".ln()", 3, ".our_ln()"),
    Edit("element/isine.rs", ".sin()", 1, ".our_sin()"),
    Edit("element/vsine.rs", ".sin()", 1, ".our_sin()"),
    Edit("element/diode.rs", "use std::cell::Cell;", 1, "use std::cell::Cell; use recorder::Ours;"),
    Edit("element/isine.rs", "use std::f64::consts::PI;", 1, "use std::f64::consts::PI; use recorder::Ours;"),
    Edit("element/vsine.rs", "use std::f64::consts::PI;", 1, "use std::f64::consts::PI; use recorder::Ours;"),
];

/// The same without a look at the record: for timing.
const TIMED: &[Edit] = &[
    Edit("element/diode.rs", "recorder::Ours", 1, "recorder::Timed"),
    Edit("element/isine.rs", "recorder::Ours", 1, "recorder::Timed"),
    Edit("element/vsine.rs", "recorder::Ours", 1, "recorder::Timed"),
];

/// Text appended to the hooked build: it reads what the Rust keeps private.
const READERS: &[(&str, &str)] = &[
    (
        "element/diode.rs",
        "
impl Diode {
    pub fn memory(&self) -> f64 { self.v_d_prev.get() }
    pub fn set_memory(&self, v: f64) { self.v_d_prev.set(v) }
}
",
    ),
    (
        "engine.rs",
        "
impl Engine {
    pub fn base(&self) -> Vec<f64> { self.base_matrix.concat() }
    pub fn memories(&self) -> Vec<f64> {
        self.nonlinear_elements.iter().map(|e| match *e {
            circuit::Element::D(ref d) => d.memory(),
            _ => unreachable!(),
        }).collect()
    }
    pub fn with_counts(nodes: usize, sources: usize) -> Engine {
        let mut e = Engine::new();
        e.c_nodes = nodes;
        e.c_vsrcs = sources;
        e
    }
    pub fn solve_system(&self, v: Vec<Vec<f64>>) -> Vec<f64> { self.solve(v) }
}
",
    ),
];

/// What the stand-in wave writer must still answer to.
const WRITER: &[&str] = &[
    "pub fn new<'hash>(filename: &str, lut: &'hash HashMap<NodeId, String>)",
    "pub fn header(&mut self, c_nodes: usize, c_vsrcs: usize)",
    "pub fn dump_vector(&mut self, time: f64, vars: &[f64])",
];

fn fail(text: String) -> ! {
    eprintln!("prepare: {}", text);
    exit(1)
}

fn read(path: &Path) -> String {
    fs::read_to_string(path).unwrap_or_else(|e| fail(format!("cannot read {}: {}", path.display(), e)))
}

fn write(path: &Path, text: &str) {
    fs::write(path, text).unwrap_or_else(|e| fail(format!("cannot write {}: {}", path.display(), e)))
}

fn apply(out: &Path, edits: &[Edit]) {
    for Edit(file, old, times, new) in edits {
        let path = out.join(file);
        let text = read(&path);
        let found = text.matches(old).count();
        if found != *times {
            fail(format!("{}: `{}` stands there {} times, not {}", file, old.trim(), found, times));
        }
        write(&path, &text.replace(old, new));
    }
}

fn copy(from: &Path, to: &Path) {
    fs::create_dir_all(to).unwrap_or_else(|e| fail(format!("cannot make {}: {}", to.display(), e)));
    let list = fs::read_dir(from).unwrap_or_else(|e| fail(format!("no Rust source at {}: {}", from.display(), e)));
    for entry in list {
        let path = entry.unwrap().path();
        let name: PathBuf = path.file_name().unwrap().into();
        if path.is_dir() {
            copy(&path, &to.join(name));
        } else {
            write(&to.join(name), &read(&path));
        }
    }
}

fn main() {
    let args: Vec<String> = env::args().collect();
    if args.len() != 5 {
        fail("usage: prepare plain|quiet|timed|hooked SOURCE OUT WAVEWRITER".to_string());
    }
    let out = Path::new(&args[3]);
    copy(Path::new(&args[2]), out);
    apply(out, MODULES);
    apply(out, if args[1] == "quiet" || args[1] == "timed" { SILENCE } else { NOTES });
    let writer = read(&out.join("wavewriter.rs"));
    for line in WRITER {
        if !writer.contains(line) {
            fail(format!("wavewriter.rs no longer holds `{}`", line));
        }
    }
    write(&out.join("wavewriter.rs"), &read(Path::new(&args[4])));
    if args[1] == "timed" || args[1] == "hooked" {
        apply(out, FUNCTIONS);
    }
    if args[1] == "timed" {
        apply(out, TIMED);
    }
    if args[1] == "hooked" {
        apply(out, HOOKS);
        for (file, text) in READERS {
            let path = out.join(file);
            write(&path, &(read(&path) + text));
        }
    }
}
