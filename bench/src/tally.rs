//! Counts, progress and the final table.

use std::collections::BTreeMap;
use std::io::Write;
use std::time::Instant;

/// Says how far a long run is, about once a second.
pub struct Progress {
    name: String,
    total: u64,
    begun: Instant,
    told: Instant,
}

impl Progress {
    pub fn new(name: &str, total: u64) -> Progress {
        let now = Instant::now();
        Progress { name: name.to_string(), total, begun: now, told: now }
    }

    pub fn at(&mut self, done: u64, more: &str) {
        if self.told.elapsed().as_millis() < 1000 {
            return;
        }
        self.told = Instant::now();
        let seconds = self.begun.elapsed().as_secs_f64();
        let left = seconds * (self.total - done) as f64 / done.max(1) as f64;
        eprint!(
            "\r{}: {} of {} ({} %), {:.0} s left{}    ",
            self.name,
            done,
            self.total,
            100 * done / self.total.max(1),
            left,
            more
        );
        let _ = std::io::stderr().flush();
    }

    pub fn seconds(&self) -> f64 {
        self.begun.elapsed().as_secs_f64()
    }

    pub fn end(&self) {
        eprint!("\r{:100}\r", "");
    }
}

#[derive(Default)]
pub struct Tally(pub BTreeMap<String, u64>);

impl Tally {
    pub fn add(&mut self, key: &str) {
        *self.0.entry(key.to_string()).or_insert(0) += 1;
    }

    pub fn get(&self, key: &str) -> u64 {
        self.0.get(key).copied().unwrap_or(0)
    }

    pub fn line(&self) -> String {
        self.0.iter().map(|(k, v)| format!("{} {}", k, v)).collect::<Vec<_>>().join(", ")
    }
}
