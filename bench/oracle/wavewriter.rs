//! Stands in for the wave writer: rows go to the recorder, bit for bit, and to no file.

use std::collections::HashMap;
use circuit::NodeId;

pub struct WaveWriter;

impl WaveWriter {
    pub fn new(_: &str, _: &HashMap<NodeId, String>) -> Option<WaveWriter> {
        Some(WaveWriter)
    }

    pub fn header(&mut self, _: usize, _: usize) {}

    pub fn dump_vector(&mut self, time: f64, vars: &[f64]) {
        ::recorder::row(time, vars);
    }
}
