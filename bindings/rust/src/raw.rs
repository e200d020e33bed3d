//! The C door, as include/savrunte.h declares it. The crate is built on it, and the bench (bench/src/door.rs) too.

/// GMIN, BOLTZMANN and CHARGE of the Rust engine, by their bits.
pub const GMIN: u64 = 0x3d71_9799_812d_ea11;
pub const BOLTZMANN: u64 = 0x3b30_b0e6_accd_cc7e;
pub const CHARGE: u64 = 0x3c07_a7f6_7898_4ae7;

/// The options of a run. Any float bits are allowed; the counts are checked by the call.
#[repr(C)]
#[derive(Clone, Copy, Debug, PartialEq)]
pub struct Options {
    pub reltol: f64,
    pub vntol: f64,
    pub abstol: f64,
    pub tstart: f64,
    pub tstop: f64,
    pub tstep: f64,
    pub fs: f64,
    pub ft: f64,
    pub rmin: f64,
    pub rmax: f64,
    pub gmin: f64,
    pub boltzmann: f64,
    pub charge: f64,
    pub itl1: u64,
    pub itl3: u64,
    pub itl4: u64,
    pub budget: u64,
    /// 0 is off. Anything else is on: then a pass that would settle goes on as if it had not, while a diode is behind.
    pub catchup: u64,
    /// 0 is off. Anything else is on: then a pattern has its first level up to its first point's own time and, without repeat, its last level from its end on.
    pub pattern_first: u64,
}

impl Options {
    /// The bench's tolerances, the Rust engine's constants, a step of 1 up to time 2, the whole budget, and every switch off.
    pub fn bench() -> Options {
        Options {
            reltol: 0.001,
            vntol: 0.000001,
            abstol: 0.000001,
            tstart: 0.0,
            tstop: 2.0,
            tstep: 1.0,
            fs: 1.0,
            ft: 0.25,
            rmin: 0.1,
            rmax: 1.0,
            gmin: f64::from_bits(GMIN),
            boltzmann: f64::from_bits(BOLTZMANN),
            charge: f64::from_bits(CHARGE),
            itl1: 10,
            itl3: 0,
            itl4: 10,
            budget: 1_000_000,
            catchup: 0,
            pattern_first: 0,
        }
    }
}

#[repr(C)]
#[derive(Clone, Copy, Default)]
pub struct DcAnswer {
    pub refusal: u64,
    pub place: u64,
    pub verdict: u64,
    pub passes: u64,
    pub behind: u64,
}

#[repr(C)]
#[derive(Clone, Copy, Default)]
pub struct TransientAnswer {
    pub refusal: u64,
    pub place: u64,
    pub verdict: u64,
    pub dc_verdict: u64,
    pub passes: u64,
    pub rows: u64,
    pub end: f64,
    pub behind: u64,
}

#[repr(C)]
#[derive(Clone, Copy, Default)]
pub struct SpreadsAnswer {
    pub refusal: u64,
    pub settled: u64,
    pub smallest: f64,
    pub largest: f64,
    pub smallest_at: u64,
    pub largest_at: u64,
}

#[repr(C)]
#[derive(Clone, Copy, Default)]
pub struct SoundAnswer {
    pub refusal: u64,
    pub settled: u64,
    pub smallest: f64,
    pub largest: f64,
    pub smallest_at: u64,
    pub largest_at: u64,
    pub sound: u64,
    pub sound_smallest: f64,
    pub sound_largest: f64,
    pub sound_smallest_at: u64,
    pub sound_largest_at: u64,
}

#[repr(C)]
#[derive(Clone, Copy, Default)]
pub struct ConvergenceAnswer {
    pub refusal: u64,
    pub state: u64,
}

#[repr(C)]
#[derive(Clone, Copy, Default)]
pub struct JudgeAnswer {
    pub refusal: u64,
    pub row: u64,
}

#[repr(C)]
#[derive(Clone, Copy, Default)]
pub struct SinAnswer {
    pub refusal: u64,
    pub value: f64,
}

#[repr(C)]
#[derive(Clone, Copy, Default)]
pub struct Companion {
    pub g: f64,
    pub i: f64,
}

#[repr(C)]
#[derive(Clone, Copy, Default)]
pub struct DiodeAnswer {
    pub verdict: u64,
    pub g: f64,
    pub i: f64,
    pub memory: f64,
}

extern "C" {
    pub fn savrunte_dc(
        sheet: *const u8, sheet_len: usize, points: *const u8, points_len: usize,
        nodes: usize, sources: usize, options: Options,
        base: *mut f64, base_len: usize, system: *mut f64, system_len: usize,
        elimination: *mut f64, elimination_len: usize, vector: *mut f64, vector_len: usize,
        memory: *mut f64, memory_len: usize,
    ) -> DcAnswer;
    pub fn savrunte_transient(
        sheet: *const u8, sheet_len: usize, points: *const u8, points_len: usize,
        nodes: usize, sources: usize, options: Options,
        base: *mut f64, base_len: usize, system: *mut f64, system_len: usize,
        elimination: *mut f64, elimination_len: usize, vector: *mut f64, vector_len: usize,
        memory: *mut f64, memory_len: usize, rows: *mut f64, rows_len: usize,
    ) -> TransientAnswer;
    pub fn savrunte_spreads(
        sheets: *const u8, sheets_len: usize, points: *const u8, points_len: usize,
        jobs: usize, nodes: usize, sources: usize, unknown: usize, options: Options,
        base: *mut f64, base_len: usize, system: *mut f64, system_len: usize,
        elimination: *mut f64, elimination_len: usize, memory: *mut f64, memory_len: usize,
        vectors: *mut f64, vectors_len: usize, numbers: *mut u64, numbers_len: usize,
        places: *mut u64, places_len: usize, passes: *mut u64, passes_len: usize,
        counts: *mut u64, counts_len: usize, plus: *mut u64, plus_len: usize,
        minus: *mut u64, minus_len: usize,
    ) -> SpreadsAnswer;
    pub fn savrunte_sound_spreads(
        sheets: *const u8, sheets_len: usize, points: *const u8, points_len: usize,
        tolerances: *const f64, tolerances_len: usize,
        jobs: usize, nodes: usize, sources: usize, unknown: usize, options: Options,
        base: *mut f64, base_len: usize, system: *mut f64, system_len: usize,
        elimination: *mut f64, elimination_len: usize, memory: *mut f64, memory_len: usize,
        vectors: *mut f64, vectors_len: usize, causes: *mut u64, causes_len: usize,
        places: *mut u64, places_len: usize, passes: *mut u64, passes_len: usize,
        counts: *mut u64, counts_len: usize, plus: *mut u64, plus_len: usize,
        minus: *mut u64, minus_len: usize, sound_plus: *mut u64, sound_plus_len: usize,
        sound_minus: *mut u64, sound_minus_len: usize,
    ) -> SoundAnswer;
    pub fn savrunte_solve(matrix: *mut f64, matrix_len: usize, vector: *mut f64, vector_len: usize, rows: usize) -> u64;
    pub fn savrunte_convergence(x: *const f64, x_len: usize, y: *const f64, y_len: usize, nodes: usize, options: Options) -> ConvergenceAnswer;
    pub fn savrunte_behind(
        sheet: *const u8, sheet_len: usize, vector: *const f64, vector_len: usize,
        memory: *const f64, memory_len: usize, options: Options,
    ) -> u64;
    pub fn savrunte_judge(
        system: *const f64, system_len: usize, vector: *const f64, vector_len: usize,
        tolerances: *const f64, tolerances_len: usize, rows: usize,
    ) -> JudgeAnswer;
    pub fn savrunte_mean(plus: *const u64, plus_len: usize, minus: *const u64, minus_len: usize, count: u64) -> f64;
    pub fn savrunte_exp(x: f64) -> f64;
    pub fn savrunte_ln(x: f64) -> f64;
    pub fn savrunte_sin(x: f64) -> SinAnswer;
    pub fn savrunte_pattern(points: *const u8, points_len: usize, t_delay: f64, repeat: f64, t: f64) -> f64;
    pub fn savrunte_pattern_first(points: *const u8, points_len: usize, t_delay: f64, repeat: f64, t: f64) -> f64;
    pub fn savrunte_capacitor(value: f64, v: f64, step: f64) -> Companion;
    pub fn savrunte_diode(i_sat: f64, tdegc: f64, v: f64, memory: f64, options: Options) -> DiodeAnswer;
}
