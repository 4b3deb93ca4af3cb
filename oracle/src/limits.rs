//! The limits of document 01, and document 02's of reads, patterns and trials.

/// The longest vector for a direct convolution, as S-18 has it; the Rust's own is 64.
pub const DIRECT_CONVOLUTION_MAX_LEN: usize = 256;

pub const MOST_GRADES: usize = 1024;
pub const MOST_MARKERS: usize = 1024;
pub const MOST_PAIRS: usize = 8192;
pub const MOST_GRADES_OF_A_MARKER: usize = 128;
pub const MOST_LOOPS: u32 = 1_000_000;

/// Of either of the two readers over one belt.
pub const MOST_READS: usize = 1024;

/// Of a graph whose read patterns are all run.
pub const MOST_PATTERN_MARKERS: usize = 10;

/// Of one call that tries settings on made-up bales.
pub const MOST_SETTINGS: usize = 64;
pub const MOST_BALES: u32 = 1000;

/// The program that reads a bale file takes fewer.
pub const PROGRAM_GRADES: usize = 24;
pub const PROGRAM_MARKERS: usize = 24;
pub const PROGRAM_PAIRS: usize = 140;
pub const PROGRAM_LOOPS: u32 = 10_000;
pub const PROGRAM_TOLERANCE: f32 = 0.006;

/// c, the f32 nearest 10^-30.
pub const LEAST_ENTRY: f32 = 1e-30;

/// alpha, beta and prior lie between these.
pub const LEAST_SETTING: f32 = 1.0 / 1024.0;
pub const LARGEST_SETTING: f32 = 1023.0 / 1024.0;

/// An evidence entry lies between this and 1.
pub const LEAST_EVIDENCE: f32 = 1.0 / 16384.0;
