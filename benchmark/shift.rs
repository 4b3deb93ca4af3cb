//! Times the program `shift` on copies of one bale beside the Rust, which lists the same bytes in one process, and beside `bale` run singly: the least of
//! three rounds each. Run by benchmark/shift with a bale file on standard input.

use std::fs::File;
use std::hint::black_box;
use std::io::Read;
use std::process::{Command, Stdio};
use std::time::Instant;

const FOLDER: &str = "target/benchmark";
const COUNTS: [usize; 5] = [12_500, 25_000, 50_000, 100_000, 200_000];
const ROUNDS: usize = 3;
/// How often `bale` is run singly, a process each.
const RUNS: usize = 1_000;

/// In milliseconds.
fn least(mut work: impl FnMut()) -> f64 {
    let mut time = || {
        let begun = Instant::now();
        work();
        begun.elapsed().as_nanos() as f64 / 1e6
    };
    (0..ROUNDS).map(|_| time()).fold(f64::INFINITY, f64::min)
}

/// From one file into another.
fn run(program: &str, input: &str, output: &str) {
    let input = File::open(input).expect("the input is there");
    let output = File::create(output).expect("a file can be written");
    let status = Command::new(program).stdin(input).stdout(output).stderr(Stdio::inherit()).status();
    assert!(status.expect("the program starts").success());
}

fn main() {
    let mut bale = Vec::new();
    std::io::stdin().read_to_end(&mut bale).expect("a bale file");
    let (input, output) = (format!("{FOLDER}/shift.bales"), format!("{FOLDER}/shift.listing"));
    println!("bales      shift, ms  bales a second  the Rust, ms  share");
    for count in COUNTS {
        let bytes = bale.repeat(count);
        std::fs::write(&input, &bytes).expect("a file can be written");
        let here = least(|| run("crates/shift/out/shift", &input, &output));
        let rust = least(|| drop(black_box(oracle::shift::listing(&bytes))));
        let same = std::fs::read(&output).expect("the listing") == oracle::shift::listing(&bytes).as_bytes();
        assert!(same, "a listing differs");
        println!("{count:7} {here:12.1} {:15.0} {rust:13.1} {:6.2}", count as f64 / here * 1e3, here / rust);
    }
    std::fs::write(&input, &bale).expect("a file can be written");
    let singly = least(|| (0..RUNS).for_each(|_| run("crates/bale/out/bale", &input, &output))) / RUNS as f64;
    println!("bale run singly, a process each: {singly:.2} ms a bale");
}
