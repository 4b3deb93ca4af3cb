//! Compares the programs with the Rust, file by file: `bale` runs on each bale file, `shift` on each shift, and every byte that they print is compared.
//! Run by differential/files.

use oracle::generate_based_files::{based_file, damaged_based_file};
use oracle::generate_files::{damaged_file, file};
use oracle::generate_shifts::{based_shift, damaged_based_shift, damaged_shift, shift};
use oracle::random::Random;
use std::io::Write;
use std::process::{Command, Stdio};

type Draw = fn(&mut Random) -> Vec<u8>;

/// A program, what it is run on, and the Rust's listing.
struct Compared {
    name: &'static str,
    program: &'static str,
    good: Draw,
    damaged: Draw,
    listing: fn(&[u8]) -> String,
}

const fn bales(name: &'static str, good: Draw, damaged: Draw) -> Compared {
    Compared { name, program: "crates/bale/out/bale", good, damaged, listing: oracle::bale::listing }
}

const fn shifts(name: &'static str, good: Draw, damaged: Draw) -> Compared {
    Compared { name, program: "crates/shift/out/shift", good, damaged, listing: oracle::shift::listing }
}

/// By their names on the command line; the first is meant where there is none.
static STREAMS: [Compared; 4] = [
    bales("files", file, damaged_file),
    bales("based", based_file, damaged_based_file),
    shifts("shifts", shift, damaged_shift),
    shifts("based-shifts", based_shift, damaged_based_shift),
];

/// What the program prints for these bytes, written to it in pieces of so many.
fn printed(program: &str, bytes: &[u8], piece: usize) -> Vec<u8> {
    let child = Command::new(program).stdin(Stdio::piped()).stdout(Stdio::piped()).spawn();
    let mut child = child.expect("the program starts");
    let mut input = child.stdin.take().expect("a pipe");
    // It may end before it has read everything: of a single bale a bad word decides.
    let _ = bytes.chunks(piece).try_for_each(|piece| input.write_all(piece));
    drop(input);
    child.wait_with_output().expect("the program ends").stdout
}

/// Whether a listing is a refusal or has one in it, or else the bytes where it differs.
fn compared(what: &Compared, seed: u64) -> Result<bool, Vec<u8>> {
    let random = &mut Random::new(seed);
    let bytes = if seed % 2 == 0 { (what.good)(random) } else { (what.damaged)(random) };
    // mostly whole; now and then byte by byte, or across words
    let piece = match seed % 16 {
        5 | 10 => 1,
        7 => 7,
        _ => 1 << 16,
    };
    let expected = (what.listing)(&bytes);
    if printed(what.program, &bytes, piece) == expected.as_bytes() { Ok(expected.contains("refused")) } else { Err(bytes) }
}

fn share(what: &Compared, first: u64, step: u64, end: u64) -> Result<u64, Vec<u8>> {
    let mut refused = 0;
    for seed in (first..end).step_by(step as usize) {
        refused += u64::from(compared(what, seed)?);
    }
    Ok(refused)
}

fn main() {
    let mut words: Vec<String> = std::env::args().skip(1).collect();
    let named = words.first().and_then(|word| STREAMS.iter().find(|stream| stream.name == word));
    if named.is_some() {
        words.remove(0);
    }
    let what = named.unwrap_or(&STREAMS[0]);
    let numbers: Vec<u64> = words.iter().map(|word| word.parse().expect("a number")).collect();
    let (seed, count) = (numbers.first().copied().unwrap_or(0), numbers.get(1).copied().unwrap_or(10_000));
    let threads = std::thread::available_parallelism().map_or(1, |n| n.get() as u64);
    let shares: Vec<Result<u64, Vec<u8>>> = std::thread::scope(|scope| {
        let workers: Vec<_> =
            (0..threads).map(|i| scope.spawn(move || share(what, seed + i, threads, seed + count))).collect();
        workers.into_iter().map(|worker| worker.join().expect("a worker ends")).collect()
    });
    let mut refused = 0;
    for share in shares {
        match share {
            Ok(own) => refused += own,
            Err(bytes) => {
                std::fs::write("target/differential/failing.bale", bytes).expect("a file can be written");
                println!("a listing differs: target/differential/failing.bale");
                std::process::exit(1);
            }
        }
    }
    println!("{}: {count} from seed {seed} on, half of them damaged: every listing agrees, {refused} have refusals", what.name);
}
