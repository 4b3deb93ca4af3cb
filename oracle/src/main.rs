//! The oracle's commands; see the README.

use std::fs;
use std::io::{self, Read, Write};
use std::path::Path;
use std::process::ExitCode;

use oracle::alone::parts_answer_alone;
use oracle::call::{call, call_with_bounds};
use oracle::random::Random;
use oracle::{bale, generate, generate_based_files, generate_files, generate_mornings, generate_shifts};
use oracle::{log_table, selfcheck, shift, text, tonnage, tree};

const USAGE: &str = "usage: oracle bale | shift | tonnage CSV SHIFT | call [--bounds] | tree | table | selfcheck
     | generate files|damaged|based|damaged-based|shifts|damaged-shifts|based-shifts|damaged-based-shifts|calls|limits|mornings SEED COUNT DIR
     | bounds SEED COUNT | alone SEED COUNT";

fn main() -> ExitCode {
    let arguments: Vec<String> = std::env::args().skip(1).collect();
    let arguments: Vec<&str> = arguments.iter().map(String::as_str).collect();
    match command(&arguments) {
        Ok(good) if good => ExitCode::SUCCESS,
        Ok(_) => ExitCode::from(1),
        Err(message) => {
            eprintln!("oracle: {message}");
            ExitCode::from(2)
        }
    }
}

/// True if all that the command checks holds.
fn command(arguments: &[&str]) -> Result<bool, String> {
    match arguments {
        ["bale"] => print(&bale::listing(&input()?)),
        ["shift"] => print(&shift::listing(&input()?)),
        ["tonnage", csv, shift] => print(&tonnage::listing(&contents(csv)?, &contents(shift)?)),
        ["call"] => print(&text::write_outcome(&call(&text::read_call(&input_text()?)?))),
        ["call", "--bounds"] => {
            let (outcome, bounds) = call_with_bounds(&text::read_call(&input_text()?)?);
            print(&(text::write_outcome(&outcome) + &text::write_bounds(bounds)))
        }
        ["tree"] => print(&tree::tree_text(&input_text()?)?),
        ["table"] => print(&table_lines()),
        ["selfcheck"] => Ok(selfcheck::run()),
        ["generate", "mornings", seed, count, folder] => write_mornings(number(seed)?, number(count)?, Path::new(folder)),
        ["generate", kind, seed, count, folder] => {
            write_files(kind, number(seed)?, number(count)?, Path::new(folder))
        }
        ["bounds", seed, count] => Ok(bounds(number(seed)?, number(count)?)),
        ["alone", seed, count] => Ok(alone(number(seed)?, number(count)?)),
        _ => Err(USAGE.to_string()),
    }
}

fn number(word: &str) -> Result<u64, String> {
    word.parse().map_err(|_| format!("a number expected, not {word}"))
}

fn input() -> Result<Vec<u8>, String> {
    let mut bytes = Vec::new();
    io::stdin().read_to_end(&mut bytes).map_err(|error| error.to_string())?;
    Ok(bytes)
}

fn contents(path: &str) -> Result<Vec<u8>, String> {
    fs::read(path).map_err(|error| format!("{path}: {error}"))
}

fn input_text() -> Result<String, String> {
    String::from_utf8(input()?).map_err(|error| error.to_string())
}

fn print(lines: &str) -> Result<bool, String> {
    io::stdout().write_all(lines.as_bytes()).map_err(|error| error.to_string())?;
    Ok(true)
}

/// L of every entry of LOG_TABLE, one a line.
fn table_lines() -> String {
    (0..log_table::ENTRIES as u32).map(|i| format!("{}\n", log_table::entry(i))).collect()
}

fn write_files(kind: &str, seed: u64, count: u64, folder: &Path) -> Result<bool, String> {
    let mut random = Random::new(seed);
    fs::create_dir_all(folder).map_err(|error| error.to_string())?;
    for i in 0..count {
        let (ending, bytes) = match kind {
            "files" => ("bale", generate_files::file(&mut random)),
            "damaged" => ("bale", generate_files::damaged_file(&mut random)),
            "based" => ("bale", generate_based_files::based_file(&mut random)),
            "damaged-based" => ("bale", generate_based_files::damaged_based_file(&mut random)),
            "shifts" => ("shift", generate_shifts::shift(&mut random)),
            "damaged-shifts" => ("shift", generate_shifts::damaged_shift(&mut random)),
            "based-shifts" => ("shift", generate_shifts::based_shift(&mut random)),
            "damaged-based-shifts" => ("shift", generate_shifts::damaged_based_shift(&mut random)),
            "calls" => ("call", text::write_call(&generate::any_call(&mut random)).into_bytes()),
            "limits" => ("call", text::write_call(&generate::limits_call(&mut random)).into_bytes()),
            _ => return Err(format!("no kind {kind}")),
        };
        let path = folder.join(format!("{i:06}.{ending}"));
        fs::write(&path, bytes).map_err(|error| error.to_string())?;
    }
    Ok(true)
}

/// A CSV and a shift for each.
fn write_mornings(seed: u64, count: u64, folder: &Path) -> Result<bool, String> {
    let mut random = Random::new(seed);
    fs::create_dir_all(folder).map_err(|error| error.to_string())?;
    for i in 0..count {
        let morning = generate_mornings::any_morning(&mut random);
        for (ending, bytes) in [("csv", morning.csv), ("shift", morning.shift)] {
            fs::write(folder.join(format!("{i:06}.{ending}")), bytes).map_err(|error| error.to_string())?;
        }
    }
    Ok(true)
}

/// The bounds over the events of generated accepted calls.
fn bounds(seed: u64, count: u64) -> bool {
    let mut random = Random::new(seed);
    let (mut least, mut largest) = (f32::INFINITY, f32::NEG_INFINITY);
    let (mut events, mut outside) = (0, 0);
    for _ in 0..count {
        let (_, found) = call_with_bounds(&generate::accepted_call(&mut random));
        if let Some(found) = found {
            least = least.min(found.least);
            largest = largest.max(found.largest);
            events += found.events;
            outside += found.outside;
        }
    }
    println!("least {} {least:e}", text::bits(least));
    println!("largest {} {largest:e}", text::bits(largest));
    println!("{events} events, {outside} entries outside");
    outside == 0
}

/// Whether each part of generated accepted calls answers alone as in the whole.
fn alone(seed: u64, count: u64) -> bool {
    let mut random = Random::new(seed);
    let same = (0..count).filter(|_| parts_answer_alone(&generate::accepted_call(&mut random))).count();
    println!("{same} of {count} the same");
    same as u64 == count
}
