//! Faults put into the lines of a morning: bad lines, lines out of order, and bytes.

use crate::random::Random;
use crate::tonnage::Row;

pub(crate) fn line_of(row: Row) -> Vec<u8> {
    format!("{},{}\n", row.bale, row.kilograms).into_bytes()
}

/// One to three faults.
pub(crate) fn put_in(random: &mut Random, mut lines: Vec<Vec<u8>>, beyond: u32) -> Vec<u8> {
    let faults = random.within(1, 3);
    let of_bytes = random.below(faults + 1);
    for _ in of_bytes..faults {
        if random.once_in(3) { disorder(random, &mut lines) } else { put_bad_line(random, &mut lines, beyond) }
    }
    let mut csv = lines.concat();
    for _ in 0..of_bytes {
        damage_bytes(random, &mut csv);
    }
    csv
}

/// Two lines change places, one comes again, or a bale's number comes again.
fn disorder(random: &mut Random, lines: &mut Vec<Vec<u8>>) {
    if lines.is_empty() {
        return;
    }
    let (place, other) = (random.below(lines.len()), random.below(lines.len()));
    match random.below(3) {
        0 => lines.swap(place, other),
        1 => lines.insert(place, lines[other].clone()),
        _ => lines.insert(place, lines[place].clone()),
    }
}

/// In a line's place or between two: of that line's bale, or of one that the shift
/// has not.
fn put_bad_line(random: &mut Random, lines: &mut Vec<Vec<u8>>, beyond: u32) {
    let place = random.below(lines.len() + 1);
    let text = lines.get(place).map(|line| String::from_utf8_lossy(line).into_owned());
    let bale = text.and_then(|text| text.split(',').next().and_then(|word| word.parse().ok()));
    let bale = bale.filter(|_| !random.once_in(3)).unwrap_or(beyond);
    let row = Row { bale, kilograms: random.within(1, 2000) as u32 };
    let line = if random.once_in(2) { bad_number(random, row) } else { bad_form(random, row) };
    if place < lines.len() && random.once_in(2) {
        lines[place] = line.into_bytes();
    } else {
        lines.insert(place, line.into_bytes());
    }
}

/// A number that is out of range, that would be in range were it cut to 16, 32 or 64
/// bits, or that is written in another way.
fn bad_number(random: &mut Random, row: Row) -> String {
    let Row { bale, kilograms } = row;
    let cut = 1u128 << random.pick(&[16, 32, 64]);
    match random.below(8) {
        0 => format!("0{bale},{kilograms}\n"),
        1 => format!("{bale},0{kilograms}\n"),
        2 => format!("{bale},{}\n", random.pick(&[0, 2001, 2001, 2002, 9999, 20000])),
        3 => format!("{},{kilograms}\n", random.pick(&[10000, 10000, 10001, 65536, 99999])),
        4 => format!("{},{kilograms}\n", cut + u128::from(bale)),
        5 => format!("{bale},{}\n", cut + u128::from(kilograms)),
        6 => format!("{}{bale},{kilograms}\n", random.pick(&["+", "-", "0x", "1e", "\u{661}", "00000000000000000000000"])),
        _ => format!("{bale},{}{kilograms}\n", random.pick(&["+", "-", "0x", "1e", "\u{661}", "00000000000000000000000"])),
    }
}

fn bad_form(random: &mut Random, row: Row) -> String {
    let Row { bale, kilograms } = row;
    let space = random.pick(&[" ", "\t", "\0", "\r", "\""]);
    match random.below(12) {
        0 => format!("{space}{bale},{kilograms}\n"),
        1 => format!("{bale}{space},{kilograms}\n"),
        2 => format!("{bale},{space}{kilograms}\n"),
        3 => format!("{bale},{kilograms}{space}\n"),
        4 => format!("{bale},{kilograms}\r\n"),
        5 => format!("{bale},{kilograms},\n"),
        6 => format!("{bale},{kilograms},{kilograms}\n"),
        7 => format!("{bale}{}{kilograms}\n", random.pick(&["", ";", ",,", " ", "\n"])),
        8 => format!("{}\n", random.pick(&["", ",", "bale,kilograms", "\u{FEFF}0,5"])),
        9 => format!("{bale},\n"),
        10 => format!(",{kilograms}\n"),
        _ => format!("{bale},{kilograms}.0\n"),
    }
}

/// A bit, a byte more or less, or an end that is cut off or has bytes behind it.
fn damage_bytes(random: &mut Random, csv: &mut Vec<u8>) {
    let place = random.below(csv.len().max(1));
    match random.below(6) {
        0 if !csv.is_empty() => csv[place] ^= 1 << random.below(8),
        1 if !csv.is_empty() => drop(csv.remove(place)),
        2 => csv.insert(place.min(csv.len()), random.pick(b"0129,\n\r \xFF")),
        3 => csv.truncate(csv.len().saturating_sub(random.within(1, 6))),
        4 => drop(csv.pop()),
        _ => csv.extend_from_slice(random.pick(&[b"\n".as_slice(), b"0", b"\0", b"\r\n", b"9999,1"])),
    }
}
