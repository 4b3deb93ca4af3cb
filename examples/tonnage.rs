//! The film bale of examples/film.txt twice, weighed, and a third time with a mark that was not read. Built and run by examples/rust.

#[repr(C)]
struct Reply {
    refusal: u32,
    place: u32,
    lines: u32,
}

#[link(name = "tonnage", kind = "static")]
unsafe extern "C" {
    #[rustfmt::skip]
    fn tonnage_by_grade(
        csv: *const u8, csv_length: usize, shift: *const u8, shift_length: usize, totals: *mut u64, totals_length: usize,
    ) -> Reply;
}

const GRADES: [&str; 5] = ["PP pot", "PP film", "PE film", "PE bag", "PET tray"];
/// The marks as they were read, in 16,384ths.
const READS: [u32; 4] = [15360, 1024, 14336, 8192];
/// Grade, then mark.
const PAIRS: [(u32, u32); 6] = [(0, 0), (1, 0), (1, 1), (2, 1), (3, 2), (4, 3)];

/// The bale file with these pairs: alpha and beta, prior, grades, marks, pairs, and the end.
fn bale(pairs: &[(u32, u32)]) -> Vec<u8> {
    let mut words = vec![1 << 29 | 768 << 10 | 64, 2 << 29 | 256, 3 << 29 | GRADES.len() as u32];
    words.extend(READS.map(|e| 4 << 29 | e));
    words.extend(pairs.iter().map(|(grade, mark)| 5 << 29 | grade << 10 | mark));
    words.push(6 << 29);
    words.into_iter().flat_map(u32::to_le_bytes).collect()
}

fn weigh(csv: &str, shift: &[u8]) {
    let mut totals = [0u64; 1024];
    // Each pointer is valid for the length beside it, and the totals overlap neither input.
    let reply = unsafe { tonnage_by_grade(csv.as_ptr(), csv.len(), shift.as_ptr(), shift.len(), totals.as_mut_ptr(), totals.len()) };
    if reply.refusal != 0 {
        println!("refused {} at line {}", reply.refusal, reply.place);
        return;
    }
    println!("{} lines", reply.lines);
    for (name, grams) in GRADES.iter().zip(totals) {
        println!("{name:<8} {:>8.3} kg", grams as f64 / 1000.0);
    }
}

fn main() {
    let shift = [bale(&PAIRS), bale(&[(4, 4)]), bale(&PAIRS)].concat();
    weigh("0,250\n2,1000\n", &shift);
    weigh("0,250\n1,300\n2,1000\n", &shift);
    weigh("0,250\n2,2001\n", &shift);
}
