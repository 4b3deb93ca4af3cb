//! What marks could tell about the grades of examples/film.txt: each mark strongly or weakly read, in every pattern. Built and run by
//! examples/rust.

#[repr(C)]
struct Patterns {
    refusal: u32,
    place: u32,
    grades: u32,
}

#[link(name = "pikaplatinum", kind = "static")]
unsafe extern "C" {
    #[rustfmt::skip]
    fn pikaplatinum_count_patterns(
        alpha: f32, beta: f32, prior: f32, regularised: bool, tolerance: f32, loop_limit: u32, grades: u32,
        evidence: *const f32, evidence_length: usize, pairs: *const u32, pairs_length: usize,
        work_floats: *mut f32, work_floats_length: usize, work_numbers: *mut u32, work_numbers_length: usize,
        report: *mut u32, report_length: usize,
    ) -> Patterns;
}

const GRADES: [&str; 5] = ["PP pot", "PP film", "PE film", "PE bag", "PET tray"];
/// Grade, then mark.
const PAIRS: [u32; 12] = [0, 0, 1, 0, 1, 1, 2, 1, 3, 2, 4, 3];
/// Two floats for each of the four marks; only how many they are counts.
const EVIDENCE: [f32; 8] = [0.0; 8];
/// As `pikaplatinum_sizes` has it for 5 grades, 4 marks and 6 pairs.
const WORK: usize = 64 * (5 + 4 + 6) + 4096;

fn main() {
    let (mut work_floats, mut work_numbers) = ([0f32; WORK], [0u32; WORK]);
    // Of each grade: above 1/2, not above, no belief.
    let mut report = [0u32; 3 * GRADES.len()];
    // Each pointer is valid for the length beside it, and no two buffers overlap.
    #[rustfmt::skip]
    let reply = unsafe {
        pikaplatinum_count_patterns(
            0.75, 0.0625, 0.25, false, 0.006, 10_000, GRADES.len() as u32,
            EVIDENCE.as_ptr(), EVIDENCE.len(), PAIRS.as_ptr(), PAIRS.len(),
            work_floats.as_mut_ptr(), work_floats.len(), work_numbers.as_mut_ptr(), work_numbers.len(),
            report.as_mut_ptr(), report.len(),
        )
    };
    if reply.refusal != 0 {
        println!("refused {} at {}", reply.refusal, reply.place);
        std::process::exit(1);
    }
    println!("of 16 patterns  above 1/2  not above  no belief");
    for (name, counts) in GRADES.iter().zip(report.chunks_exact(3)).take(reply.grades as usize) {
        println!("{name:<14}  {:>9}  {:>9}  {:>9}", counts[0], counts[1], counts[2]);
    }
}
