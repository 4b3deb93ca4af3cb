//! How well the beliefs would tell the grades of examples/film.txt, were alpha, beta and prior these: 1,000 made-up bales each. Built and
//! run by examples/rust.

#[repr(C)]
struct Trials {
    refusal: u32,
    place: u32,
    settings: u32,
}

#[link(name = "pikaplatinum", kind = "static")]
unsafe extern "C" {
    #[rustfmt::skip]
    fn pikaplatinum_try_settings(
        settings: *const u32, settings_length: usize, seed: u32, bales: u32, regularised: bool, tolerance: f32, loop_limit: u32, grades: u32,
        evidence: *const f32, evidence_length: usize, pairs: *const u32, pairs_length: usize,
        work_floats: *mut f32, work_floats_length: usize, work_numbers: *mut u32, work_numbers_length: usize,
        report: *mut u32, report_length: usize,
    ) -> Trials;
}

/// alpha, beta, prior, in 1,024ths: those of the film bale, marks that show more surely, fewer false reads, more grades in a bale.
const SETTINGS: [[u32; 3]; 4] = [[768, 64, 256], [960, 64, 256], [768, 16, 256], [768, 64, 512]];
/// Grade, then mark.
const PAIRS: [u32; 12] = [0, 0, 1, 0, 1, 1, 2, 1, 3, 2, 4, 3];
/// Two floats for each of the four marks; only how many they are counts.
const EVIDENCE: [f32; 8] = [0.0; 8];
/// As `pikaplatinum_sizes` has it for 5 grades, 4 marks and 6 pairs.
const WORK: usize = 64 * (5 + 4 + 6) + 4096;

fn main() {
    let (mut work_floats, mut work_numbers) = ([0f32; WORK], [0u32; WORK]);
    // Of each setting: agreed, not agreed.
    let mut report = [0u32; 2 * SETTINGS.len()];
    // Each pointer is valid for the length beside it, and no two buffers overlap.
    #[rustfmt::skip]
    let reply = unsafe {
        pikaplatinum_try_settings(
            SETTINGS.as_flattened().as_ptr(), 3 * SETTINGS.len(), 1, 1000, false, 0.006, 10_000, 5,
            EVIDENCE.as_ptr(), EVIDENCE.len(), PAIRS.as_ptr(), PAIRS.len(),
            work_floats.as_mut_ptr(), work_floats.len(), work_numbers.as_mut_ptr(), work_numbers.len(),
            report.as_mut_ptr(), report.len(),
        )
    };
    if reply.refusal != 0 {
        println!("refused {} at {}", reply.refusal, reply.place);
        std::process::exit(1);
    }
    println!("alpha  beta  prior  agreed  not agreed");
    for ([alpha, beta, prior], counts) in SETTINGS.iter().zip(report.chunks_exact(2)).take(reply.settings as usize) {
        println!("{alpha:>5}  {beta:>4}  {prior:>5}  {:>6}  {:>10}", counts[0], counts[1]);
    }
}
