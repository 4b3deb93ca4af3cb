//! The bale of examples/film.txt, asked through the library. Built and run by examples/rust.

#[repr(C)]
struct Reply {
    refusal: u32,
    place: u32,
    beliefs: u32,
    endings: u32,
}

#[repr(C)]
struct Sizes {
    work_floats: u64,
    work_numbers: u64,
    belief_numbers: u64,
    belief_floats: u64,
    ending_numbers: u64,
    ending_floats: u64,
}

#[link(name = "pikaplatinum", kind = "static")]
unsafe extern "C" {
    fn pikaplatinum_sizes(grades: u32, markers: u32, pairs: u32) -> Sizes;

    #[rustfmt::skip]
    fn pikaplatinum_calibrate_all_subgraphs(
        alpha: f32, beta: f32, prior: f32, regularised: bool, tolerance: f32, loop_limit: u32, grades: u32,
        evidence: *const f32, evidence_length: usize, pairs: *const u32, pairs_length: usize,
        work_floats: *mut f32, work_floats_length: usize, work_numbers: *mut u32, work_numbers_length: usize,
        belief_numbers: *mut u32, belief_numbers_length: usize, belief_floats: *mut f32, belief_floats_length: usize,
        ending_numbers: *mut u32, ending_numbers_length: usize, ending_floats: *mut f32, ending_floats_length: usize,
    ) -> Reply;
}

const GRADES: [&str; 5] = ["PP pot", "PP film", "PE film", "PE bag", "PET tray"];
/// Absent, then present, for each mark that the reader looked for.
const EVIDENCE: [f32; 8] = [0.0625, 0.9375, 0.9375, 0.0625, 0.125, 0.875, 0.5, 0.5];
/// Grade, then mark.
const PAIRS: [u32; 12] = [0, 0, 1, 0, 1, 1, 2, 1, 3, 2, 4, 3];

fn main() {
    let counts = (GRADES.len() as u32, EVIDENCE.len() as u32 / 2, PAIRS.len() as u32 / 2);
    let sizes = unsafe { pikaplatinum_sizes(counts.0, counts.1, counts.2) };
    let mut work_floats = vec![0f32; sizes.work_floats as usize];
    let mut work_numbers = vec![0u32; sizes.work_numbers as usize];
    let mut belief_numbers = vec![0u32; sizes.belief_numbers as usize];
    let mut belief_floats = vec![0f32; sizes.belief_floats as usize];
    let mut ending_numbers = vec![0u32; sizes.ending_numbers as usize];
    let mut ending_floats = vec![0f32; sizes.ending_floats as usize];
    // Each pointer is valid for the length beside it, and no two buffers overlap.
    #[rustfmt::skip]
    let reply = unsafe {
        pikaplatinum_calibrate_all_subgraphs(
            0.75, 0.0625, 0.25, false, 0.006, 10_000, counts.0,
            EVIDENCE.as_ptr(), EVIDENCE.len(), PAIRS.as_ptr(), PAIRS.len(),
            work_floats.as_mut_ptr(), work_floats.len(), work_numbers.as_mut_ptr(), work_numbers.len(),
            belief_numbers.as_mut_ptr(), belief_numbers.len(), belief_floats.as_mut_ptr(), belief_floats.len(),
            ending_numbers.as_mut_ptr(), ending_numbers.len(), ending_floats.as_mut_ptr(), ending_floats.len(),
        )
    };
    if reply.refusal != 0 {
        println!("refused {} at {}", reply.refusal, reply.place);
        std::process::exit(1);
    }
    for i in 0..reply.beliefs as usize {
        let (grade, present) = (belief_numbers[i] as usize, belief_floats[2 * i + 1]);
        println!("{:<8} {:>5.1} % present", GRADES[grade], 100.0 * present);
    }
    println!("{} parts", reply.endings);
}
