//! A minute of film under two readers, asked through the library. Built and run by examples/rust.

#[repr(C)]
struct Matches {
    refusal: u32,
    place: u32,
    matches: u32,
}

#[link(name = "pikaplatinum", kind = "static")]
unsafe extern "C" {
    #[rustfmt::skip]
    fn pikaplatinum_match_reads(
        upper: *const u32, upper_length: usize, lower: *const u32, lower_length: usize, window: u32,
        matches: *mut u32, matches_length: usize,
    ) -> Matches;
}

/// Tick, then marker, of each read.
const UPPER: [u32; 8] = [100, 3, 104, 7, 110, 3, 131, 5];
const LOWER: [u32; 8] = [98, 7, 102, 3, 109, 3, 150, 5];

fn main() {
    // Two numbers for each read of the shorter list.
    let mut matches = [0u32; 8];
    // Each pointer is valid for the length beside it, and the buffer overlaps no list.
    #[rustfmt::skip]
    let reply = unsafe {
        pikaplatinum_match_reads(
            UPPER.as_ptr(), UPPER.len(), LOWER.as_ptr(), LOWER.len(), 10,
            matches.as_mut_ptr(), matches.len(),
        )
    };
    if reply.refusal != 0 {
        println!("refused {} at {}", reply.refusal, reply.place);
        std::process::exit(1);
    }
    for found in matches.chunks_exact(2).take(reply.matches as usize) {
        let (above, below) = (2 * found[0] as usize, 2 * found[1] as usize);
        println!("marker {}: above at {:3}, below at {:3}", UPPER[above + 1], UPPER[above], LOWER[below]);
    }
}
