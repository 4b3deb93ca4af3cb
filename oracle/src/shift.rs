//! A shift: bale files that follow one another, by document 02 (S-12). The Rust has
//! nothing of it; each bale is listed by `bale::listing`.

use crate::bale;

/// The first byte behind the first end word: the top three bits of a word are in
/// its last byte.
fn behind_end(bytes: &[u8]) -> Option<usize> {
    let place = bytes.chunks_exact(4).position(|word| word[3] >> 5 == 6)?;
    Some(4 * place + 4)
}

/// The bales, each up to its end word, and the rest, if there is any.
pub fn bales(bytes: &[u8]) -> Vec<&[u8]> {
    let mut found = Vec::new();
    let mut rest = bytes;
    while !rest.is_empty() {
        let (bale, others) = rest.split_at(behind_end(rest).unwrap_or(rest.len()));
        found.push(bale);
        rest = others;
    }
    found
}

/// What the program `shift` prints for the input.
pub fn listing(bytes: &[u8]) -> String {
    bales(bytes).into_iter().map(bale::listing).collect()
}
