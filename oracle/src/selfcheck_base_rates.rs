//! Checks of base rates (document 02, S-16), and of what the generator makes of them.

use std::collections::HashSet;

use crate::bale::{decode, entries};
use crate::call::first_refusal;
use crate::generate_based_files::{based_file, damaged_based_file};
use crate::random::Random;
use crate::selfcheck::Tally;

/// What number 5 holds to 1,024, and by how much it changes with e.
type End = fn(u32, u32) -> (u32, u32);

const ENDS: [End; 2] = [|b, e| (16384u32.saturating_sub(e) * b, b), |b, e| (e * (1024 - b), 1024 - b)];

/// A file's words, and the number that refuses it or 0.
struct File {
    words: Vec<u32>,
    number: u32,
}

impl File {
    fn of(bytes: &[u8]) -> File {
        let words = bytes.chunks_exact(4).map(|word| u32::from_le_bytes(word.try_into().unwrap())).collect();
        let refusal = decode(bytes).map_or_else(Some, |call| first_refusal(&call));
        File { words, number: refusal.map_or(0, |refusal| refusal.number) }
    }

    fn one_read(b: u32, e: u32) -> File {
        let words = [0x20080200, 0x40000200, 7 << 29 | b, 0x60000001, 4 << 29 | e, 6 << 29];
        File::of(&words.map(u32::to_le_bytes).concat())
    }

    fn base_rate(&self) -> u32 {
        self.words[2] & 0x3FF
    }

    fn reads(&self) -> impl Iterator<Item = u32> {
        self.words.iter().filter(|&word| word >> 29 == 4).map(|word| word & 0x7FFF)
    }

    /// Whether a read is the last that number 5 takes at this end, or the first that it does not.
    fn is_at(&self, end: &End, taken: bool) -> bool {
        self.reads().map(|e| end(self.base_rate(), e)).any(|(product, step)| match taken {
            true => (1024..1024 + step).contains(&product),
            false => (1024 - step..1024).contains(&product),
        })
    }
}

pub(crate) fn base_rates(tally: &mut Tally) {
    let all = || (1..1024).flat_map(|b| (0..=16384).map(move |e| (b, e)));
    tally.check("base rate: both entries are the exact fractions, for every b and e", all().all(|(b, e)| is_exact(b, e)));
    let near = |&(b, e): &(u32, u32)| ENDS.iter().map(|end| end(b, e)).any(|(product, step)| product.abs_diff(1024) <= 2 * step);
    let fallen = |(b, e): (u32, u32)| ENDS.iter().any(|end| end(b, e).0 < 1024);
    let refused = |(b, e): (u32, u32)| File::one_read(b, e).number == 5;
    tally.check("base rate: number 5 from the first product below 1,024 on", all().filter(near).all(|read| refused(read) == fallen(read)));
    let sides: HashSet<(u32, bool)> = all().filter(near).map(|read| (read.0, fallen(read))).collect();
    tally.check("base rate: both sides looked at for every b", sides.len() == 2 * 1023);
    generated_good(tally);
    generated_damaged(tally);
}

/// Computed another way: 2^24 times an f32 is exact in f64.
fn is_exact(b: u32, e: u32) -> bool {
    entries(e, Some(b)).map(|entry| f64::from(entry) * 16777216.0) == [f64::from((16384 - e) * b), f64::from(e * (1024 - b))]
}

fn generated_good(tally: &mut Tally) {
    let mut random = Random::new(16);
    let files: Vec<File> = (0..4000).map(|_| File::of(&based_file(&mut random))).collect();
    let rates: HashSet<u32> = files.iter().map(File::base_rate).collect();
    let wanted = [0, 1, 2, 511, 512, 513, 1022, 1023];
    tally.check("generated base rates: the ends and the middle", wanted.iter().all(|b| rates.contains(b)));
    let numbers: HashSet<u32> = files.iter().map(|file| file.number).collect();
    tally.check("generated base rates: answered, and each number but 9", numbers == HashSet::from([0, 1, 3, 5, 6, 7, 11]));
    let found = |end, number| files.iter().any(|file| file.number == number && file.is_at(end, number == 0));
    tally.check("generated base rates: both sides of both ends of number 5", ENDS.iter().all(|end| found(end, 0) && found(end, 5)));
    let before = |hides: fn(&[u32]) -> bool| files.iter().any(|file| file.number == 11 && hides(&file.words));
    tally.check("generated base rates: 11 before 1", before(|words| words[3] & 0x7FF > 24));
    tally.check("generated base rates: 11 before 3", before(|words| words[0] >> 10 & 0x3FF == 0));
}

fn generated_damaged(tally: &mut Tally) {
    let mut random = Random::new(17);
    let files: Vec<File> = (0..4000).map(|_| File::of(&damaged_based_file(&mut random))).collect();
    let zero = 7 << 29;
    let found = |is: &dyn Fn(&[u32]) -> bool| files.iter().filter(|file| file.number == 9 && is(&file.words)).count() >= 20;
    tally.check("damaged base rates: 9 before 11", found(&|words| words.get(2) == Some(&zero)));
    let seventh = |place: usize| move |words: &[u32]| words.get(place).is_some_and(|word| word >> 29 == 7);
    tally.check("damaged base rates: one place early or late", found(&seventh(1)) && found(&seventh(3)));
    let stray = |words: &[u32]| words.get(2).is_some_and(|word| word >> 29 == 7 && word >> 10 & 0x7FFFF != 0);
    tally.check("damaged base rates: a bit set above them", found(&stray));
}
