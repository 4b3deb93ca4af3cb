//! All belts of up to three reads a side, with ticks 0 to 3 in order, two markers and windows 0 to 3.

use oracle::belt::{Belt, Read};

const READS: usize = 3;
const END: u32 = 4;
const MARKERS: u32 = 2;

/// All lists of up to three reads, each made of a shorter one by a read whose tick is not below the last.
fn lists() -> Vec<Vec<Read>> {
    let mut all = vec![vec![]];
    let mut longest = all.clone();
    for _ in 0..READS {
        longest = longest.iter().flat_map(with_one_more).collect();
        all.extend(longest.iter().cloned());
    }
    all
}

fn with_one_more(list: &Vec<Read>) -> Vec<Vec<Read>> {
    let least = list.last().map_or(0, |read| read.tick);
    let reads = (least..END).flat_map(|tick| (0..MARKERS).map(move |marker| Read { tick, marker }));
    reads.map(|read| [list.as_slice(), &[read]].concat()).collect()
}

pub fn belts() -> impl Iterator<Item = Belt> {
    let pairs = lists().into_iter().flat_map(|upper| lists().into_iter().map(move |lower| (upper.clone(), lower)));
    pairs.flat_map(|(upper, lower)| (0..END).map(move |window| Belt::new(&upper, &lower, window)))
}
