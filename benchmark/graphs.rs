//! Graphs that several benchmarks run.

use oracle::random::Random;
use oracle::shapes::{Graph, Room, random_pairs};

/// The graph of examples/film.txt.
pub fn film() -> Graph {
    Graph { grades: 5, markers: 4, pairs: vec![(0, 0), (1, 0), (1, 1), (2, 1), (3, 2), (4, 3)] }
}

pub fn at_random(grades: usize, markers: usize, pairs: usize) -> Graph {
    random_pairs(&mut Random::new(7), Room { grades, markers, pairs, grades_of_a_marker: 128 })
}
