//! Graphs of grades and markers, by shape.

use std::collections::HashSet;

use crate::random::Random;

#[derive(Clone, Default)]
pub struct Graph {
    pub grades: usize,
    pub markers: usize,
    /// Grade, then marker.
    pub pairs: Vec<(usize, usize)>,
}

/// The most a drawn graph may have.
#[derive(Clone, Copy)]
pub struct Room {
    pub grades: usize,
    pub markers: usize,
    pub pairs: usize,
    pub grades_of_a_marker: usize,
}

impl Graph {
    fn new(grades: usize, markers: usize, pairs: Vec<(usize, usize)>) -> Graph {
        Graph { grades, markers, pairs }
    }

    /// Another graph beside this one, with no pair between them.
    fn add(&mut self, other: Graph) {
        let (grades, markers) = (self.grades, self.markers);
        self.pairs.extend(other.pairs.iter().map(|&(g, m)| (g + grades, m + markers)));
        self.grades += other.grades;
        self.markers += other.markers;
    }

    /// One marker more, on these grades.
    fn hang(&mut self, grades: impl IntoIterator<Item = usize>) {
        self.pairs.extend(grades.into_iter().map(|grade| (grade, self.markers)));
        self.markers += 1;
    }

    fn fits(&self, other: &Graph, room: Room) -> bool {
        self.grades + other.grades <= room.grades
            && self.markers + other.markers <= room.markers
            && self.pairs.len() + other.pairs.len() <= room.pairs
            && other.crowd() <= room.grades_of_a_marker
    }

    /// The most grades that a marker has.
    fn crowd(&self) -> usize {
        let mut grades_of = vec![0; self.markers];
        self.pairs.iter().for_each(|&(_, m)| grades_of[m] += 1);
        grades_of.into_iter().max().unwrap_or(0)
    }

    /// The same graph, its grades, markers and pairs numbered at random.
    pub fn shuffle(&mut self, random: &mut Random) {
        let mut grades: Vec<usize> = (0..self.grades).collect();
        let mut markers: Vec<usize> = (0..self.markers).collect();
        random.shuffle(&mut grades);
        random.shuffle(&mut markers);
        self.pairs.iter_mut().for_each(|(g, m)| (*g, *m) = (grades[*g], markers[*m]));
        random.shuffle(&mut self.pairs);
    }
}

/// Grades and markers in turn, each joined to the next.
pub fn chain(nodes: usize) -> Graph {
    let pairs = (1..nodes).map(|i| (i / 2, (i - 1) / 2)).collect();
    Graph::new(nodes.div_ceil(2), nodes / 2, pairs)
}

/// As many grades as markers in a ring; at least 2 of each.
pub fn cycle(size: usize) -> Graph {
    let pairs = (0..size).flat_map(|i| [(i, i), ((i + 1) % size, i)]).collect();
    Graph::new(size, size, pairs)
}

/// Every grade on every marker; with one of either it is a star.
pub fn complete(grades: usize, markers: usize) -> Graph {
    let pairs = (0..markers).flat_map(|m| (0..grades).map(move |g| (g, m))).collect();
    Graph::new(grades, markers, pairs)
}

/// Each new grade or marker hangs on one of the other kind.
pub fn tree(random: &mut Random, nodes: usize) -> Graph {
    let mut graph = Graph::new(1, 1, vec![(0, 0)]);
    for _ in 2..nodes {
        if random.once_in(2) {
            graph.pairs.push((graph.grades, random.below(graph.markers)));
            graph.grades += 1;
        } else {
            graph.pairs.push((random.below(graph.grades), graph.markers));
            graph.markers += 1;
        }
    }
    graph
}

/// Different pairs at random, no marker with more grades than given.
pub fn random_pairs(random: &mut Random, room: Room) -> Graph {
    let mut graph = Graph::new(room.grades, room.markers, Vec::new());
    let mut seen = HashSet::new();
    let mut grades_of = vec![0; room.markers];
    for _ in 0..4 * room.pairs {
        if graph.pairs.len() == room.pairs {
            break;
        }
        let (g, m) = (random.below(room.grades), random.below(room.markers));
        if grades_of[m] < room.grades_of_a_marker && seen.insert((g, m)) {
            grades_of[m] += 1;
            graph.pairs.push((g, m));
        }
    }
    graph
}

/// A loopy graph; the pairs are left out where there is no room for them.
fn loopy(random: &mut Random, size: usize, room: Room) -> Graph {
    let least = size.div_ceil(2);
    let (grades, markers) = (random.within(least, size), random.within(least, size));
    let pairs = random.below((grades * markers).min(room.pairs) + 1);
    random_pairs(random, Room { grades, markers, pairs, ..room })
}

/// A marker on over half as many grades as it may have, now and then another on as many of these, and more on two each, so that there are cycles.
pub fn wide(random: &mut Random, room: Room) -> Graph {
    let most = room.grades_of_a_marker.min(room.grades);
    let least = most / 2 + 1;
    let grades = random.within(least, most);
    let mut graph = complete(grades, 1);
    if random.once_in(3) {
        let (first, width) = (random.below(grades), random.within(least, grades));
        graph.hang((0..width).map(|i| (first + i) % grades));
    }
    let left = (room.markers - graph.markers).min((room.pairs - graph.pairs.len()) / 2);
    for _ in 0..random.below(left + 1) {
        let (grade, further) = (random.below(grades), random.within(1, grades - 1));
        graph.hang([grade, (grade + further) % grades]);
    }
    graph.shuffle(random);
    graph
}

fn any_shape(random: &mut Random, size: usize, room: Room) -> Graph {
    let size = random.within(1, size);
    match random.below(14) {
        0 => Graph::new(random.within(0, 2), random.within(0, 2), Vec::new()),
        1 => chain(2 * size),
        2 => complete(size, 1),
        3 => complete(1, size),
        4 => cycle(size.max(2)),
        5 => complete(random.within(1, size), random.within(1, size)),
        6 => complete(room.grades_of_a_marker.min(room.grades), 1),
        7 | 8 => tree(random, 2 * size),
        _ => loopy(random, size, room),
    }
}

/// Up to four shapes beside each other, as far as there is room.
pub fn any_graph(random: &mut Random, room: Room) -> Graph {
    let mut graph = Graph::default();
    for _ in 0..random.within(1, 4) {
        let size = random.pick(&[2, 5, 10, 20, 36]);
        let shape = any_shape(random, size, room);
        if graph.fits(&shape, room) {
            graph.add(shape);
        }
    }
    if !random.once_in(4) {
        graph.shuffle(random);
    }
    graph
}
