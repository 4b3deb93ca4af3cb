//! A part entered by itself, and whether it answers as in the whole graph.

use crate::call::{call, Belief, Call, Lent, Outcome, PartEnding};

/// A part by its grades and markers, each in their old order.
pub struct Part {
    pub grades: Vec<u32>,
    pub markers: Vec<u32>,
}

/// The parts by marks that spread along the pairs, apart from the Rust's walk.
/// Sorted as the walk finds them: by the lowest node, grades before markers.
pub fn parts_of(call: &Call) -> Vec<Part> {
    let grades = call.grades as usize;
    let mut mark: Vec<usize> = (0..grades + call.marker_count()).collect();
    let mut changed = true;
    while changed {
        changed = false;
        for pair in call.pairs.chunks_exact(2) {
            let (grade, marker) = (pair[0] as usize, grades + pair[1] as usize);
            let least = mark[grade].min(mark[marker]);
            changed |= mark[grade] != least || mark[marker] != least;
            (mark[grade], mark[marker]) = (least, least);
        }
    }
    let nodes = 0..mark.len();
    let own = |part: usize| nodes.clone().filter(|&node| mark[node] == part).collect::<Vec<usize>>();
    nodes.clone().filter(|&node| mark[node] == node).map(|part| split(&own(part), grades)).collect()
}

fn split(nodes: &[usize], grades: usize) -> Part {
    let (low, high): (Vec<usize>, Vec<usize>) = nodes.iter().partition(|&&node| node < grades);
    Part {
        grades: low.iter().map(|&node| node as u32).collect(),
        markers: high.iter().map(|&node| (node - grades) as u32).collect(),
    }
}

/// The part's own graph, numbered anew from 0, with every setting kept.
pub fn entered_alone(whole: &Call, part: &Part) -> Call {
    let place = |list: &[u32], number: u32| list.binary_search(&number).map(|place| place as u32);
    let mut pairs = Vec::new();
    for pair in whole.pairs.chunks_exact(2) {
        if let Ok(grade) = place(&part.grades, pair[0]) {
            pairs.extend([grade, place(&part.markers, pair[1]).expect("a pair lies in one part")]);
        }
    }
    let evidence: Vec<f32> =
        part.markers.iter().flat_map(|&m| whole.evidence[2 * m as usize..][..2].to_vec()).collect();
    let lent = Lent::needed(part.grades.len(), part.markers.len(), pairs.len() / 2);
    Call { settings: whole.settings.clone(), grades: part.grades.len() as u32, evidence, pairs, lent }
}

fn same_ending(left: &PartEnding, right: &PartEnding) -> bool {
    left.ending.number() == right.ending.number()
        && left.ending.residual().to_bits() == right.ending.residual().to_bits()
        && left.steps == right.steps
        && left.beliefs == right.beliefs
}

fn same_beliefs(part: &Part, whole: &[Belief], alone: &[Belief]) -> bool {
    whole.len() == alone.len()
        && whole.iter().zip(alone).all(|(left, right)| {
            left.grade == part.grades[right.grade as usize]
                && left.absent.to_bits() == right.absent.to_bits()
                && left.present.to_bits() == right.present.to_bits()
        })
}

/// Whether each part of an accepted call answers alone as it does in the whole,
/// under the part's number there.
pub fn parts_answer_alone(whole: &Call) -> bool {
    let Outcome::Answered { beliefs, endings } = call(whole) else {
        return false;
    };
    let mut rest = beliefs.as_slice();
    let mut found = endings.iter();
    for (number, part) in parts_of(whole).iter().enumerate() {
        let Outcome::Answered { beliefs, endings } = call(&entered_alone(whole, part)) else {
            return false;
        };
        let Some(alone) = endings.first() else { continue };
        let Some(ending) = found.next() else { return false };
        let (own, others) = rest.split_at(ending.beliefs as usize);
        rest = others;
        let same = same_ending(ending, alone) && same_beliefs(part, own, &beliefs);
        if !same || ending.part as usize != number || endings.len() != 1 {
            return false;
        }
    }
    found.next().is_none() && rest.is_empty()
}
