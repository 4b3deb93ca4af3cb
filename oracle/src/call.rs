//! The general call: settings, graph and the sizes of the lent buffers in,
//! a refusal or the beliefs and endings out, computed by the Rust.

use crate::factor_graph::{CTFactorGraph, Edge};
pub use crate::hooks::{Bounds, Ending};
use crate::messages::Messages;
use crate::node::{Node, NodeType};
pub use crate::refusal::{first_refusal, Refusal};

#[derive(Clone, Debug)]
pub struct Settings {
    pub alpha: f32,
    pub beta: f32,
    pub prior: f32,
    pub regularised: bool,
    pub tolerance: f32,
    pub loop_limit: u32,
}

/// How many entries each buffer of the caller has.
#[derive(Clone, Debug, PartialEq, Eq)]
pub struct Lent {
    pub work_floats: usize,
    pub work_words: usize,
    pub belief_numbers: usize,
    pub belief_floats: usize,
    pub ending_numbers: usize,
    pub ending_floats: usize,
}

impl Lent {
    /// The least sizes that check 2 takes.
    pub fn needed(grades: usize, markers: usize, pairs: usize) -> Lent {
        let work = 64 * (grades + markers + pairs) + 4096;
        Lent {
            work_floats: work,
            work_words: work,
            belief_numbers: grades,
            belief_floats: 2 * grades,
            ending_numbers: 4 * grades,
            ending_floats: grades,
        }
    }
}

/// A marker is two evidence floats, a pair two words, grade then marker; an odd
/// last entry is not read.
#[derive(Clone, Debug)]
pub struct Call {
    pub settings: Settings,
    pub grades: u32,
    pub evidence: Vec<f32>,
    pub pairs: Vec<u32>,
    pub lent: Lent,
}

impl Call {
    pub fn marker_count(&self) -> usize {
        self.evidence.len() / 2
    }

    pub fn pair_count(&self) -> usize {
        self.pairs.len() / 2
    }
}

#[derive(Clone, Debug)]
pub struct Belief {
    pub grade: u32,
    pub absent: f32,
    pub present: f32,
}

/// What the answer holds of a part of over 2 nodes.
#[derive(Clone, Debug)]
pub struct PartEnding {
    pub part: u32,
    pub ending: Ending,
    pub steps: u32,
    pub beliefs: u32,
}

#[derive(Clone, Debug)]
pub enum Outcome {
    Refused(Refusal),
    Answered { beliefs: Vec<Belief>, endings: Vec<PartEnding> },
}

/// One call of the library: the checks, then the run of every part.
pub fn call(call: &Call) -> Outcome {
    if let Some(refusal) = first_refusal(call) {
        return Outcome::Refused(refusal);
    }
    let mut beliefs = Vec::new();
    let mut endings = Vec::new();
    for (part, subgraph) in parts(call).iter().enumerate() {
        if subgraph.node_count() > 2 {
            endings.push(run(call, part, subgraph, &mut beliefs));
        }
    }
    Outcome::Answered { beliefs, endings }
}

/// The same call with the bounds over all its events; none if it has no event.
pub fn call_with_bounds(request: &Call) -> (Outcome, Option<Bounds>) {
    crate::hooks::record_bounds();
    let outcome = call(request);
    let bounds = crate::hooks::recorded_bounds().filter(|bounds| bounds.events > 0);
    (outcome, bounds)
}

/// The parts in the order walked, filled in and with their trees.
pub(crate) fn parts(call: &Call) -> Vec<CTFactorGraph> {
    let settings = &call.settings;
    let mut graph = given_graph(call);
    graph.add_factor_nodes();
    graph.fill_in_factors(settings.alpha, settings.beta, settings.regularised);
    graph.fill_in_priors(settings.prior);
    graph.add_ct_nodes();
    graph.connected_components()
}

/// Grades, then markers; a grade's name is its number.
fn given_graph(call: &Call) -> CTFactorGraph {
    let grades = call.grades as usize;
    let mut nodes = Vec::new();
    for grade in 0..grades {
        let subtype = NodeType::Variable { output: true, name: grade.to_string(), initial_belief: [0.0; 2] };
        nodes.push(Node::new(grade, subtype));
    }
    for entries in call.evidence.chunks_exact(2) {
        let initial_belief = [entries[0], entries[1]];
        let subtype = NodeType::Variable { output: false, name: String::new(), initial_belief };
        nodes.push(Node::new(nodes.len(), subtype));
    }
    let mut edges = Vec::new();
    for pair in call.pairs.chunks_exact(2) {
        join(&mut nodes, &mut edges, pair[0] as usize, grades + pair[1] as usize);
    }
    CTFactorGraph::new(nodes, edges)
}

/// Each end's place in the other's list is that list's length so far.
pub(crate) fn join(nodes: &mut [Node], edges: &mut Vec<Edge>, grade: usize, marker: usize) {
    let id = edges.len();
    let in_marker = nodes[marker].neighbors_count();
    let in_grade = nodes[grade].neighbors_count();
    edges.push(Edge::new(id, grade, marker, in_marker, in_grade, None));
    nodes[grade].add_incident_edge(id);
    nodes[marker].add_incident_edge(id);
}

/// What `calibrate_all_subgraphs` does for one part, and how it ended.
fn run(call: &Call, part: usize, subgraph: &CTFactorGraph, beliefs: &mut Vec<Belief>) -> PartEnding {
    let settings = &call.settings;
    let found = Messages::new(subgraph)
        .zero_lookahead_bp(settings.loop_limit, settings.tolerance)
        .expect("the Rust answers every accepted graph");
    for (name, values) in &found {
        let grade = name.parse().expect("a grade's name is its number");
        beliefs.push(Belief { grade, absent: values[0], present: values[1] });
    }
    let (ending, steps) = crate::hooks::ending();
    PartEnding { part: part as u32, ending, steps, beliefs: found.len() as u32 }
}
