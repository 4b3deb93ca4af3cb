//! The built graph and its components, as the Rust builds and cuts them, with no beliefs filled in.

use crate::factor_graph::{CTFactorGraph, Edge};
use crate::node::{Node, NodeType};

/// A component by numbers.
#[derive(Clone, Debug, PartialEq, Eq)]
pub struct Component {
    pub nodes: Vec<ComponentNode>,
    pub edges: Vec<ComponentEdge>,
}

/// Kind 0 is a grade, 1 a factor, 2 an input, 3 a tree; the label is the grade's or the marker's number.
#[derive(Clone, Debug, PartialEq, Eq)]
pub struct ComponentNode {
    pub kind: u32,
    pub label: u32,
    pub edges: Vec<u32>,
}

/// The two ends, the place of the second in the first's list and of the first in the second's, and the messages' length.
#[derive(Clone, Debug, PartialEq, Eq)]
pub struct ComponentEdge {
    pub ends: [u32; 2],
    pub places: [u32; 2],
    pub message_length: u32,
}

/// The graph as it is given: grades, then markers, each named by its number.
pub struct Given(CTFactorGraph);

/// What the Rust cuts it into.
pub struct Cut(Vec<CTFactorGraph>);

pub fn given(grades: usize, markers: usize, pairs: &[u32]) -> Given {
    let node = |id: usize, output: bool, name: usize| {
        Node::new(id, NodeType::Variable { output, name: name.to_string(), initial_belief: [0.5; 2] })
    };
    let mut nodes: Vec<Node> = (0..grades).map(|g| node(g, true, g)).collect();
    nodes.extend((0..markers).map(|m| node(grades + m, false, m)));
    let mut edges = Vec::new();
    for pair in pairs.chunks_exact(2) {
        crate::call::join(&mut nodes, &mut edges, pair[0] as usize, grades + pair[1] as usize);
    }
    Given(CTFactorGraph::new(nodes, edges))
}

impl Given {
    /// The Rust's own building and cutting.
    pub fn cut(&mut self) -> Cut {
        self.0.add_factor_nodes();
        self.0.add_ct_nodes();
        Cut(self.0.connected_components())
    }

    /// The whole graph, by its numbers.
    pub fn whole(&self) -> Component {
        component(&self.0)
    }
}

impl Cut {
    pub fn components(&self) -> Vec<Component> {
        self.0.iter().map(component).collect()
    }
}

pub fn components(grades: usize, markers: usize, pairs: &[u32]) -> Vec<Component> {
    given(grades, markers, pairs).cut().components()
}

fn kind(node: &Node) -> u32 {
    match node.get_subtype() {
        NodeType::Variable { output: true, .. } => 0,
        NodeType::Factor { .. } => 1,
        NodeType::Variable { output: false, .. } => 2,
        NodeType::ConvolutionTree => 3,
    }
}

/// A factor has no name: its input's is the marker's. A tree's factor is its first neighbour.
fn label(graph: &CTFactorGraph, node: &Node) -> u32 {
    match kind(node) {
        0 | 2 => node.get_name().unwrap().parse().unwrap(),
        1 => {
            let input = |id: &usize| kind(graph.get_node(*id)) == 2;
            let mut inputs = graph.get_neighbors(node).filter(input);
            label(graph, graph.get_node(inputs.next().expect("a factor has an input")))
        }
        _ => label(graph, graph.get_node(graph.get_neighbor_node_id(node, 0))),
    }
}

fn component(graph: &CTFactorGraph) -> Component {
    let node = |node: &Node| ComponentNode {
        kind: kind(node),
        label: label(graph, node),
        edges: node.get_incident_edges().map(|edge| edge as u32).collect(),
    };
    let edge = |edge: &Edge| {
        let ((node1, node1_in_node2), (node2, node2_in_node1)) = edge.get_node_and_neighbor_ids();
        ComponentEdge {
            ends: [node1 as u32, node2 as u32],
            places: [node2_in_node1 as u32, node1_in_node2 as u32],
            message_length: edge.get_message_length().unwrap_or(2) as u32,
        }
    };
    Component { nodes: graph.get_nodes().iter().map(node).collect(), edges: graph.get_edges().iter().map(edge).collect() }
}
