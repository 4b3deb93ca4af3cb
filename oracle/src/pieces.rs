//! Single pieces of the patched Rust, for comparing layer by layer.

pub use crate::array_utils::{
    avoid_underflow, ln_from_table as ln, log_normalize, normalize, sum_logs_batched,
};
use crate::node::{Node, NodeType};

/// The table that a marker of this degree gets.
pub fn noisy_or(degree: usize, alpha: f32, beta: f32, regularised: bool) -> Vec<[f32; 2]> {
    let mut node = Node::new(0, NodeType::Factor { initial_belief: Vec::new() });
    node.fill_in_factor(degree, alpha, beta, regularised);
    match node.get_subtype() {
        NodeType::Factor { initial_belief } => initial_belief.clone(),
        _ => unreachable!("it stays a factor"),
    }
}
