//! One build of the Rust's convolution tree.

use crate::array_utils::{avoid_underflow, avoid_underflow_arr};
use crate::convolution_tree::ConvolutionTree;
use crate::text::{bits, Reader};

/// What a built tree sends: to its factor, then to each grade, raised to c.
pub struct TreeMessages {
    pub to_factor: Vec<f32>,
    pub to_grades: Vec<[f32; 2]>,
}

pub fn tree_messages(leaves: Vec<[f32; 2]>, factor: Vec<f32>) -> TreeMessages {
    let count = leaves.len();
    let tree = ConvolutionTree::new(factor, leaves).expect("a tree has a leaf");
    let mut to_factor = tree.message_to_shared_likelihood().expect("a tree has a root");
    avoid_underflow(&mut to_factor);
    let to_grade = |leaf| {
        let message = tree.message_to_variable(leaf);
        let mut pair = [message[0], message[1]];
        avoid_underflow_arr(&mut pair);
        pair
    };
    TreeMessages { to_factor, to_grades: (0..count).map(to_grade).collect() }
}

/// The `tree` command: text in, text out.
pub fn tree_text(text: &str) -> Result<String, String> {
    let mut reader = Reader::new(text);
    let leaves = reader.floats("leaves")?;
    let factor = reader.floats("factor")?;
    reader.end()?;
    let leaves: Vec<[f32; 2]> = leaves.chunks_exact(2).map(|pair| [pair[0], pair[1]]).collect();
    if leaves.is_empty() || factor.len() != leaves.len() + 1 {
        return Err("at least one leaf, and one factor entry more than leaves".to_string());
    }
    let messages = tree_messages(leaves, factor);
    let to_factor: Vec<String> = messages.to_factor.iter().map(|&entry| bits(entry)).collect();
    let mut lines = format!("factor {}\n", to_factor.join(" "));
    for [absent, present] in messages.to_grades {
        lines += &format!("grade {} {}\n", bits(absent), bits(present));
    }
    Ok(lines)
}
