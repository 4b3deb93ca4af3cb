//! The reference Rust with document 01's stand-ins, behind document 01's call,
//! and references for document 02's shifts, belts, read patterns, made-up bales and
//! tonnage.

pub mod alone;
pub mod bale;
pub mod belt;
pub mod call;
pub mod faults;
pub mod faults_of_belts;
mod faults_of_csv;
pub mod faults_of_patterns;
pub mod faults_of_trials;
pub mod generate;
pub mod generate_based_files;
pub mod generate_belts;
pub mod generate_files;
pub mod generate_mornings;
pub mod generate_patterns;
pub mod generate_shifts;
pub mod generate_trials;
pub mod graph;
pub mod hooks;
pub mod limits;
pub mod listed_patterns;
pub mod listed_trials;
pub mod log_table;
pub mod longest;
pub mod patterns;
pub mod pieces;
pub mod queue;
pub mod random;
pub mod reads;
pub mod refusal;
pub mod selfcheck;
mod selfcheck_base_rates;
mod selfcheck_belts;
mod selfcheck_calls;
mod selfcheck_patterns;
mod selfcheck_tonnage;
mod selfcheck_trial_refusals;
mod selfcheck_trials;
pub mod shapes;
pub mod shift;
pub mod standins;
pub mod text;
pub mod tonnage;
pub mod tree;
pub mod trials;
pub mod wide;
mod wrong_tonnage;

// The patched sources of the checkout; not all of them is called here.
#[allow(unused)]
mod array_utils;
#[allow(unused)]
mod convolution_tree;
#[allow(unused)]
mod factor_graph;
#[allow(unused)]
mod messages;
#[allow(unused)]
mod node;
#[allow(unused)]
mod zero_lookahead_belief_propagation;
