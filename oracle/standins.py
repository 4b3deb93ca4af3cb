#!/usr/bin/env python3
"""Write the reference Rust, with its stand-ins in place, to a folder.

    standins.py [CHECKOUT] OUTDIR

Every edit names its file, the text it looks for and how often that text must
occur. A checkout in which a count differs is not the one these edits were
written for, so that is an error and nothing is written.
"""

import sys
from pathlib import Path

DEFAULT_CHECKOUT = Path(__file__).resolve().parents[1] / "../shared/docs/src"

ARRAYS = "array_utils.rs"
NODE = "node.rs"
TREE = "convolution_tree.rs"
GRAPH = "factor_graph.rs"
MESSAGES = "messages.rs"
CALIBRATE = "zero_lookahead_belief_propagation.rs"
FILES = [ARRAYS, NODE, TREE, GRAPH, MESSAGES, CALIBRATE]

TRAIT = "use crate::standins::FloatStandIns as _;"
NO_FFT = 'unreachable!("only direct convolutions")'

# (file, old text, new text, how often it must occur)
SWAPS = [
    # The table comes from document 01's rule, not from a build script.
    (ARRAYS, 'include!(concat!(env!("OUT_DIR"), "/log_table.rs"));',
     "use crate::log_table::{LOG_TABLE, LOG_TABLE_BITS};\n" + TRAIT, 1),
    (ARRAYS, "array.iter().sum()", "array.iter().fold(0.0, |sum, term| sum + term)", 1),
    (ARRAYS, ".ln()", ".table_ln()", 1),
    (ARRAYS, ".exp()", ".series_exp()", 4),
    # serde is not to be had; its derives go.
    (NODE, "use serde::{Serialize, Deserialize};", TRAIT, 1),
    (NODE, ", Serialize, Deserialize", "", 2),
    (NODE, ".powi(", ".halving_powi(", 2),
    (GRAPH, "use serde::{Serialize, Deserialize};", "", 1),
    (GRAPH, ", Serialize, Deserialize", "", 2),
    (TREE, "MAX_LEN: usize = 64;", "MAX_LEN: usize = crate::limits::DIRECT_CONVOLUTION_MAX_LEN;", 1),
    (TREE, ".sum())", ".fold(0.0, |sum: f32, term: f32| sum + term))", 1),
    # Without the FFT's branch the type is no longer inferred.
    (TREE, "let mut result = if", "let mut result: Vec<f32> = if", 1),
    # The queue with document 01's order.
    (MESSAGES, "use priority_queue::PriorityQueue;", "use crate::queue::PriorityQueue;", 1),
    (MESSAGES, "use ordered_float::OrderedFloat;", "use crate::queue::OrderedFloat;\n" + TRAIT, 1),
    (MESSAGES, ".ln()", ".table_ln()", 12),
    # A factor's message is stored between c and 1.
    (MESSAGES, "Ok([out_message[0], out_message[1]])",
     "Ok(crate::standins::clamped_pair([out_message[0], out_message[1]]))", 1),
    (MESSAGES, "Ok(out_message)", "Ok(crate::standins::clamped(out_message))", 1),
]

# (file, old text, text put behind it, how often it must occur)
HOOKS = [
    (MESSAGES, "self.msg_in_log = self.msg_in.clone();", "crate::hooks::event(&self.msg_in);", 1),
    (MESSAGES, "self.msg_in_new = temp;", "crate::hooks::event(&self.msg_in);", 1),
    (MESSAGES, "k += 1;", "crate::hooks::event(&self.msg_in);", 1),
    (MESSAGES, "// marginalize once the model has converged",
     "crate::hooks::end(k, max_loops, max_residual, tolerance, self.priorities.is_empty());", 1),
]

# (file, text in the first line cut, text in the first line kept after it or
#  None for the end of the file, how many lines are cut, text put there)
CUTS = [
    # GraphML reading goes with quick-xml.
    (GRAPH, "use quick_xml::events", "use std::collections", 2, ""),
    (GRAPH, "Parses an XML `<edge>` element", "/// Adds factor nodes for all input nodes", 115, ""),
    # Every convolution is direct, so the FFT goes with rustfft.
    (TREE, "use std::cell::RefCell", "use crate::array_utils", 2, ""),
    (TREE, "thread_local! {", "#[derive(Debug, Clone)]", 5, ""),
    (TREE, "let starting_point", "};", 7, NO_FFT),
    (TREE, "fft_convolve(a, b,", "}", 1, NO_FFT),
    (TREE, "/// Performs FFT-based convolution", None, 31, ""),
]


class Mismatch(Exception):
    """The checkout is not the one the edits were written for."""


def expect(file, what, found, wanted):
    if found != wanted:
        raise Mismatch(f"{file}: {what}: found {found}, wanted {wanted}")


def cut(file, text, first, kept, count, new):
    lines = text.split("\n")
    starts = [i for i, line in enumerate(lines) if first in line]
    expect(file, f"lines with {first!r}", len(starts), 1)
    start = starts[0]
    end = len(lines)
    if kept is not None:
        ends = [i for i in range(start + 1, len(lines)) if kept in lines[i]]
        if not ends:
            raise Mismatch(f"{file}: no line with {kept!r} after {first!r}")
        end = ends[0]
    expect(file, f"lines cut at {first!r}", end - start, count)
    return "\n".join(lines[:start] + [new] + lines[end:])


def swap(file, text, old, new, count):
    expect(file, f"{old!r}", text.count(old), count)
    return text.replace(old, new)


def patched(checkout):
    texts = {}
    for file in FILES:
        texts[file] = (checkout / "src" / file).read_text(encoding="utf-8")
    for file, first, kept, count, new in CUTS:
        texts[file] = cut(file, texts[file], first, kept, count, new)
    for file, old, new, count in SWAPS:
        texts[file] = swap(file, texts[file], old, new, count)
    for file, old, behind, count in HOOKS:
        texts[file] = swap(file, texts[file], old, f"{old}\n{behind}", count)
    return texts


def main(arguments):
    if len(arguments) not in (1, 2):
        sys.exit("usage: standins.py [CHECKOUT] OUTDIR")
    checkout = Path(arguments[0]) if len(arguments) == 2 else DEFAULT_CHECKOUT
    outdir = Path(arguments[-1])
    try:
        texts = patched(checkout)
    except (Mismatch, OSError) as error:
        sys.exit(f"standins: {error}")
    outdir.mkdir(parents=True, exist_ok=True)
    for file, text in texts.items():
        (outdir / file).write_text(text, encoding="utf-8")


if __name__ == "__main__":
    main(sys.argv[1:])
