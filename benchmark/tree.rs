// Compares the convolution tree with the Rust's own, message for message and bit for bit, on random trees of 2 to 128 leaves, and times both
// in one process, on the same inputs. Run by benchmark/tree.
use oracle::random::Random;
use oracle::tree;
use std::hint::black_box;
use std::time::Instant;

#[link(name = "bench", kind = "static")]
unsafe extern "C" {
    // the factor's message, n + 1 floats, and n messages of two floats, in place; zeros behind them
    fn tree_messages(w: *mut f32, len: usize, n: usize);
}

// c: no message has an entry below it.
const LEAST: f32 = 1e-30;
// More than any tree needs behind its messages.
const ROOM: usize = 1279;
// What the scratch holds beforehand, which must not matter, and what lies behind it, which must stay.
const BEFORE: f32 = 7.0;

// from c to 1, log-uniform or uniform
fn entry(random: &mut Random, logarithmic: bool) -> f32 {
    let unit = (random.next() >> 40) as f32 / 16777216.0;
    let entry = if logarithmic { LEAST.powf(unit) } else { unit };
    entry.clamp(LEAST, 1.0)
}

fn messages(random: &mut Random, n: usize, logarithmic: bool) -> Vec<f32> {
    (0..3 * n + 1).map(|_| entry(random, logarithmic)).collect()
}

fn proved(w: &mut [f32], n: usize) {
    unsafe { tree_messages(w.as_mut_ptr(), w.len(), n) }
}

// What the Rust's tree takes: the grades' messages, and the factor's.
fn rust_inputs(messages: &[f32], n: usize) -> (Vec<[f32; 2]>, Vec<f32>) {
    let (factor, grades) = messages.split_at(n + 1);
    let pairs = grades.chunks_exact(2).map(|pair| [pair[0], pair[1]]);
    (pairs.collect(), factor.to_vec())
}

fn agree(messages: &[f32], n: usize) -> bool {
    let mut w = messages.to_vec();
    w.resize(messages.len() + ROOM, BEFORE);
    proved(&mut w, n);
    let (leaves, factor) = rust_inputs(messages, n);
    let expected = tree::tree_messages(leaves, factor);
    let (sent, scratch) = w.split_at(messages.len());
    let cleared = scratch.iter().take_while(|x| x.to_bits() == 0).count();
    let sizes = cleared > 0 && scratch[cleared..].iter().all(|&x| x == BEFORE);
    let mut sent = sent.iter();
    let same = |x: &f32, y: Option<&f32>| y.is_some_and(|y| x.to_bits() == y.to_bits());
    sizes
        && expected.to_factor.iter().all(|x| same(x, sent.next()))
        && expected
            .to_grades
            .iter()
            .flatten()
            .all(|x| same(x, sent.next()))
        && sent.next().is_none()
}

fn median(mut v: Vec<f64>) -> f64 {
    v.sort_by(|a, b| a.total_cmp(b));
    v[v.len() / 2]
}

fn nanoseconds(calls: usize, mut f: impl FnMut()) -> f64 {
    let start = Instant::now();
    for _ in 0..calls {
        f();
    }
    start.elapsed().as_nanos() as f64 / calls as f64
}

// The median of many short rounds of each side. Both are given their messages anew for each build.
fn time(random: &mut Random, n: usize) {
    const CALLS: usize = 50;
    const ROUNDS: usize = 1_001;
    let messages = messages(random, n, false);
    let mut w = messages.clone();
    w.resize(messages.len() + ROOM, BEFORE);
    let (leaves, factor) = rust_inputs(&messages, n);
    let (mut p, mut r) = (vec![], vec![]);
    for _ in 0..ROUNDS {
        p.push(nanoseconds(CALLS, || {
            w[..messages.len()].copy_from_slice(&messages);
            proved(black_box(&mut w), n);
        }));
        r.push(nanoseconds(CALLS, || {
            let inputs = black_box((leaves.clone(), factor.clone()));
            black_box(tree::tree_messages(inputs.0, inputs.1));
        }));
    }
    let (p, r) = (median(p), median(r));
    println!(
        "{n} leaves: {p:.0} ns a build, in Rust {r:.0} ns; ratio {:.3}",
        p / r
    );
}

fn main() {
    const TREES: usize = 8_000;
    let mut random = Random::new(0x9e37_79b9_7f4a_7c15);
    let differ = (0..TREES)
        .filter(|tree| {
            let n = random.within(2, 128);
            let messages = messages(&mut random, n, tree % 2 == 0);
            !agree(&messages, n)
        })
        .count();
    println!("{differ} of {TREES} trees differ");
    time(&mut random, 128);
    time(&mut random, 64);
    time(&mut random, 8);
    if differ > 0 {
        std::process::exit(1);
    }
}
