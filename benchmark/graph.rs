// Compares the checks, the built graph and its components with the Rust's own, call by call, and times building and cutting beside the
// Rust at the limits, in one process. Run by benchmark/graph.
use oracle::call::{Call, Lent, first_refusal};
use oracle::generate::{accepted_call, any_call, limits_call};
use oracle::graph::{self, Component, ComponentEdge, ComponentNode};
use oracle::random::Random;
use oracle::shapes::{Graph, Room, complete, random_pairs};
use std::hint::black_box;
use std::time::Instant;

#[repr(C)]
struct Reply {
    number: u32,
    place: u32,
    count: u32,
    end: u32,
}

#[link(name = "bench", kind = "static")]
unsafe extern "C" {
    fn cut_graph(
        alpha: f32,
        beta: f32,
        prior: f32,
        regularised: bool,
        tolerance: f32,
        loop_limit: u32,
        grades: u32,
        evidence: *const f32,
        evidence_len: usize,
        pairs: *const u32,
        pairs_len: usize,
        words: *mut u32,
        words_len: usize,
    ) -> Reply;
}

fn cut(call: &Call, words: &mut [u32]) -> Reply {
    let s = &call.settings;
    unsafe {
        cut_graph(
            s.alpha,
            s.beta,
            s.prior,
            s.regularised,
            s.tolerance,
            s.loop_limit,
            call.grades,
            call.evidence.as_ptr(),
            call.evidence.len(),
            call.pairs.as_ptr(),
            call.pairs.len(),
            words.as_mut_ptr(),
            words.len(),
        )
    }
}

// ---- a record in words

struct Reader<'a> {
    words: &'a [u32],
    at: usize,
}

impl Reader<'_> {
    fn take(&mut self, count: usize) -> Vec<u32> {
        self.at += count;
        self.words[self.at - count..self.at].to_vec()
    }

    fn component(&mut self) -> Component {
        let counts = self.take(2);
        let (n, e) = (counts[0] as usize, counts[1] as usize);
        let (kinds, labels, first) = (self.take(n), self.take(n), self.take(n + 1));
        let slots = self.take(first[n] as usize);
        let nodes = (0..n)
            .map(|v| ComponentNode {
                kind: kinds[v],
                label: labels[v],
                edges: slots[first[v] as usize..first[v + 1] as usize].to_vec(),
            })
            .collect();
        let edge = |w: &[u32]| ComponentEdge {
            ends: [w[0], w[1]],
            places: [w[2], w[3]],
            message_length: w[4],
        };
        let edges = self.take(5 * e).chunks_exact(5).map(edge).collect();
        Component { nodes, edges }
    }
}

const UNTOUCHED: u32 = 0xA5C3_5A3C;

// The answer and all the words as they must be: on a refusal no word changes; else behind the built graph the scratch is 0, then come the
// components, and the rest stays as it was.
fn agrees(call: &Call) -> bool {
    let mut words = vec![UNTOUCHED; call.lent.work_words];
    let reply = cut(call, &mut words);
    if let Some(refusal) = first_refusal(call) {
        let same = words.iter().all(|&word| word == UNTOUCHED);
        return same && (reply.number, reply.place) == (refusal.number, refusal.place);
    }
    let mut reader = Reader { words: &words, at: 0 };
    let built = reader.component();
    let scratch = reader.take(2 * built.nodes.len() + built.edges.len());
    let found: Vec<Component> = (0..reply.count).map(|_| reader.component()).collect();
    let mut given = graph::given(call.grades as usize, call.marker_count(), &call.pairs);
    let components = given.cut().components();
    reply.number == 0
        && found == components
        && built == given.whole()
        && scratch.iter().all(|&word| word == 0)
        && reader.at == reply.end as usize
        && words[reader.at..].iter().all(|&word| word == UNTOUCHED)
}

// Only the words are lent: the other buffers pass.
fn words_alone(mut call: Call) -> Call {
    let work_words = call.lent.work_words;
    call.lent = Lent { work_floats: work_words, work_words, ..Lent::needed(1024, 1024, 8192) };
    call
}

fn compare(name: &str, count: u64, draw: impl Fn(&mut Random) -> Call) -> bool {
    let (mut differ, mut refused) = (0, 0);
    for seed in 0..count {
        let call = words_alone(draw(&mut Random::new(seed)));
        refused += u64::from(first_refusal(&call).is_some());
        differ += u64::from(!agrees(&call));
    }
    println!("{name}: {count} calls, {refused} of them refused; {differ} differ");
    differ == 0
}

// ---- times

fn median(mut v: Vec<f64>) -> f64 {
    v.sort_by(|a, b| a.total_cmp(b));
    v[v.len() / 2]
}

// A call that is accepted, with this graph.
fn call_of(graph: &Graph) -> Call {
    let mut call = accepted_call(&mut Random::new(1));
    call.grades = graph.grades as u32;
    call.evidence = vec![0.5; 2 * graph.markers];
    call.pairs = graph.pairs.iter().flat_map(|&(g, m)| [g as u32, m as u32]).collect();
    call.lent = Lent::needed(graph.grades, graph.markers, graph.pairs.len());
    call
}

// Ours with the checks; the Rust from the given graph on.
fn time(name: &str, graph: &Graph) -> bool {
    const ROUNDS: usize = 21;
    let call = call_of(graph);
    let mut words = vec![0; call.lent.work_words];
    let (mut proved, mut rust) = (vec![], vec![]);
    for _ in 0..ROUNDS {
        let start = Instant::now();
        let reply = cut(black_box(&call), black_box(&mut words));
        proved.push(start.elapsed().as_nanos() as f64 / 1000.0);
        assert!(reply.number == 0);
        let mut given = graph::given(graph.grades, graph.markers, &call.pairs);
        let start = Instant::now();
        let cut = black_box(&mut given).cut();
        rust.push(start.elapsed().as_nanos() as f64 / 1000.0);
        black_box(cut);
    }
    let (p, r) = (median(proved), median(rust));
    println!("{name}: {p:.1} us, in Rust {r:.1} us, {:.1} times", r / p);
    agrees(&call)
}

fn main() {
    let full = Room {
        grades: 1024,
        markers: 1024,
        pairs: 8192,
        grades_of_a_marker: 64,
    };
    let random = random_pairs(&mut Random::new(7), full);
    let alike = compare("accepted", 10_000, accepted_call)
        & compare("with faults", 10_000, any_call)
        & compare("at the limits", 400, limits_call)
        & time("1,024 grades, 1,024 markers, 8,192 pairs at random", &random)
        & time("1 grade, 1,024 markers", &complete(1, 1024))
        & time("128 markers of 64 grades", &complete(64, 128));
    if !alike {
        std::process::exit(1);
    }
}
