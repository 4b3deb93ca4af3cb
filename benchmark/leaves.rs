// Times ln_from_table, exp, log_normalize and powi beside the Rust's own with document 01's stand-ins, in one process, on the same
// inputs, and checks that every result agrees bit for bit. Run by benchmark/leaves.
use oracle::random::Random;
use oracle::{pieces, standins};
use std::hint::black_box;
use std::time::Instant;

#[link(name = "bench", kind = "static")]
unsafe extern "C" {
    // 0 is ln_from_table, 1 exp, 2 log_normalize, 3 + n the power n
    fn leaf_all(which: u32, xs: *mut f32, len: usize);
}

fn rust_ln_all(xs: &mut [f32]) {
    for x in xs {
        *x = pieces::ln(*x);
    }
}

fn rust_exp_all(xs: &mut [f32]) {
    for x in xs {
        *x = standins::exp(*x);
    }
}

fn rust_log_normalize_all(xs: &mut [f32]) {
    for x in xs {
        let mut m = [*x, 0.0];
        pieces::log_normalize(&mut m);
        *x = m[0] - m[1];
    }
}

fn rust_powi_all(exponent: u32) -> impl Fn(&mut [f32]) {
    move |xs| {
        for x in xs {
            *x = standins::powi(1.0, *x, exponent);
        }
    }
}

// from 0 up to 1
fn unit(random: &mut Random) -> f32 {
    (random.next() >> 40) as f32 / 16777216.0
}

fn nanoseconds(inputs: &[f32], f: impl Fn(&mut [f32])) -> (f64, Vec<f32>) {
    let mut xs = inputs.to_vec();
    let start = Instant::now();
    f(black_box(&mut xs));
    (start.elapsed().as_nanos() as f64 / xs.len() as f64, xs)
}

fn median(mut v: Vec<f64>) -> f64 {
    v.sort_by(|a, b| a.total_cmp(b));
    v[v.len() / 2]
}

fn differing(a: &[f32], b: &[f32]) -> usize {
    a.iter()
        .zip(b)
        .filter(|(x, y)| x.to_bits() != y.to_bits())
        .count()
}

// Each exponent that a table can have with each base that a setting gives, and exponents of up to 31 bits with bases of any bits but NaN's.
fn compare_powers(random: &mut Random, proved: impl Fn(u32, &mut [f32])) -> bool {
    let settings: Vec<f32> = (1..1024).map(|k| k as f32 / 1024.0).collect();
    let any: Vec<f32> = (0..1024)
        .map(|_| f32::from_bits(random.next() as u32))
        .filter(|x| !x.is_nan())
        .collect();
    let wide = (0..1024).map(|k| random.next() as u32 >> (k % 32) & 0x7fff_ffff);
    let calls = (0..130).map(|n| (n, &settings)).chain(wide.map(|n| (n, &any)));
    let (mut made, mut differ) = (0, 0);
    for (exponent, bases) in calls {
        let (mut a, mut b) = (bases.clone(), bases.clone());
        proved(exponent, &mut a);
        rust_powi_all(exponent)(&mut b);
        made += bases.len();
        differ += differing(&a, &b);
    }
    println!("powi: {differ} of {made} differ");
    differ == 0
}

fn compare(
    name: &str,
    inputs: &[f32],
    rounds: usize,
    proved: impl Fn(&mut [f32]),
    rust: impl Fn(&mut [f32]),
) -> bool {
    let (mut p, mut r) = (vec![], vec![]);
    let mut differ = 0;
    for _ in 0..rounds {
        let (t, a) = nanoseconds(inputs, &proved);
        let (u, b) = nanoseconds(inputs, &rust);
        p.push(t);
        r.push(u);
        differ = differing(&a, &b);
    }
    println!(
        "{name}: {:.2} ns a call, in Rust {:.2} ns; {differ} of {} differ",
        median(p),
        median(r),
        inputs.len()
    );
    differ == 0
}

fn main() {
    const CALLS: usize = 1_000_000;
    const ROUNDS: usize = 11;
    let mut random = Random::new(0x9e37_79b9_7f4a_7c15);
    // Any pattern from 0 up to the infinity's, and what counts as the least normal float.
    let mut positive: Vec<f32> = (0..CALLS)
        .map(|_| f32::from_bits(random.next() as u32 % 0x7f80_0001))
        .collect();
    positive[..5].copy_from_slice(&[0.0, -0.0, -1.0, f32::NAN, f32::INFINITY]);
    let below: Vec<f32> = (0..CALLS).map(|_| -90.0 * unit(&mut random)).collect();
    let logarithms: Vec<f32> = (0..CALLS).map(|_| 200.0 * unit(&mut random) - 100.0).collect();
    let shares: Vec<f32> = (0..CALLS)
        .map(|_| (1 + random.next() % 1023) as f32 / 1024.0)
        .collect();
    let leaf =
        |which: u32| move |xs: &mut [f32]| unsafe { leaf_all(which, xs.as_mut_ptr(), xs.len()) };
    let alike = compare("ln_from_table", &positive, ROUNDS, leaf(0), rust_ln_all)
        & compare("exp", &below, ROUNDS, leaf(1), rust_exp_all)
        & compare("log_normalize", &logarithms, ROUNDS, leaf(2), rust_log_normalize_all)
        & compare("powi to the 63", &shares, ROUNDS, leaf(3 + 63), rust_powi_all(63))
        & compare("powi to the 64", &shares, ROUNDS, leaf(3 + 64), rust_powi_all(64))
        & compare_powers(&mut random, |n, xs| leaf(3 + n)(xs));
    if !alike {
        std::process::exit(1);
    }
}
