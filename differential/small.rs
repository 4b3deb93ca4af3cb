//! All graphs of up to three grades and three markers, with a few settings and evidence values.

use oracle::call::{Call, Lent, Settings};

pub const EVIDENCE: [[f32; 2]; 3] = [[0.5, 0.5], [0.9, 0.1], [0.0625, 0.9375]];

fn settings() -> Vec<Settings> {
    let of = |regularised, tolerance, loop_limit| Settings {
        alpha: 0.75,
        beta: 0.125,
        prior: 0.25,
        regularised,
        tolerance,
        loop_limit,
    };
    vec![of(false, 0.006, 10_000), of(true, 0.006, 10_000), of(false, 0.0, 40), of(false, 0.006, 6), of(true, 0.0, 5)]
}

/// The graph whose pairs are the bits of a number, in the order of the bits or the other way round.
fn pairs(grades: u32, markers: u32, bits: u32, reverse: bool) -> Vec<u32> {
    let mut list: Vec<[u32; 2]> =
        (0..grades * markers).filter(|i| bits >> i & 1 == 1).map(|i| [i / markers, i % markers]).collect();
    if reverse {
        list.reverse();
    }
    list.concat()
}

pub fn calls() -> impl Iterator<Item = Call> {
    let counts = (0..=3).flat_map(|grades| (0..=3).map(move |markers| (grades, markers)));
    let graphs = counts.flat_map(|(g, m)| (0..1u32 << (g * m)).flat_map(move |b| [(g, m, b, false), (g, m, b, true)]));
    graphs.flat_map(|(grades, markers, bits, reverse)| {
        settings().into_iter().flat_map(move |settings| {
            let pairs = pairs(grades, markers, bits, reverse);
            (0..EVIDENCE.len()).map(move |first| Call {
                settings: settings.clone(),
                grades,
                evidence: (0..markers as usize).flat_map(|m| EVIDENCE[(first + m) % EVIDENCE.len()]).collect(),
                pairs: pairs.clone(),
                lent: Lent::needed(grades as usize, markers as usize, pairs.len() / 2),
            })
        })
    })
}
