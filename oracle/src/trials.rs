//! Settings tried on made-up bales, by document 02. The reference: the generator is
//! an endless list of numbers got by products and remainders, a marker's grades are
//! looked for among all pairs, each made-up bale is a call of the Rust, and a
//! grade's belief is looked for in its answer.

use std::fmt;
use std::iter::{once, successors};

use crate::call::{first_refusal, Call, Settings};
use crate::limits::{MOST_BALES, MOST_GRADES, MOST_MARKERS, MOST_PAIRS, MOST_SETTINGS};
use crate::reads::{all_weak, is_work_short, present_beliefs, with_reads, work_alone, STRONG, WEAK};
use crate::refusal::Refusal;
use crate::text::write_call;

/// Of the call neither alpha, beta, prior nor an evidence float is read, and of what
/// it lends only the work is looked at.
#[derive(Clone, Debug)]
pub struct Trials {
    pub call: Call,
    /// Three whole numbers each; a rest of one or two is not read.
    pub settings: Vec<u32>,
    pub seed: u32,
    pub bales: u32,
    /// How many numbers the caller's report takes.
    pub report: usize,
}

/// In 1,024ths.
#[derive(Clone, Copy, Debug)]
pub struct Setting {
    pub alpha: u32,
    pub beta: u32,
    pub prior: u32,
}

/// Which grades were drawn as present, and which markers are strongly read.
#[derive(Clone, Debug, PartialEq, Eq)]
pub struct MadeUp {
    pub present: Vec<bool>,
    pub strong: Vec<bool>,
}

/// Over all bales of a setting: beliefs that agree with the draw, and that do not.
#[derive(Clone, Copy, Debug, Default, PartialEq, Eq)]
pub struct Agreement {
    pub agreed: u32,
    pub not_agreed: u32,
    /// Of both, exactly 1/2.
    pub half: u32,
}

impl Trials {
    /// With the least buffers that check 2 takes.
    pub fn new(call: Call, settings: Vec<u32>, seed: u32, bales: u32) -> Trials {
        let mut trials = Trials { call, settings, seed, bales, report: 0 };
        trials.lend_needed();
        trials
    }

    pub fn lend_needed(&mut self) {
        self.call.lent = work_alone(&self.call);
        self.report = self.report_needed();
    }

    pub fn setting_count(&self) -> usize {
        self.settings.len() / 3
    }

    pub fn report_needed(&self) -> usize {
        2 * self.setting_count()
    }

    pub fn settings(&self) -> impl Iterator<Item = Setting> {
        self.settings.chunks_exact(3).map(|parts| Setting { alpha: parts[0], beta: parts[1], prior: parts[2] })
    }
}

impl fmt::Display for Trials {
    fn fmt(&self, f: &mut fmt::Formatter) -> fmt::Result {
        let Trials { call, settings, seed, bales, report } = self;
        write!(f, "{}seed {seed} bales {bales} report {report}\nin 1,024ths {}", write_call(call), settings.len())?;
        settings.iter().try_for_each(|part| write!(f, " {part}"))?;
        writeln!(f)
    }
}

/// The report's two numbers of each setting.
pub fn numbers_of(agreements: &[Agreement]) -> Vec<u32> {
    agreements.iter().flat_map(|setting| [setting.agreed, setting.not_agreed]).collect()
}

/// Shifts of 32 bits, by products and quotients: left 13, right 17, left 5.
pub fn next_number(x: u32) -> u32 {
    const ALL: u64 = 1 << 32;
    let x = u64::from(x);
    let x = x ^ x * (1 << 13) % ALL;
    let x = x ^ x / (1 << 17);
    (x ^ x * (1 << 5) % ALL) as u32
}

/// All that is drawn from a seed, which is not itself drawn.
pub fn numbers_from(seed: u32) -> impl Iterator<Item = u32> {
    successors(Some(seed), |&x| Some(next_number(x))).skip(1)
}

/// One bale, by the next numbers. A marker's draws are all made before any is looked at.
pub fn made_up(graph: &Call, setting: Setting, numbers: &mut impl Iterator<Item = u32>) -> MadeUp {
    let mut succeeds = |limit: u32| numbers.next().is_some_and(|number| number % 1024 < limit);
    let present: Vec<bool> = (0..graph.grades).map(|_| succeeds(setting.prior)).collect();
    let mut read = |marker: usize| {
        let showing = |pair: &&[u32]| pair[1] as usize == marker && present[pair[0] as usize];
        let alphas = graph.pairs.chunks_exact(2).filter(showing).map(|_| setting.alpha);
        let draws: Vec<bool> = once(setting.beta).chain(alphas).map(&mut succeeds).collect();
        draws.contains(&true)
    };
    let strong = (0..graph.marker_count()).map(&mut read).collect();
    MadeUp { present, strong }
}

/// The bales of a setting, each going on with the numbers where the one before it ended.
pub fn history(graph: &Call, setting: Setting, seed: u32, bales: u32) -> Vec<MadeUp> {
    let mut numbers = numbers_from(seed);
    (0..bales).map(|_| made_up(graph, setting, &mut numbers)).collect()
}

/// The plain call of a made-up bale.
pub fn call_of(graph: &Call, setting: Setting, bale: &MadeUp) -> Call {
    let reads: Vec<[f32; 2]> = bale.strong.iter().map(|&strong| if strong { STRONG } else { WEAK }).collect();
    let [alpha, beta, prior] = [setting.alpha, setting.beta, setting.prior].map(|part| part as f32 / 1024.0);
    let call = with_reads(graph, &reads);
    Call { settings: Settings { alpha, beta, prior, ..call.settings }, ..call }
}

/// The first check that fails: 16, 17, 1, 2, 3, then the plain call's own.
pub fn trials_refusal(request: &Trials) -> Option<Refusal> {
    let call = &request.call;
    let at = |number, place: usize| Some(Refusal { number, place: place as u32 });
    if request.seed == 0 {
        return at(16, 0);
    }
    if request.setting_count() > MOST_SETTINGS || request.bales > MOST_BALES {
        return at(17, 0);
    }
    if call.grades as usize > MOST_GRADES || call.marker_count() > MOST_MARKERS || call.pair_count() > MOST_PAIRS {
        return at(1, 0);
    }
    if is_work_short(call) || request.report < request.report_needed() {
        return at(2, 0);
    }
    let read = &request.settings[..3 * request.setting_count()];
    if let Some(place) = read.iter().position(|part| !(1..=1023).contains(part)) {
        return at(3, place);
    }
    let halves = Settings { alpha: 0.5, beta: 0.5, prior: 0.5, ..call.settings.clone() };
    first_refusal(&all_weak(&Call { settings: halves, ..call.clone() }))
}

fn agreement(graph: &Call, setting: Setting, history: &[MadeUp]) -> Agreement {
    let mut found = Agreement::default();
    for bale in history {
        let beliefs = present_beliefs(&call_of(graph, setting, bale));
        for (grade, &drawn) in (0..).zip(&bale.present) {
            let Some(&belief) = beliefs.get(&grade) else { continue };
            let side = if (belief > 0.5) == drawn { &mut found.agreed } else { &mut found.not_agreed };
            *side += 1;
            found.half += u32::from(belief == 0.5);
        }
    }
    found
}

pub fn try_settings(request: &Trials) -> Result<Vec<Agreement>, Refusal> {
    if let Some(refusal) = trials_refusal(request) {
        return Err(refusal);
    }
    let graph = &request.call;
    let tried = |setting| agreement(graph, setting, &history(graph, setting, request.seed, request.bales));
    Ok(request.settings().map(tried).collect())
}
