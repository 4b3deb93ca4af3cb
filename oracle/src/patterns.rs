//! All read patterns of a small graph, by document 02. The reference: the lists
//! of reads are built marker by marker, each is a call of the Rust, and a grade
//! without a belief is looked for in each, not got as what is left over.

use std::fmt;

use crate::call::{first_refusal, Call};
use crate::limits::{MOST_GRADES, MOST_PAIRS, MOST_PATTERN_MARKERS};
use crate::reads::{all_weak, is_work_short, present_beliefs, with_reads, work_alone, STRONG, WEAK};
use crate::refusal::Refusal;
use crate::text::write_call;

/// The call's evidence is only counted, and of what it lends only the work is
/// looked at.
#[derive(Clone, Debug)]
pub struct Patterns {
    pub call: Call,
    /// How many numbers the caller's report takes.
    pub report: usize,
}

/// In how many patterns a grade's present belief is above 1/2, is not, and is
/// none.
#[derive(Clone, Copy, Debug, Default, PartialEq, Eq)]
pub struct Standing {
    pub above: u32,
    pub not_above: u32,
    pub none: u32,
    /// Of those not above, exactly 1/2.
    pub half: u32,
}

impl Patterns {
    /// With the least buffers that check 2 takes.
    pub fn new(call: Call) -> Patterns {
        let mut patterns = Patterns { call, report: 0 };
        patterns.lend_needed();
        patterns
    }

    pub fn lend_needed(&mut self) {
        self.call.lent = work_alone(&self.call);
        self.report = self.report_needed();
    }

    pub fn report_needed(&self) -> usize {
        3 * self.call.grades as usize
    }
}

impl fmt::Display for Patterns {
    fn fmt(&self, f: &mut fmt::Formatter) -> fmt::Result {
        writeln!(f, "{}report {}", write_call(&self.call), self.report)
    }
}

/// The report's three numbers of each grade.
pub fn numbers_of(standings: &[Standing]) -> Vec<u32> {
    standings.iter().flat_map(|grade| [grade.above, grade.not_above, grade.none]).collect()
}

/// All lists of so many reads: each shorter one with either read behind it.
pub fn read_lists(markers: usize) -> Vec<Vec<[f32; 2]>> {
    let longer = |reads: &Vec<[f32; 2]>| [STRONG, WEAK].map(|read| [reads.as_slice(), &[read]].concat());
    (0..markers).fold(vec![vec![]], |lists, _| lists.iter().flat_map(longer).collect())
}

/// The first check that fails: 18, 1, 2, then the plain call's own.
pub fn patterns_refusal(request: &Patterns) -> Option<Refusal> {
    let Patterns { call, report } = request;
    let at_0 = |number| Some(Refusal { number, place: 0 });
    if call.marker_count() > MOST_PATTERN_MARKERS {
        return at_0(18);
    }
    if call.grades as usize > MOST_GRADES || call.pair_count() > MOST_PAIRS {
        return at_0(1);
    }
    if is_work_short(call) || *report < request.report_needed() {
        return at_0(2);
    }
    first_refusal(&all_weak(call))
}

/// One pattern's belief in a grade, if it has one.
fn stand(standing: &mut Standing, present: Option<&f32>) {
    match present {
        None => standing.none += 1,
        Some(&present) if present > 0.5 => standing.above += 1,
        Some(&present) => {
            standing.not_above += 1;
            standing.half += u32::from(present == 0.5);
        }
    }
}

pub fn count_patterns(request: &Patterns) -> Result<Vec<Standing>, Refusal> {
    if let Some(refusal) = patterns_refusal(request) {
        return Err(refusal);
    }
    let graph = &request.call;
    let mut standings = vec![Standing::default(); graph.grades as usize];
    for reads in read_lists(graph.marker_count()) {
        let present = present_beliefs(&with_reads(graph, &reads));
        (0..).zip(&mut standings).for_each(|(grade, standing)| stand(standing, present.get(&grade)));
    }
    Ok(standings)
}
