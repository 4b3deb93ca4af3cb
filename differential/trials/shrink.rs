//! The smallest failing request that leaving out settings and bales, and a smaller graph, lead to.

use crate::shrink::{self, runs};
use oracle::call::Call;
use oracle::trials::Trials;

/// The report keeps what it has over, or lacks of, two numbers a setting.
fn with_settings(request: &Trials, settings: Vec<u32>) -> Trials {
    let mut less = Trials { settings, ..request.clone() };
    less.report = (request.report + less.report_needed()).saturating_sub(request.report_needed());
    less
}

fn without_settings(request: &Trials) -> impl Iterator<Item = Trials> {
    runs(request.setting_count()).map(|gone| {
        let mut settings = request.settings.clone();
        settings.drain(3 * gone.start..3 * gone.end);
        with_settings(request, settings)
    })
}

fn without_rest(request: &Trials) -> Option<Trials> {
    let read = 3 * request.setting_count();
    (read < request.settings.len()).then(|| with_settings(request, request.settings[..read].to_vec()))
}

fn with_fewer_bales(request: &Trials) -> impl Iterator<Item = Trials> {
    let fewer = [request.bales / 2, request.bales.saturating_sub(1)].into_iter().filter(|&fewer| fewer < request.bales);
    fewer.map(|bales| Trials { bales, ..request.clone() })
}

/// Settings and bales first: each takes its runs away with it.
pub fn shrink(request: &Trials, fails: impl Fn(&Trials) -> bool) -> Trials {
    let mut least = request.clone();
    loop {
        let found = without_settings(&least).chain(with_fewer_bales(&least)).chain(without_rest(&least)).find(&fails);
        let Some(less) = found else {
            break;
        };
        least = less;
    }
    let of_call = |call: &Call| Trials { call: call.clone(), ..least.clone() };
    of_call(&shrink::shrink(&least.call, |call| fails(&of_call(call))))
}
