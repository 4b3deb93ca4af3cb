//! What the benchmarks of the library's calls share: times, medians and the stack.

use std::hint::black_box;
use std::time::Instant;

pub fn milliseconds(work: impl FnOnce()) -> f64 {
    let begun = Instant::now();
    work();
    begun.elapsed().as_nanos() as f64 / 1e6
}

pub fn median(mut times: Vec<f64>) -> f64 {
    times.sort_by(f64::total_cmp);
    times[times.len() / 2]
}

const PAINT: u8 = 0xC5;
const PAINTED: usize = 2 << 20;
/// Left unpainted for the painting's own frame, and counted as used.
const MARGIN: usize = 256;

/// How many bytes below this frame the work writes: the stack there is painted, and what is left of the paint is counted.
#[inline(never)]
fn stack_of(work: impl FnOnce()) -> usize {
    let here = 0u8;
    let top = &raw const here as usize - MARGIN;
    let bottom = top - PAINTED;
    for at in bottom..top {
        unsafe { (at as *mut u8).write_volatile(PAINT) };
    }
    black_box(work)();
    let left = (bottom..top).take_while(|&at| unsafe { (at as *const u8).read_volatile() } == PAINT).count();
    MARGIN + PAINTED - left
}

pub fn peak_stack(work: impl FnOnce() + Send) -> usize {
    let measured = std::thread::scope(|scope| {
        let builder = std::thread::Builder::new().stack_size(4 * PAINTED);
        let worker = builder.spawn_scoped(scope, || stack_of(work));
        worker.expect("a thread starts").join()
    });
    measured.expect("the call returns")
}
