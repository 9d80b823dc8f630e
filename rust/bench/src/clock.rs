//! The time of a call.

use std::hint::black_box;
use std::time::{Duration, Instant};

/// The time for which calls are repeated.
const BATCH: Duration = Duration::from_millis(20);

/// The best time a call over five batches of calls; a long call is timed once.
pub fn best<T>(mut call: impl FnMut() -> T) -> Duration {
    let once = time(1, &mut call);
    if once > 10 * BATCH {
        return once;
    }
    let calls = BATCH.as_nanos() / once.as_nanos().max(1);
    let calls = calls.clamp(1, 1_000_000) as u32;
    let batches = (0..5).map(|_| time(calls, &mut call));
    batches.min().unwrap_or(once)
}

/// The mean time of so many calls.
fn time<T>(calls: u32, call: &mut impl FnMut() -> T) -> Duration {
    let start = Instant::now();
    for _ in 0..calls {
        black_box(call());
    }
    start.elapsed() / calls
}
