//! Times of two versions of a call, taken in turn in one run.

use std::hint::black_box;
use std::time::Instant;

const ROUNDS: usize = 41;
const WARM_UP: usize = 3;

/// About how long a batch of calls takes: short, so that few rounds are interrupted.
const BATCH_NS: f64 = 300_000.0;

/// Nanoseconds for a call: the median of the rounds.
#[derive(Clone, Copy)]
pub struct Times {
    pub engine: f64,
    pub plain: f64,
}

/// Times a call over all copies, which are restored before, outside the timed part. Answers are
/// kept from being optimised away.
fn batch<S, A>(copies: &mut [S], restore: &impl Fn(&mut S), call: &mut impl FnMut(&mut S) -> A) -> f64 {
    copies.iter_mut().for_each(restore);
    let start = Instant::now();
    for copy in copies.iter_mut() {
        black_box(call(black_box(copy)));
    }
    start.elapsed().as_nanos() as f64 / copies.len() as f64
}

/// How many of the copies make a batch.
fn calls<S, A>(copies: &mut [S], restore: &impl Fn(&mut S), call: &mut impl FnMut(&mut S) -> A) -> usize {
    let few = copies.len().min(3);
    let ns = batch(&mut copies[..few], restore, call);
    ((BATCH_NS / ns) as usize).clamp(1, copies.len())
}

/// Both versions on the same copies, in turn.
pub fn compare<S, A, B>(
    copies: &mut [S],
    restore: impl Fn(&mut S),
    mut engine: impl FnMut(&mut S) -> A,
    mut plain: impl FnMut(&mut S) -> B,
) -> Times {
    let (mut engines, mut plains) = (Vec::new(), Vec::new());
    let engine_calls = calls(copies, &restore, &mut engine);
    let plain_calls = calls(copies, &restore, &mut plain);
    for round in 0..WARM_UP + ROUNDS {
        let engine = batch(&mut copies[..engine_calls], &restore, &mut engine);
        let plain = batch(&mut copies[..plain_calls], &restore, &mut plain);
        if round >= WARM_UP {
            engines.push(engine);
            plains.push(plain);
        }
    }
    Times { engine: median(engines), plain: median(plains) }
}

/// Both versions with nothing to restore.
pub fn compare_reading<A, B>(mut engine: impl FnMut() -> A, mut plain: impl FnMut() -> B) -> Times {
    compare(&mut [(); 20_000], |_| (), |_| engine(), |_| plain())
}

/// Nanoseconds for one call.
pub fn time<A>(mut call: impl FnMut() -> A) -> f64 {
    let copies = &mut [(); 20_000];
    let calls = calls(copies, &|_| (), &mut |_| call());
    let rounds = (0..WARM_UP + ROUNDS).map(|_| batch(&mut copies[..calls], &|_| (), &mut |_| call()));
    median(rounds.skip(WARM_UP).collect())
}

fn median(mut times: Vec<f64>) -> f64 {
    times.sort_by(f64::total_cmp);
    times[times.len() / 2]
}
