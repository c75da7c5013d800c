//! Windows of days made at random, so that one often follows on another.

use super::both::Answer;
use super::rng::Rng;

/// The first day and the last; last 0 is open.
pub type Window = (u32, u32);

/// So many windows, each set against those before it: on the day after their end, overlapping,
/// contained, equal, or a day too late; now and then one is open. They stand in order, in reverse
/// or shuffled, at small days or before the greatest one.
pub fn windows(rng: &mut Rng, how_many: usize) -> Vec<Window> {
    let mut end = rng.between(3, 9);
    let mut windows = Vec::new();
    for _ in 0..how_many {
        let (first, last) = match rng.below(12) {
            0 if !windows.is_empty() => rng.pick(&windows),
            1 => (end + 2, end + 2 + rng.between(0, 3)),
            2 => (end - 2, end - rng.between(0, 2)),
            3 | 4 => (end - rng.between(0, 2), end + rng.between(0, 3)),
            _ => (end + 1, end + 1 + rng.between(0, 3)),
        };
        windows.push((first, if rng.once_in(14) { 0 } else { last }));
        end = end.max(last);
    }
    match rng.below(3) {
        0 => {}
        1 => windows.reverse(),
        _ => rng.shuffle(&mut windows),
    }
    if rng.once_in(3) {
        let shift = u32::MAX - end;
        for (first, last) in &mut windows {
            *first += shift;
            if *last != 0 {
                *last += shift;
            }
        }
    }
    windows
}

/// A day at the edge of a window, or near the least first day; 1 where there are none.
pub fn day(rng: &mut Rng, windows: &[Window]) -> u32 {
    let Some(least) = windows.iter().map(|window| window.0).min() else {
        return 1;
    };
    let (first, last) = rng.pick(windows);
    let day = match rng.below(8) {
        0 => first,
        1 => last.max(first),
        2 => last.max(first).saturating_add(1),
        3 => first - 1,
        _ => least.saturating_add(rng.between(0, 3)),
    };
    day.max(1)
}

/// Whether an on answer is not that of a window which runs today: the run was followed on.
pub fn followed_on(answer: Answer, windows: &[Window], today: u32) -> bool {
    let mut running = windows.iter().filter(|&&(first, last)| first <= today && (last == 0 || last >= today));
    match answer {
        Answer::Open => running.all(|&(_, last)| last != 0),
        Answer::Until(day) => running.all(|&(_, last)| last != day),
        _ => false,
    }
}
