//! Tables made at random: sound ones, and ones that aren't.

use std::collections::HashSet;

use super::guarded::{Guarded, Lent};
use super::requests::new_ids;
use super::rng::Rng;

/// A column length, the ends of the range more often.
pub fn length(rng: &mut Rng) -> usize {
    match rng.below(8) {
        0 => 1,
        1 => 256,
        2 => 255,
        3 | 4 => 1 + rng.below(256),
        _ => 1 + rng.below(24),
    }
}

/// Columns with anything in them.
pub fn anything(rng: &mut Rng, length: usize) -> Lent {
    let mut column = || -> Vec<u32> { (0..length).map(|_| rng.number()).collect() };
    Lent::new(&column(), &column(), &column(), &column())
}

/// Starts of disjoint ranges with these quotas, in any order, with gaps or side by side; some end
/// at the greatest number.
fn starts(rng: &mut Rng, quotas: &[u32]) -> Vec<u32> {
    let mut order: Vec<usize> = (0..quotas.len()).collect();
    rng.shuffle(&mut order);
    let used: u64 = quotas.iter().map(|&quota| u64::from(quota)).sum();
    let mut room = u32::MAX - used as u32;
    let mut next = 1u32;
    if rng.once_in(3) {
        next += room;
        room = 0;
    }
    let mut starts = vec![0; quotas.len()];
    for at in order {
        let gap = if rng.once_in(3) { rng.between(0, room.min(100_000)) } else { 0 };
        room -= gap;
        starts[at] = next + gap;
        // The last one may end at the greatest number.
        next = starts[at].wrapping_add(quotas[at]);
    }
    starts
}

/// A sound table, and its count. Rows past the count have anything in them.
pub fn sound(rng: &mut Rng) -> (Lent, usize) {
    let length = length(rng);
    let count = if rng.once_in(3) { length } else { 1 + rng.below(length) };
    let mut lent = anything(rng, length);
    let mut most = u32::MAX / count as u32;
    if !rng.once_in(4) {
        most = most.min(1 + rng.between(0, 400));
    }
    let quotas: Vec<u32> = (0..count).map(|_| rng.between(1, most)).collect();
    let ids = new_ids(rng, &mut HashSet::new(), count);
    let (l, r) = (starts(rng, &quotas), starts(rng, &quotas));
    let columns = [ids, l, r, quotas];
    for (column, values) in lent.parts_mut().into_iter().zip(&columns) {
        column[..count].copy_from_slice(values);
    }
    (lent, count)
}

/// Breaks a rule of the columns' lengths.
pub fn break_lengths(rng: &mut Rng, lent: &mut Lent) {
    let length = lent.id.len();
    let value = rng.number();
    match rng.below(4) {
        0 => {
            let new = rng.pick(&[length + 1, length.saturating_sub(1), 0, 257, 256, 1]);
            lent.column(rng.below(4)).resize(new, value);
        }
        1 => {
            let new = rng.pick(&[0, 257, 300, 512]);
            (0..4).for_each(|which| lent.column(which).resize(new, value));
        }
        2 => (0..4).for_each(|which| lent.column(which).resize(rng.below(300), value)),
        _ => lent.column(rng.below(4)).resize(length + 1, value),
    }
}

/// Breaks a rule of the count.
pub fn break_count(rng: &mut Rng, lent: &Lent, count: &mut usize) {
    let length = lent.id.len();
    *count = rng.pick(&[0, length + 1, length + 2, 257, usize::MAX, (1 << 32) + *count, 1 << 32]);
}

/// Breaks a rule of the rows, mostly.
pub fn break_row(rng: &mut Rng, lent: &mut Lent, count: usize) {
    let (one, other) = (rng.below(count), rng.below(count));
    let side = 1 + rng.below(2);
    let q = lent.q.part()[one];
    match rng.below(9) {
        0 => lent.column(rng.below(4)).part_mut()[one] = 0,
        1 => {
            // One past the greatest number, or just not.
            lent.q.part_mut()[one] = q.max(2);
            lent.column(side).part_mut()[one] = u32::MAX - q.max(2) + 1 + rng.below(2) as u32;
        }
        2 => lent.q.part_mut()[one] = rng.pick(&[u32::MAX, u32::MAX - 1, 1 << 31]),
        3 => lent.id.part_mut()[one] = lent.id.part()[other],
        4 => {
            let start = lent.column(side).part()[other];
            lent.column(side).part_mut()[one] = start;
        }
        5 => {
            // The last number of the other range, or the one after it.
            let end = lent.column(side).part()[other].wrapping_add(lent.q.part()[other] - 1);
            lent.column(side).part_mut()[one] = end.wrapping_add(rng.below(2) as u32);
        }
        6 => {
            // The range ends at the first number of the other, or just before it.
            let start = lent.column(side).part()[other];
            let place = start.wrapping_sub(q).wrapping_add(rng.below(2) as u32);
            lent.column(side).part_mut()[one] = place;
        }
        7 => lent.q.part_mut()[one] = q.wrapping_add(1),
        _ => lent.column(rng.below(4)).part_mut()[one] = rng.number(),
    }
}

/// Breaks one rule of a table or more.
pub fn break_table(rng: &mut Rng, lent: &mut Lent, count: &mut usize) {
    for _ in 0..1 + rng.below(2) {
        match rng.below(8) {
            0 => break_count(rng, lent, count),
            1 => {
                break_lengths(rng, lent);
                return;
            }
            _ if *count >= 1 && *count <= lent.id.len() => break_row(rng, lent, *count),
            _ => {}
        }
    }
}

/// The numbers of a stored table.
pub fn stored(lent: &Lent, count: usize) -> Vec<u32> {
    let [id, l, r, q] = lent.parts();
    let mut numbers = vec![count as u32];
    (0..count).for_each(|row| numbers.extend([id[row], l[row], r[row], q[row]]));
    numbers
}

/// A buffer with anything in it.
pub fn buffer(rng: &mut Rng, length: usize) -> Guarded<u8> {
    let bytes: Vec<u8> = (0..length).map(|_| rng.next() as u8).collect();
    Guarded::new(&bytes)
}
