//! Requests made at random, as numbers: sound ones, and ones with a fault.

use std::collections::HashSet;

use super::guarded::Lent;
use super::rng::Rng;

/// The places of an entry's numbers in a request.
pub fn id_at(entry: usize) -> usize {
    3 + 3 * entry
}

/// A forest's trees and the children of each entry, from the entries' depths in left pre-order.
pub fn shape(depths: &[usize]) -> (u32, Vec<u32>) {
    let trees = depths.iter().filter(|&&depth| depth == 1).count() as u32;
    let children = |at: usize| {
        let below = depths[at + 1..].iter().take_while(|&&depth| depth > depths[at]);
        below.filter(|&&depth| depth == depths[at] + 1).count() as u32
    };
    (trees, (0..depths.len()).map(children).collect())
}

/// Depths in left pre-order, at most `deepest`: flat, a chain, a star, or grown at random.
pub fn depths(rng: &mut Rng, entries: usize, deepest: usize) -> Vec<usize> {
    let kind = rng.below(6);
    let mut depths = vec![1];
    while depths.len() < entries {
        let last = depths[depths.len() - 1];
        let next = match kind {
            0 => 1,
            1 => last + 1,
            2 => 2,
            3 => 1 + rng.below(last + 1),
            _ => last + 1 - rng.below(last + 1).min(rng.below(3)),
        };
        depths.push(next.min(deepest));
    }
    depths
}

/// `parts` numbers of at least 1 that add up to `total`, which is at least `parts`.
fn parts(rng: &mut Rng, total: u32, parts: usize) -> Vec<u32> {
    let mut rest = total - parts as u32;
    let mut list: Vec<u32> = (1..parts)
        .map(|_| {
            let most = if rng.once_in(2) { rest } else { rest.min(20) };
            let extra = rng.between(0, most);
            rest -= extra;
            1 + extra
        })
        .collect();
    list.push(1 + rest);
    rng.shuffle(&mut list);
    list
}

/// Ids that are neither 0 nor used; they become used.
pub fn new_ids(rng: &mut Rng, used: &mut HashSet<u32>, how_many: usize) -> Vec<u32> {
    let mut ids = Vec::new();
    while ids.len() < how_many {
        let id = match rng.below(4) {
            0 => rng.number(),
            1 => rng.next() as u32,
            _ => rng.between(1, 1_000),
        };
        if id != 0 && used.insert(id) {
            ids.push(id);
        }
    }
    ids
}

/// A sound request for a table, unless the group picked or the columns are too small for as many
/// entries as were drawn. `entries`: how many are wished for.
pub fn sound(rng: &mut Rng, lent: &Lent, count: usize, entries: usize) -> Vec<u32> {
    let row = rng.below(count);
    let (exploded, quota) = (lent.id.part()[row], lent.q.part()[row]);
    let entries = entries.clamp(1, quota.min(256) as usize);
    let depths = depths(rng, entries, 16);
    let mut used = lent.id.part()[..count].iter().copied().collect();
    request(rng, exploded, quota, &depths, &mut used)
}

/// A request with a forest of these depths, whose quotas add up.
pub fn request(
    rng: &mut Rng,
    exploded: u32,
    quota: u32,
    depths: &[usize],
    used: &mut HashSet<u32>,
) -> Vec<u32> {
    let entries = depths.len();
    let (trees, children) = shape(depths);
    let quotas = if quota as usize >= entries { parts(rng, quota, entries) } else { vec![1; entries] };
    let mut ids = new_ids(rng, used, entries);
    ids[rng.below(entries)] = exploded;
    let mut numbers = vec![exploded, rng.below(2) as u32, trees];
    for entry in 0..entries {
        numbers.extend([ids[entry], quotas[entry], children[entry]]);
    }
    numbers
}

/// A request of which one rule is broken in its shape: too deep, too many entries, or both.
pub fn too_big(rng: &mut Rng, lent: &Lent, count: usize) -> Vec<u32> {
    let row = rng.below(count);
    let (exploded, quota) = (lent.id.part()[row], lent.q.part()[row]);
    let depths: Vec<usize> = match rng.below(4) {
        // Depth 17, or deeper.
        0 => (1..=17 + rng.below(3)).collect(),
        // 257 entries or more.
        1 => {
            let entries = 257 + rng.below(3);
            depths(rng, entries, 16)
        }
        // The 257th entry has depth 17.
        2 => (0..257).map(|at| if at < 240 { 1 } else { at - 239 }).collect(),
        // The 256th has depth 17.
        _ => (0..256).map(|at| if at < 239 { 1 } else { at - 238 }).collect(),
    };
    let mut used = lent.id.part()[..count].iter().copied().collect();
    let mut numbers = request(rng, exploded, quota, &depths, &mut used);
    if rng.once_in(3) {
        // The bytes may end where the entry that is one too many would begin.
        let kept = rng.pick(&[16, 17, 255, 256]);
        numbers.truncate(id_at(kept));
    }
    numbers
}

/// Breaks a rule of the request, mostly; now and then it stays sound.
pub fn break_rule(rng: &mut Rng, numbers: &mut Vec<u32>, lent: &Lent, count: usize) {
    let entries = (numbers.len().saturating_sub(3)) / 3;
    if entries == 0 {
        return;
    }
    let (one, other) = (id_at(rng.below(entries)), id_at(rng.below(entries)));
    let table = lent.id.part()[rng.below(count)];
    let exploded = numbers[0];
    match rng.below(23) {
        0 => numbers[0] = 0,
        1 => numbers[1] = rng.pick(&[2, 3, 127, 128, 256, u32::MAX]),
        2 => numbers[2] = 0,
        3 => numbers[2] = rng.number(),
        4 => numbers[2] = numbers[2].wrapping_add(rng.pick(&[1, u32::MAX])),
        5 => numbers[one] = 0,
        6 => numbers[one + 1] = 0,
        7 => numbers[one + 2] = rng.number(),
        8 => numbers[one + 2] = numbers[one + 2].wrapping_add(rng.pick(&[1, u32::MAX])),
        9 => numbers[one + 1] = rng.number(),
        10 => numbers[one + 1] = numbers[one + 1].wrapping_add(rng.pick(&[1, u32::MAX])),
        11 => {
            // The sum is right in 32 bits only.
            numbers[one + 1] = numbers[one + 1].wrapping_add(1 << 31);
            numbers[other + 1] = numbers[other + 1].wrapping_add(1 << 31);
        }
        12 => {
            // The group isn't in the table, and it is an entry.
            let id = rng.number();
            for at in (0..entries).map(id_at).chain([0]) {
                if numbers[at] == exploded {
                    numbers[at] = id;
                }
            }
        }
        13 => numbers[0] = table,
        14 => numbers[one] = exploded,
        15 | 16 => numbers[one] = table,
        17 | 18 => numbers[one] = numbers[other],
        19 | 20 => numbers[one] = rng.number(),
        21 => {
            // An id twice, and one of the table.
            numbers[one] = numbers[other];
            numbers[id_at(rng.below(entries))] = table;
        }
        _ => {
            numbers.remove(one);
        }
    }
}
