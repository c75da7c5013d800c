//! Reflected trees made at random, as numbers: sound ones, and ones with a fault.

use std::collections::HashSet;

use super::requests::{depths, new_ids, shape};
use super::rng::Rng;

/// The places of a node's numbers in a tree: upper id, lower id, number of children.
pub fn node_at(node: usize) -> usize {
    1 + 3 * node
}

/// The numbers of a tree: its nodes have these depths in left pre-order, and ids of any size.
pub fn tree(rng: &mut Rng, depths: &[usize]) -> Vec<u32> {
    let (_, children) = shape(depths);
    let used = &mut HashSet::new();
    let mut numbers = vec![depths.len() as u32];
    for children in children {
        let ids = new_ids(rng, used, 1 + usize::from(children > 0));
        numbers.extend([ids[0], *ids.get(1).unwrap_or(&0), children]);
    }
    numbers
}

/// A sound tree of so many nodes, at most 16 deep: a root over a flat forest, a chain, a star, or one
/// grown at random.
pub fn sound(rng: &mut Rng, nodes: usize) -> Vec<u32> {
    let mut all = vec![1];
    if nodes > 1 {
        all.extend(depths(rng, nodes - 1, 15).iter().map(|depth| 1 + depth));
    }
    tree(rng, &all)
}

/// How many nodes a tree is to have, the ends of the range more often.
pub fn nodes(rng: &mut Rng) -> usize {
    match rng.below(8) {
        0 => 1,
        1 => 64,
        2 | 3 => 1 + rng.below(64),
        _ => 2 + rng.below(12),
    }
}

/// A tree that is too deep, has too many nodes, or both; the bytes may end before what is too much.
pub fn too_big(rng: &mut Rng) -> Vec<u32> {
    let mut all: Vec<usize> = match rng.below(3) {
        // Depth 17, or deeper.
        0 => (1..=17 + rng.below(3)).collect(),
        // After leaves, with which there may be too many nodes.
        1 => [1].into_iter().chain(vec![2; rng.below(60)]).chain(2..=17).collect(),
        // 65 nodes or more.
        _ => [1].into_iter().chain([2; 64]).collect(),
    };
    all.resize(all.len() + rng.below(3), 2);
    let mut numbers = tree(rng, &all);
    match rng.below(4) {
        0 => numbers[0] = numbers[0].min(64),
        1 => numbers[0] = numbers[0].min(16),
        2 => numbers.truncate(node_at(rng.pick(&[15, 16, 17, 63, 64]))),
        _ => {}
    }
    numbers
}

/// Breaks a rule of a tree, mostly; now and then it stays sound.
pub fn break_rule(rng: &mut Rng, numbers: &mut Vec<u32>) {
    let nodes = numbers.len() / 3;
    if nodes == 0 {
        return;
    }
    let (one, other) = (node_at(rng.below(nodes)), node_at(rng.below(nodes)));
    let [upper, lower, children] = [one, one + 1, one + 2];
    match rng.below(13) {
        0 => numbers[0] = rng.pick(&[0, 64, 65, 66, u32::MAX]),
        1 => numbers[0] = numbers[0].wrapping_add(rng.pick(&[1, u32::MAX])),
        2 => numbers[0] = rng.number(),
        3 => numbers[upper] = 0,
        4 => numbers[lower] = if numbers[lower] == 0 { rng.number() } else { 0 },
        5 => numbers[children] = numbers[children].wrapping_add(rng.pick(&[1, u32::MAX])),
        6 => numbers[children] = rng.number(),
        7 => numbers[upper] = numbers[other],
        8 => numbers[upper] = numbers[other + 1],
        9 => numbers[lower] = numbers[other],
        10 => numbers[lower] = numbers[other + 1],
        11 => {
            numbers.remove(one + rng.below(3));
        }
        _ => {
            // A node more, which may be counted.
            numbers[0] += rng.below(2) as u32;
            numbers.extend([rng.number(), 0, 0]);
        }
    }
}
