//! The paper ledger: ids with quotas, an explicit order, and two sequences. No l or r is kept.

use std::collections::{BTreeMap, BTreeSet, HashSet};

use crate::{Decision, Order, Refused, Request, Tally, ROWS};

/// The ledger's state.
#[derive(Clone, Debug)]
pub struct Ledger {
    length: usize,
    quotas: BTreeMap<u32, u32>,
    below: BTreeSet<(u32, u32)>,
    left: Vec<u32>,
    right: Vec<u32>,
}

/// A grant whose place is a group of the ledger.
#[derive(Clone, Copy, Debug)]
pub struct GroupGrant {
    /// The feature.
    pub feature: u32,
    /// The group it is granted to.
    pub group: u32,
    /// The first day.
    pub first: u32,
    /// The last day, or 0: open.
    pub last: u32,
}

/// A tree of a request, with its children as they stand in it.
struct Tree {
    id: u32,
    children: Vec<Tree>,
}

impl Ledger {
    /// One id with its quota, for columns of a length; refused as fresh is.
    pub fn fresh(length: usize, id: u32, quota: u32) -> Result<Ledger, Refused> {
        if length == 0 || length > ROWS {
            return Err(Refused(10));
        }
        if id == 0 || quota == 0 {
            return Err(Refused(11));
        }
        Ok(Ledger {
            length,
            quotas: BTreeMap::from([(id, quota)]),
            below: BTreeSet::from([(id, id)]),
            left: vec![id],
            right: vec![id],
        })
    }

    /// Carries a request out and answers the number of ids.
    pub fn refine(&mut self, bytes: &[u8]) -> Result<usize, Refused> {
        let request = Request::read(bytes)?;
        let u = request.exploded;
        let quota = *self.quotas.get(&u).ok_or(Refused(20))?;
        if request.entries.iter().filter(|entry| entry.id == u).count() != 1 {
            return Err(Refused(21));
        }
        let mut others = request.entries.iter().map(|entry| entry.id).filter(|&id| id != u);
        if others.clone().any(|id| self.quotas.contains_key(&id)) {
            return Err(Refused(22));
        }
        let mut met = HashSet::new();
        if !others.all(|id| met.insert(id)) {
            return Err(Refused(26));
        }
        if request.entries.iter().map(|entry| u64::from(entry.quota)).sum::<u64>() != u64::from(quota) {
            return Err(Refused(23));
        }
        if self.quotas.len() + request.entries.len() - 1 > self.length {
            return Err(Refused(24));
        }
        self.replace(&request);
        Ok(self.quotas.len())
    }

    /// The exploded id goes and the entries come: order, sequences and quotas.
    fn replace(&mut self, request: &Request) {
        let u = request.exploded;
        let forest = forest(request);
        let old = &self.below;
        let mut below: BTreeSet<_> = old.iter().copied().filter(|&(g, h)| g != u && h != u).collect();
        for &x in self.quotas.keys().filter(|&&x| x != u) {
            for entry in &request.entries {
                if old.contains(&(x, u)) {
                    below.insert((x, entry.id));
                }
                if old.contains(&(u, x)) {
                    below.insert((entry.id, x));
                }
            }
        }
        for tree in &forest {
            relate(tree, &mut Vec::new(), request.inverted, &mut below);
        }
        let (mut left, mut right) = (Vec::new(), Vec::new());
        sequence(&forest, false, request.inverted, &mut left);
        sequence(&forest, true, request.inverted, &mut right);
        splice(&mut self.left, u, left);
        splice(&mut self.right, u, right);
        self.below = below;
        self.quotas.remove(&u);
        self.quotas.extend(request.entries.iter().map(|entry| (entry.id, entry.quota)));
    }

    /// The order of two ids; 20 for an id not in the state.
    pub fn order(&self, first: u32, second: u32) -> Result<Order, Refused> {
        if !self.quotas.contains_key(&first) || !self.quotas.contains_key(&second) {
            return Err(Refused(20));
        }
        Ok(if first == second {
            Order::Same
        } else if self.at_most(first, second) {
            Order::First
        } else if self.at_most(second, first) {
            Order::Second
        } else {
            Order::Incomparable
        })
    }

    /// Whether g ≤ h in the ledger's order.
    pub fn at_most(&self, g: u32, h: u32) -> bool {
        self.below.contains(&(g, h))
    }

    /// The ids with their quotas.
    pub fn quotas(&self) -> &BTreeMap<u32, u32> {
        &self.quotas
    }

    /// Each group's l and r, worked out afresh from the two sequences.
    pub fn numbers(&self) -> BTreeMap<u32, (u32, u32)> {
        let mut numbers = BTreeMap::new();
        let mut before = 0;
        for id in &self.left {
            numbers.insert(*id, (1 + before, 0));
            before += self.quotas[id];
        }
        let mut before = 0;
        for id in &self.right {
            numbers.get_mut(id).expect("both sequences have the same ids").1 = 1 + before;
            before += self.quotas[id];
        }
        numbers
    }

    /// The decision by the ledger's order: a grant applies when the pass's group ≤ its group.
    pub fn decide(
        &self,
        feature: u32,
        pass: u32,
        day: u32,
        grants: &[GroupGrant],
    ) -> Result<Decision, Refused> {
        if feature == 0 || day == 0 {
            return Err(Refused(15));
        }
        let bad = |grant: &GroupGrant| {
            grant.feature == 0 || grant.first == 0 || (grant.last != 0 && grant.last < grant.first)
        };
        if grants.iter().any(bad) {
            return Err(Refused(14));
        }
        let mut tally = Tally::default();
        for grant in grants {
            if grant.feature == feature && self.at_most(pass, grant.group) {
                tally.add(grant.first, grant.last, day);
            }
        }
        Ok(tally.decision())
    }
}

/// A request's entries as trees.
fn forest(request: &Request) -> Vec<Tree> {
    let mut entries = request.entries.iter();
    fn tree<'a>(entries: &mut impl Iterator<Item = &'a crate::Entry>) -> Tree {
        let entry = entries.next().expect("child counts were read");
        let children = (0..entry.children).map(|_| tree(entries)).collect();
        Tree { id: entry.id, children }
    }
    (0..request.trees).map(|_| tree(&mut entries)).collect()
}

/// A forest's sequence: pre-order when upright, post-order when inverted; trees and children
/// left to right, or right to left.
fn sequence(forest: &[Tree], from_right: bool, inverted: bool, out: &mut Vec<u32>) {
    let one = |tree: &Tree, out: &mut Vec<u32>| {
        if !inverted {
            out.push(tree.id);
        }
        sequence(&tree.children, from_right, inverted, out);
        if inverted {
            out.push(tree.id);
        }
    };
    if from_right {
        forest.iter().rev().for_each(|tree| one(tree, out));
    } else {
        forest.iter().for_each(|tree| one(tree, out));
    }
}

/// Each entry ≤ itself. Upright: an ancestor ≤ its descendants; inverted: the other way.
fn relate(tree: &Tree, ancestors: &mut Vec<u32>, inverted: bool, below: &mut BTreeSet<(u32, u32)>) {
    below.insert((tree.id, tree.id));
    for &ancestor in ancestors.iter() {
        below.insert(if inverted { (tree.id, ancestor) } else { (ancestor, tree.id) });
    }
    ancestors.push(tree.id);
    for child in &tree.children {
        relate(child, ancestors, inverted, below);
    }
    ancestors.pop();
}

/// Replaces u in a sequence by the request's own.
fn splice(sequence: &mut Vec<u32>, u: u32, new: Vec<u32>) {
    let at = sequence.iter().position(|&id| id == u).expect("u is in both sequences");
    sequence.splice(at..=at, new);
}
