//! What a host might do without the two numbers: walk parent links, or keep all pairs in a set.
//! The question is the same for all: which of 1,000 grants apply to the pass's group?

use std::collections::{HashMap, HashSet};
use std::hint::black_box;

use zintukor::{decide, entry, grants, Grant, Pass, Request, Table};
use zintukor_plain::{Decision, Tally};

use crate::inputs::Rng;
use crate::timing::time;

const GROUPS: usize = 256;
const GRANTS: usize = 1_000;
const DAY: u32 = 10_000;

/// A tree of groups: each group's parent is its subgroup. Made by exploding leaves only, so that
/// it stays a tree.
struct Tree {
    table: Table,
    parent: HashMap<u32, u32>,
}

fn tree(deep: bool) -> Tree {
    let mut rng = Rng::new(3);
    let mut table = Table::fresh(GROUPS, 1, 4_000_000_000).unwrap();
    let mut parent = HashMap::new();
    let mut leaves = vec![1u32];
    let mut next = 2u32;
    while table.count() < GROUPS {
        let at = if deep { leaves.len() - 1 } else { rng.below(leaves.len()) };
        let leaf = leaves.remove(at);
        let row = table.rows().find(|row| row.id == leaf).unwrap();
        let new = if deep { 1 + rng.below(2) } else { 2 + rng.below(4) };
        let new = new.min(GROUPS - table.count()) as u32;
        // What the leaf keeps is small; the last child, which goes on, has nearly all.
        let small = if deep { 1_000 } else { row.quota / (new + 1) };
        let last = row.quota - new * small;
        let quota = |child: u32| if child + 1 == new { last } else { small };
        let children = (0..new).map(|child| entry(next + child, quota(child)));
        let request = Request::upright(leaf).tree(entry(leaf, small).children(children));
        table.refine(&request.bytes()).unwrap();
        for child in next..next + new {
            parent.insert(child, leaf);
            leaves.push(child);
        }
        next += new;
    }
    Tree { table, parent }
}

/// A grant that names its group by id, beside the same grant with numbers.
struct Named {
    group: u32,
    grant: Grant,
}

/// The decision, where `applies` says whether the pass's group ≤ the grant's.
fn decision(list: &[Named], feature: u32, mut applies: impl FnMut(&Named) -> bool) -> Decision {
    let mut tally = Tally::default();
    for named in list {
        if named.grant.feature == feature && applies(named) {
            tally.add(named.grant.first, named.grant.last.unwrap_or(0), DAY);
        }
    }
    tally.decision()
}

/// Whether `above` is `group` or one of its ancestors, by links found in a map.
fn walk_map(parent: &HashMap<u32, u32>, above: u32, mut group: u32) -> bool {
    loop {
        if group == above {
            return true;
        }
        match parent.get(&group) {
            Some(&next) => group = next,
            None => return false,
        }
    }
}

/// The same by links in an array, 0 at the root; ids are positions in it.
fn walk_array(parent: &[u32], above: u32, mut group: u32) -> bool {
    while group != 0 {
        if group == above {
            return true;
        }
        group = parent[group as usize];
    }
    false
}

fn shape(name: &str, deep: bool) {
    let Tree { table, parent } = tree(deep);
    let mut rng = Rng::new(5);
    let ids: Vec<u32> = table.rows().map(|row| row.id).collect();
    let depth = |mut group: u32| {
        let mut depth = 1;
        while let Some(&next) = parent.get(&group) {
            (group, depth) = (next, depth + 1);
        }
        depth
    };
    let average = ids.iter().map(|&id| depth(id)).sum::<usize>() as f64 / ids.len() as f64;
    let mut links = vec![0; ids.len() + 1];
    parent.iter().for_each(|(&child, &parent)| links[child as usize] = parent);
    let mut pairs = HashSet::new();
    for &first in &ids {
        pairs.extend(
            ids.iter().filter(|&&second| walk_map(&parent, first, second)).map(|&second| (first, second)),
        );
    }
    let list: Vec<Named> = (0..GRANTS)
        .map(|_| {
            let group = ids[rng.below(ids.len())];
            let first = rng.between(9_000, 10_500);
            let grant = Grant::new(7, table.pass(group).unwrap(), first).until(first + rng.between(0, 700));
            Named { group, grant }
        })
        .collect();
    let bytes = grants(&list.iter().map(|named| named.grant).collect::<Vec<_>>());
    let asked = ids[ids.len() / 4];
    let pass = table.pass(asked).unwrap();

    let by_numbers = |pass: Pass| {
        decision(&list, 7, |named| pass.l <= named.grant.group.l && pass.r <= named.grant.group.r)
    };
    let by_array = |group: u32| decision(&list, 7, |named| walk_array(&links, group, named.group));
    let by_map = |group: u32| decision(&list, 7, |named| walk_map(&parent, group, named.group));
    let by_pairs = |group: u32| decision(&list, 7, |named| pairs.contains(&(group, named.group)));
    let by_order = |group: u32, list: &[Named]| {
        decision(list, 7, |named| {
            use zintukor::Order::{FirstIsSubgroup, Same};
            matches!(table.order(group, named.group), Ok(Same | FirstIsSubgroup))
        })
    };
    let expected = by_numbers(pass);
    for other in [by_array(asked), by_map(asked), by_pairs(asked), by_order(asked, &list)] {
        assert_eq!(other, expected);
    }

    let few = &list[..10];
    let ns = |what: &str, ns: f64| println!("  {what:<52}{ns:>10.1}");
    let row = |what: &str, list_ns: f64| ns(what, list_ns / GRANTS as f64);
    println!(
        "\n{name}: {GROUPS} groups, {average:.0} levels deep on average, {} pairs; ns per grant",
        pairs.len()
    );
    row("two numbers compared (grants in memory)", time(|| by_numbers(black_box(pass))));
    let engine = || decide(7, black_box(pass), DAY, black_box(&bytes));
    row("engine: decide (grants read from bytes and checked)", time(engine));
    row("parent links in an array", time(|| by_array(black_box(asked))));
    row("parent links in a HashMap", time(|| by_map(black_box(asked))));
    row("HashSet of all pairs", time(|| by_pairs(black_box(asked))));
    let orders = time(|| by_order(black_box(asked), few));
    ns("engine: order (checks the whole table each time)", orders / few.len() as f64);
}

pub fn report() {
    println!("\nWhat a host might do instead (one decision over {GRANTS} grants)");
    shape("A broad tree", false);
    shape("A deep tree", true);
}
