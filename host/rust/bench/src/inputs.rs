//! The inputs: tables, requests and grants, made at random from fixed seeds.

use zintukor::{entry, write_number, Columns, Entry, Grant, Pass, Request, Table};

/// Random numbers (xorshift).
pub struct Rng(u64);

impl Rng {
    pub fn new(seed: u64) -> Rng {
        Rng(seed.wrapping_mul(0x9E37_79B9_7F4A_7C15) | 1)
    }

    pub fn below(&mut self, n: usize) -> usize {
        self.0 ^= self.0 << 13;
        self.0 ^= self.0 >> 7;
        self.0 ^= self.0 << 17;
        ((self.0 >> 16) % n as u64) as usize
    }

    pub fn between(&mut self, least: u32, most: u32) -> u32 {
        least + self.below((most - least + 1) as usize) as u32
    }
}

/// A table of so many groups in columns of 256 rows, split again and again from quota 4,000,000,
/// upright and inverted.
pub fn table(groups: usize) -> Table {
    let mut rng = Rng::new(7);
    let mut table = Table::fresh(256, 1, 4_000_000).unwrap();
    let mut next = 2;
    while table.count() < groups {
        let row = table.rows().max_by_key(|row| row.quota / (1 + rng.below(4) as u32)).unwrap();
        let new = (groups - table.count()).min(1 + rng.below(3)) as u32;
        let share = row.quota / (new + 1);
        let kept = entry(row.id, row.quota - new * share);
        let others: Vec<Entry> = (next..next + new).map(|id| entry(id * 37 % 65_521, share)).collect();
        let request = if rng.below(2) == 0 { Request::upright(row.id) } else { Request::inverted(row.id) };
        let request = match rng.below(2) {
            0 => request.tree(kept.children(others)),
            _ => request.tree(kept).trees(others),
        };
        table.refine(&request.bytes()).unwrap();
        next += new;
    }
    table
}

/// A request for a group of the table with so many entries: trees of four, a child of each root
/// having a child of its own. `twice`: the last two have one id.
pub fn request(table: &Table, entries: u32, twice: bool) -> Vec<u8> {
    let row = table.rows().max_by_key(|row| row.quota).unwrap();
    let share = row.quota / entries;
    let last = if twice { entries - 2 } else { entries - 1 };
    let id = |at: u32| if at == 0 { row.id } else { 70_000 + at.min(last) };
    let quota = |at: u32| if at == 0 { row.quota - (entries - 1) * share } else { share };
    let one = |at: u32| entry(id(at), quota(at));
    let tree = |at: u32| match entries - at {
        1 => one(at),
        2 => one(at).child(one(at + 1)),
        3 => one(at).child(one(at + 1).child(one(at + 2))),
        _ => one(at).child(one(at + 1).child(one(at + 2))).child(one(at + 3)),
    };
    Request::upright(row.id).trees((0..entries).step_by(4).map(tree)).bytes()
}

/// Grants at groups of the table: 40 features, days in some years, one in ten open.
pub fn grants(table: &Table, how_many: usize) -> Vec<Grant> {
    let mut rng = Rng::new(11);
    let rows: Vec<_> = table.rows().collect();
    (0..how_many)
        .map(|_| {
            let row = rows[rng.below(rows.len())];
            let first = rng.between(9_000, 10_500);
            let grant = Grant::new(rng.between(1, 40), Pass { l: row.l, r: row.r }, first);
            if rng.below(10) == 0 {
                grant
            } else {
                grant.until(first + rng.between(0, 700))
            }
        })
        .collect()
}

/// Grants of 40 features of which each other one applies to the pass: days in some years, one in
/// ten open.
pub fn half(pass: Pass, how_many: usize) -> Vec<Grant> {
    let mut rng = Rng::new(17);
    (0..how_many)
        .map(|at| {
            let l = if at % 2 == 0 { rng.between(pass.l, 2 * pass.l) } else { rng.between(1, pass.l - 1) };
            let first = rng.between(9_000, 10_500);
            let grant = Grant::new(rng.between(1, 40), Pass { l, r: pass.r }, first);
            if rng.below(10) == 0 {
                grant
            } else {
                grant.until(first + rng.between(0, 700))
            }
        })
        .collect()
}

/// Grants of a feature that follow on, 30 days each, the first of them from a day on.
pub fn chain(feature: u32, group: Pass, day: u32, how_many: u32) -> Vec<Grant> {
    let grant = |k: u32| Grant::new(feature, group, day + 30 * k).until(day + 30 * k + 29);
    (0..how_many).map(grant).collect()
}

/// The same in any order.
pub fn shuffled<T: Clone>(list: &[T]) -> Vec<T> {
    let mut rng = Rng::new(13);
    let mut list = list.to_vec();
    for at in (1..list.len()).rev() {
        list.swap(at, rng.below(at + 1));
    }
    list
}

/// A reflected tree of so many nodes: each has so many children, as long as nodes are left. Ids have
/// one byte to three.
pub fn reflected(nodes: usize, children: usize) -> Vec<u8> {
    // Node k's children are those after k * children, level by level.
    fn add(tree: &mut Vec<u8>, k: usize, nodes: usize, children: usize) {
        let below = (k * children + 1..).take(children).take_while(|&child| child < nodes);
        let lower = if k * children + 1 < nodes { 15_000 + 40 * k as u32 } else { 0 };
        for number in [1 + 40 * k as u32, lower, below.clone().count() as u32] {
            write_number(tree, number);
        }
        below.for_each(|child| add(tree, child, nodes, children));
    }
    let mut tree = Vec::new();
    write_number(&mut tree, nodes as u32);
    add(&mut tree, 0, nodes, children);
    tree
}

/// Copies columns over others of the same length.
pub fn restore(columns: &mut Columns, from: &Columns) {
    columns.id.copy_from_slice(&from.id);
    columns.l.copy_from_slice(&from.l);
    columns.r.copy_from_slice(&from.r);
    columns.q.copy_from_slice(&from.q);
}
