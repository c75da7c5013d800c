//! Demand 3: the engine and the paper ledger are given one list of calls.

mod common;

use std::collections::{BTreeMap, HashMap};

use common::both::{of_engine, of_plain, Answer};
use common::bytes::{damaged, encode};
use common::guarded::Lent;
use common::rng::{seeds, Rng, Seed};
use common::{requests, windows};
use zintukor::{decide, grants, order, refine, Columns, Grant, Pass};
use zintukor_plain::{GroupGrant, Ledger};

/// A group's numbers as they were noted after a call.
#[derive(Clone, Copy)]
struct Note {
    call: usize,
    group: u32,
    pass: Pass,
}

/// One list, with what the table shows and what the ledger says.
struct List {
    rng: Rng,
    columns: Columns,
    count: usize,
    ledger: Ledger,
    call: usize,
    /// The numbers that each group had when it was made, while nothing has exploded it.
    made: BTreeMap<u32, Pass>,
    /// The last call that exploded a group.
    exploded: HashMap<u32, usize>,
    notes: Vec<Note>,
    accepted: usize,
    refused: BTreeMap<u32, usize>,
    /// How many decisions followed on past the windows of the day asked about.
    followed_on: usize,
}

impl List {
    fn new(seed: u64, length: usize) -> List {
        let mut rng = Rng::new(seed);
        let group = rng.number().max(1);
        let quota = match rng.below(4) {
            0 => u32::MAX,
            1 => rng.number().max(1),
            _ => rng.between(1, 4_000),
        };
        let mut columns = Columns::new(length);
        assert_eq!(zintukor::fresh(&mut columns, group, quota), Ok(1));
        let ledger = Ledger::fresh(length, group, quota).unwrap();
        let made = BTreeMap::from([(group, Pass { l: 1, r: 1 })]);
        let mut list = List {
            rng,
            columns,
            count: 1,
            ledger,
            call: 0,
            made,
            exploded: HashMap::new(),
            notes: Vec::new(),
            accepted: 0,
            refused: BTreeMap::new(),
            followed_on: 0,
        };
        list.note();
        list
    }

    fn row(&self, at: usize) -> (u32, Pass) {
        (self.columns.id[at], Pass { l: self.columns.l[at], r: self.columns.r[at] })
    }

    /// Notes the numbers of some groups.
    fn note(&mut self) {
        for _ in 0..2 {
            let at = self.rng.below(self.count);
            let (group, pass) = self.row(at);
            self.notes.push(Note { call: self.call, group, pass });
        }
    }

    fn step(&mut self) {
        self.call += 1;
        match self.rng.below(4) {
            0 => self.order(),
            _ => self.refine(),
        }
        self.note();
    }

    fn order(&mut self) {
        let mut id = || match self.rng.below(8) {
            0 => self.rng.number(),
            _ => self.columns.id[self.rng.below(self.count)],
        };
        let (first, second) = (id(), id());
        let engine = of_engine(order(&self.columns, self.count, first, second));
        assert_eq!(engine, of_plain(self.ledger.order(first, second)), "order {first} {second}");
    }

    fn request(&mut self) -> Vec<u8> {
        let lent = Lent::new(&self.columns.id, &self.columns.l, &self.columns.r, &self.columns.q);
        let rng = &mut self.rng;
        let entries = match rng.below(10) {
            0 => 1 + rng.below(lent.id.len()),
            1 => 1,
            _ => 2 + rng.below(5),
        };
        let mut numbers = requests::sound(rng, &lent, self.count, entries);
        match rng.below(10) {
            0 | 1 => requests::break_rule(rng, &mut numbers, &lent, self.count),
            2 => return damaged(rng, &numbers),
            3 => numbers = requests::too_big(rng, &lent, self.count),
            _ => {}
        }
        encode(&numbers)
    }

    fn refine(&mut self) {
        let request = self.request();
        let before = self.columns.clone();
        let engine = of_engine(refine(&mut self.columns, self.count, &request));
        assert_eq!(engine, of_plain(self.ledger.refine(&request)), "refine {request:?}");
        match engine {
            Answer::Count(count) => self.note_made(count, &request),
            Answer::Refused(number) => {
                assert_eq!(self.columns, before, "refused");
                *self.refused.entry(number).or_default() += 1;
            }
            _ => unreachable!(),
        }
    }

    fn note_made(&mut self, count: usize, request: &[u8]) {
        self.accepted += 1;
        let u = zintukor_plain::Request::read(request).unwrap().exploded;
        self.made.remove(&u);
        self.exploded.insert(u, self.call);
        for at in self.count..count {
            let (group, pass) = self.row(at);
            self.made.insert(group, pass);
        }
        self.count = count;
    }

    /// What holds after the list.
    fn end(&mut self) {
        let Columns { id, q, .. } = &self.columns;
        let quotas: BTreeMap<u32, u32> = (0..self.count).map(|at| (id[at], q[at])).collect();
        assert_eq!(quotas, *self.ledger.quotas(), "groups and quotas");
        let table: BTreeMap<u32, Pass> = (0..self.count).map(|at| self.row(at)).collect();
        let shown: BTreeMap<u32, (u32, u32)> =
            table.iter().map(|(&id, pass)| (id, (pass.l, pass.r))).collect();
        assert_eq!(shown, self.ledger.numbers(), "numbers worked out afresh");
        for (group, pass) in &self.made {
            assert_eq!(table[group], *pass, "numbers that group {group} got when it was made");
        }
        self.end_orders();
        self.end_decisions();
    }

    /// The order of any two groups; all pairs in a small table, many in a great one.
    fn end_orders(&mut self) {
        let ids: Vec<u32> = self.ledger.quotas().keys().copied().collect();
        for (at, &first) in ids.iter().enumerate() {
            let seconds: Vec<u32> = match ids.len() {
                0..=40 => ids.clone(),
                n => (0..8).map(|_| ids[self.rng.below(n)]).chain([ids[at]]).collect(),
            };
            for second in seconds {
                let engine = of_engine(order(&self.columns, self.count, first, second));
                assert_eq!(engine, of_plain(self.ledger.order(first, second)), "order {first} {second}");
            }
        }
    }

    /// Decisions with numbers noted at any points, of groups that nothing exploded afterwards.
    fn end_decisions(&mut self) {
        let exploded = &self.exploded;
        self.notes.retain(|note| exploded.get(&note.group).is_none_or(|&call| call <= note.call));
        if self.notes.is_empty() {
            return;
        }
        for _ in 0..30 {
            let rng = &mut self.rng;
            let pass = rng.pick(&self.notes);
            // Few groups and few features, and windows that follow on.
            let groups = [pass, rng.pick(&self.notes), rng.pick(&self.notes)];
            let how_many = rng.below(8);
            let windows = windows::windows(rng, how_many);
            let (mut list, mut paper) = (Vec::new(), Vec::new());
            for &(first, last) in &windows {
                let note = rng.pick(&groups);
                let feature = if rng.once_in(60) { 0 } else { rng.pick(&[1, 1, 1, 2]) };
                let first = if rng.once_in(60) { 0 } else { first };
                let last = if rng.once_in(60) { 1 } else { last };
                list.push(Grant { feature, group: note.pass, first, last: Some(last) });
                paper.push(GroupGrant { feature, group: note.group, first, last });
            }
            let feature = if rng.once_in(20) { 0 } else { rng.pick(&[1, 1, 1, 2]) };
            let day = if rng.once_in(20) { 0 } else { windows::day(rng, &windows) };
            let engine = of_engine(decide(feature, pass.pass, day, &grants(&list)));
            let ledger = of_plain(self.ledger.decide(feature, pass.group, day, &paper));
            assert_eq!(engine, ledger, "decision for group {} on day {day}", pass.group);
            self.followed_on += usize::from(windows::followed_on(engine, &windows, day));
        }
    }
}

/// Runs lists; answers how many requests were accepted, the refusals, and how many decisions
/// followed on.
fn run(
    seeds: std::ops::Range<u64>,
    length: impl Fn(&mut Rng) -> usize,
    steps: usize,
) -> (usize, BTreeMap<u32, usize>, usize) {
    let (mut accepted, mut refused, mut followed_on) = (0, BTreeMap::new(), 0);
    for seed in seeds {
        let _named = Seed(seed);
        let mut rng = Rng::new(!seed);
        let mut list = List::new(seed, length(&mut rng));
        for _ in 0..1 + rng.below(steps) {
            list.step();
        }
        list.end();
        accepted += list.accepted;
        followed_on += list.followed_on;
        for (number, times) in list.refused {
            *refused.entry(number).or_default() += times;
        }
    }
    println!("accepted {accepted}, refused {refused:?}, decisions that followed on {followed_on}");
    (accepted, refused, followed_on)
}

#[test]
fn many_short_lists() {
    let (accepted, refused, followed_on) = run(seeds(1, 3_000), |rng| 1 + rng.below(24), 30);
    if !common::rng::one_seed() {
        assert!(accepted > 3_000 && followed_on > 5_000);
        let seen: Vec<u32> = refused.keys().copied().collect();
        assert_eq!(seen, [1, 2, 3, 4, 5, 6, 7, 20, 21, 22, 23, 24, 26]);
    }
}

#[test]
fn long_lists_in_long_columns() {
    run(seeds(1_000_000, 40), |rng| 200 + rng.below(57), 200);
}
