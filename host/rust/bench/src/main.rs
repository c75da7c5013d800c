//! The engine against plain Rust, in one run on the same inputs, both built for release.
//!
//! `cargo run --release --bin bench`. Each figure is the median of 41 rounds, the two versions in
//! turn. The engine's times include the safe wrappers. No buffer or column is cleared first:
//! rows past the count and the bytes of a buffer are those of earlier calls. What refine changes
//! is restored from a copy before each round, outside the timed part.

mod inputs;
mod instead;
mod reflected;
mod small;
mod timing;

use std::hint::black_box;

use timing::{compare, compare_reading, Times};
use zintukor::{Columns, Decision, Grant, Pass, Table, NODES, REFLECTED, SMALL_REQUESTS};
use zintukor_plain::Refused;

/// Prints rows of one call by size, with the growth from the row before.
struct Sizes {
    call: &'static str,
    unit: f64,
    before: Option<f64>,
}

impl Sizes {
    fn new(call: &'static str) -> Sizes {
        Sizes { call, unit: 1.0, before: None }
    }

    fn row(&mut self, size: &str, times: Times) {
        let (engine, plain) = (times.engine / self.unit, times.plain / self.unit);
        let growth = self.before.map_or(String::new(), |before| format!("{:.2}", engine / before));
        self.before = Some(engine);
        let ratio = engine / plain;
        println!("{:<8}{size:<36}{engine:>12.1}{plain:>12.1}{ratio:>8.2}{growth:>9}", self.call);
    }
}

/// The engine's decision as the plain version says it.
fn as_plain(decision: Decision) -> zintukor_plain::Decision {
    match decision {
        Decision::OnOpen => zintukor_plain::Decision::Open,
        Decision::OnUntil(day) => zintukor_plain::Decision::Until(day),
        Decision::Ended(day) => zintukor_plain::Decision::Ended(day),
        Decision::Ahead(day) => zintukor_plain::Decision::Ahead(day),
        Decision::Never => zintukor_plain::Decision::Never,
    }
}

/// Feature 7 on day 10,000, over grants; the time is per grant.
fn decide(sizes: &mut Sizes, size: &str, pass: Pass, grants: &[Grant]) {
    let list = zintukor::grants(grants);
    let (feature, day) = (7, 10_000);
    let Pass { l, r } = pass;
    let plain = zintukor_plain::decide(feature, l, r, day, &list).unwrap();
    assert_eq!(zintukor::decide(feature, pass, day, &list).map(as_plain), Ok(plain));
    let times = compare_reading(
        || zintukor::decide(feature, black_box(pass), day, black_box(&list)),
        || zintukor_plain::decide(feature, black_box(l), r, day, black_box(&list)),
    );
    sizes.unit = grants.len() as f64;
    sizes.row(&format!("{size}, per grant"), times);
}

fn decides() {
    let table = inputs::table(256);
    let pass = table.pass(1).unwrap();
    let mut sizes = Sizes::new("decide");
    for how_many in [10, 1_000, 100_000] {
        decide(&mut sizes, &format!("{how_many} grants"), pass, &inputs::grants(&table, how_many));
    }
    // Grants that follow on, each from the day after the one before it.
    let chain = inputs::chain(7, pass, 10_000, 1_000);
    let reverse: Vec<Grant> = chain.iter().rev().copied().collect();
    for (size, chain) in [
        ("chain of 1000 in order", &chain),
        ("chain of 1000 in reverse", &reverse),
        ("chain of 1000 shuffled", &inputs::shuffled(&chain)),
    ] {
        decide(&mut Sizes::new("decide"), size, pass, chain);
    }
}

/// A page on day 10,000 into a buffer of just its size; the time is per grant.
fn page(sizes: &mut Sizes, size: &str, pass: Pass, grants: &[Grant]) {
    let list = zintukor::grants(grants);
    let day = 10_000;
    let Pass { l, r } = pass;
    let text = zintukor::page(pass, day, &list).unwrap();
    let (mut one, mut other) = (vec![0; text.len()], vec![0; text.len()]);
    let times = compare_reading(
        || zintukor::lent::page(black_box(l), r, day, black_box(&list), &mut one),
        || zintukor_plain::page(black_box(l), r, day, black_box(&list), &mut other),
    );
    assert_eq!(one, text.as_bytes());
    assert_eq!(other, one);
    sizes.unit = grants.len() as f64;
    sizes.row(&format!("{size}, per grant"), times);
}

fn pages() {
    let pass = Pass { l: 1_000, r: 1_000 };
    let mut sizes = Sizes::new("page");
    for how_many in [10, 1_000, 100_000] {
        page(&mut sizes, &format!("{how_many} grants, half apply"), pass, &inputs::half(pass, how_many));
    }
    // What a grant that applies and one that doesn't take.
    let half = inputs::half(pass, 1_000);
    let (apply, aside): (Vec<Grant>, Vec<Grant>) = half.iter().partition(|grant| pass.l <= grant.group.l);
    page(&mut Sizes::new("page"), "all apply", pass, &apply);
    page(&mut Sizes::new("page"), "none applies", pass, &aside);
}

fn refine(sizes: &mut Sizes, table: &Table, entries: u32, twice: bool) {
    let request = inputs::request(table, entries, twice);
    let count = table.count();
    let from = table.columns();
    let (mut one, mut other) = (from.clone(), from.clone());
    let Columns { id, l, r, q } = &mut other;
    let plain = zintukor_plain::refine(id, l, r, q, count, &request).map_err(|refused| refused.0);
    assert_eq!(plain.is_err(), twice);
    assert_eq!(zintukor::refine(&mut one, count, &request).map_err(|refusal| refusal.number()), plain);
    assert_eq!(one, other);
    let times = compare(
        &mut vec![from.clone(); 64],
        |copy| inputs::restore(copy, from),
        |copy| zintukor::refine(copy, count, black_box(&request)),
        |Columns { id, l, r, q }| zintukor_plain::refine(id, l, r, q, count, black_box(&request)),
    );
    sizes.row(&format!("{count} rows, {entries} entries{}", if twice { ", an id twice" } else { "" }), times);
}

fn refines() {
    let mut sizes = Sizes::new("refine");
    for groups in [1, 16, 64, 250] {
        refine(&mut sizes, &inputs::table(groups), 4, false);
    }
    let mut sizes = Sizes::new("refine");
    for (groups, entries) in [(1, 16), (1, 64), (1, 256), (128, 128)] {
        refine(&mut sizes, &inputs::table(groups), entries, false);
    }
    for (groups, entries) in [(1, 4), (1, 256), (128, 128)] {
        refine(&mut Sizes::new("refine"), &inputs::table(groups), entries, true);
    }
}

fn order() {
    let mut sizes = Sizes::new("order");
    for groups in [1, 16, 64, 256] {
        let table = inputs::table(groups);
        let Columns { id, l, r, q } = table.columns();
        let (first, second) = (id[groups - 1], id[groups / 2]);
        let times = compare_reading(
            || zintukor::lent::order(black_box(id), l, r, q, groups, first, second),
            || zintukor_plain::order(black_box(id), l, r, q, groups, first, second),
        );
        sizes.row(&format!("{groups} rows"), times);
    }
}

fn store_and_read() {
    let mut stores = Sizes::new("store");
    let mut read = Vec::new();
    for groups in [1, 16, 64, 256] {
        let table = inputs::table(groups);
        let Columns { id, l, r, q } = table.columns();
        let (mut one, mut other) = (vec![0; 6_000], vec![0; 6_000]);
        let times = compare_reading(
            || zintukor::lent::store(black_box(id), l, r, q, groups, &mut one),
            || zintukor_plain::store(black_box(id), l, r, q, groups, &mut other),
        );
        assert_eq!(one, other);
        stores.row(&format!("{groups} rows"), times);
        let bytes = table.store().unwrap();
        let (mut one, mut other) = (table.columns().clone(), table.columns().clone());
        let times = compare_reading(
            || zintukor::read(&mut one, black_box(&bytes)),
            || {
                let Columns { id, l, r, q } = &mut other;
                zintukor_plain::read(id, l, r, q, black_box(&bytes))
            },
        );
        assert_eq!(one, other);
        read.push((groups, times));
    }
    let mut reads = Sizes::new("read");
    for (groups, times) in read {
        reads.row(&format!("{groups} rows"), times);
    }
}

/// A plain version of small_requests.
type Plain = fn(u32, &mut [u8]) -> Result<usize, Refused>;

/// The small requests of a size into a buffer of just their bytes.
fn small_requests(sizes: &mut Sizes, what: &str, size: u32, plain: Plain) {
    let length = zintukor::lent::small_requests(size, &mut [0; SMALL_REQUESTS]).unwrap();
    let (mut one, mut other) = (vec![0; length], vec![0; length]);
    let times = compare_reading(
        || zintukor::lent::small_requests(black_box(size), &mut one),
        || plain(black_box(size), &mut other),
    );
    assert_eq!(one, other);
    sizes.row(what, times);
}

fn small_sizes() {
    let mut sizes = Sizes::new("small");
    small_requests(&mut sizes, "size 3, 10 requests", 3, small::small_requests);
    small_requests(&mut sizes, "size 6, 264 requests", 6, small::small_requests);
    // The tests' plain version makes all forests as trees, and sorts.
    small_requests(&mut Sizes::new("small"), "size 6, trees and a sort", 6, zintukor_plain::small_requests);
}

/// A plain version of reflected.
type PlainReflected = fn(&[u8], &mut [u8]) -> Result<usize, Refused>;

/// A reflected tree of 64 nodes with so many children each, into a buffer of just its list.
fn reflected(what: &str, children: usize, plain: PlainReflected) {
    let tree = inputs::reflected(NODES, children);
    let length = zintukor::lent::reflected(&tree, &mut [0; REFLECTED]).unwrap();
    let (mut one, mut other) = (vec![0; length], vec![0; length]);
    let times = compare_reading(
        || zintukor::lent::reflected(black_box(&tree), &mut one),
        || plain(black_box(&tree), &mut other),
    );
    assert_eq!(one, other);
    Sizes::new("reflect").row(what, times);
}

fn reflected_trees() {
    reflected("64 nodes, 2 children each", 2, reflected::reflected);
    reflected("64 nodes, 63 leaves", 63, reflected::reflected);
    // The tests' plain version makes a tree.
    reflected("64 nodes, 2 children each, a tree", 2, zintukor_plain::reflected);
}

fn main() {
    if cfg!(debug_assertions) {
        eprintln!("These times mean nothing without --release.");
    }
    println!("{:<8}{:<36}{:>12}{:>12}{:>8}{:>9}", "call", "size", "engine ns", "plain ns", "ratio", "growth");
    decides();
    pages();
    refines();
    order();
    store_and_read();
    small_sizes();
    reflected_trees();
    instead::report();
}
