//! Document 01's examples, through the wrappers: those marked P and those that are run only. Then
//! cases of document 02.

mod common;

use common::rng::Rng;
use zintukor::{
    decide, entry, grants, page, reflected, write_number, Decision, Entry, Grant, Order, Pass, Refusal,
    Request, Row, Table,
};

fn row(id: u32, l: u32, r: u32, quota: u32) -> Row {
    Row { id, l, r, quota }
}

fn rows(table: &Table) -> Vec<Row> {
    table.rows().collect()
}

#[test]
fn numbers_in_bytes() {
    for (number, bytes) in
        [(127, &[0x7F][..]), (128, &[0x80, 0x01]), (u32::MAX, &[0xFF, 0xFF, 0xFF, 0xFF, 0x0F])]
    {
        let mut written = Vec::new();
        write_number(&mut written, number);
        assert_eq!(written, bytes);
        // The engine writes it so, and reads it.
        let stored = Table::fresh(1, number, 1).unwrap().store().unwrap();
        assert_eq!(stored, [&[1], bytes, &[1, 1, 1]].concat());
        assert_eq!(rows(&Table::read(1, &stored).unwrap()), [row(number, 1, 1, 1)]);
    }
}

/// Each call that reads numbers refuses these bytes by the same number.
#[test]
fn bad_numbers() {
    for (bytes, refusal) in [
        (&[0x80][..], Refusal::NumberCut),
        (&[0x80, 0x00], Refusal::NumberForm),
        (&[0xFF, 0xFF, 0xFF, 0xFF, 0x10], Refusal::NumberForm),
    ] {
        assert_eq!(Table::fresh(1, 1, 1).unwrap().refine(bytes), Err(refusal));
        assert_eq!(decide(7, Pass { l: 1, r: 1 }, 1, bytes), Err(refusal));
        assert_eq!(page(Pass { l: 1, r: 1 }, 1, bytes), Err(refusal));
        assert_eq!(Table::read(1, bytes).unwrap_err(), refusal);
        assert_eq!(reflected(bytes), Err(refusal));
    }
}

#[test]
fn one_entry_changes_nothing() {
    let mut table = Table::fresh(1, 1, 1).unwrap();
    assert_eq!(table.refine(&[1, 0, 1, 1, 1, 0]), Ok(1));
    assert_eq!(rows(&table), [row(1, 1, 1, 1)]);
}

#[test]
fn two_trees() {
    let request = [1, 0, 2, 1, 1, 0, 2, 1, 0];
    let mut table = Table::fresh(2, 1, 1).unwrap();
    assert_eq!(table.refine(&request), Err(Refusal::QuotaSum));
    assert_eq!(rows(&table), [row(1, 1, 1, 1)]);
    let mut table = Table::fresh(2, 1, 2).unwrap();
    assert_eq!(table.refine(&request), Ok(2));
    assert_eq!(rows(&table), [row(1, 1, 2, 1), row(2, 2, 1, 1)]);
    assert_eq!(table.order(1, 2), Ok(Order::Incomparable));
    assert_eq!(table.order(2, 1), Ok(Order::Incomparable));
    assert_eq!(table.order(2, 2), Ok(Order::Same));
}

#[test]
fn a_child_upright_and_inverted() {
    let mut table = Table::fresh(2, 1, 2).unwrap();
    assert_eq!(table.refine(&[1, 0, 1, 1, 1, 1, 2, 1, 0]), Ok(2));
    assert_eq!(rows(&table), [row(1, 1, 1, 1), row(2, 2, 2, 1)]);
    assert_eq!(table.order(1, 2), Ok(Order::FirstIsSubgroup));
    let mut table = Table::fresh(2, 1, 2).unwrap();
    assert_eq!(table.refine(&[1, 1, 1, 1, 1, 1, 2, 1, 0]), Ok(2));
    assert_eq!(rows(&table), [row(1, 2, 2, 1), row(2, 1, 1, 1)]);
    assert_eq!(table.order(1, 2), Ok(Order::SecondIsSubgroup));
}

#[test]
fn quotas_are_not_summed_in_32_bits() {
    let mut table = Table::fresh(2, 1, 1).unwrap();
    let request = Request::upright(1).tree(entry(1, u32::MAX)).tree(entry(2, 2));
    assert_eq!(table.refine(&request.bytes()), Err(Refusal::QuotaSum));
    assert_eq!(rows(&table), [row(1, 1, 1, 1)]);
}

#[test]
fn days() {
    let pass = Pass { l: 1, r: 1 };
    let at = Pass { l: 2, r: 2 };
    let list = grants(&[Grant::new(7, at, 10).until(20)]);
    assert_eq!(list, [7, 2, 2, 10, 20]);
    for (day, decision) in [
        (9, Decision::Ahead(10)),
        (10, Decision::OnUntil(20)),
        (20, Decision::OnUntil(20)),
        (21, Decision::Ended(20)),
    ] {
        assert_eq!(decide(7, pass, day, &list), Ok(decision));
    }
    let open = grants(&[Grant::new(7, at, 10)]);
    assert_eq!(open, [7, 2, 2, 10, 0]);
    assert_eq!(decide(7, pass, 10, &open), Ok(Decision::OnOpen));
    assert_eq!(decide(7, pass, u32::MAX, &open), Ok(Decision::OnOpen));
    let aside = grants(&[Grant::new(7, Pass { l: 1, r: 2 }, 10).until(20)]);
    assert_eq!(decide(7, Pass { l: 2, r: 1 }, 15, &aside), Ok(Decision::Never));
    assert_eq!(decide(7, pass, 15, &[]), Ok(Decision::Never));
}

/// A group has its own grants.
#[test]
fn a_grant_to_the_group_itself() {
    let pass = Pass { l: 2, r: 2 };
    assert_eq!(decide(7, pass, 15, &grants(&[Grant::new(7, pass, 10)])), Ok(Decision::OnOpen));
}

fn chain(depth: u32) -> Entry {
    (1..depth).rev().fold(entry(depth, 1), |below, id| entry(id, 1).child(below))
}

#[test]
fn depth_16_passes() {
    let mut table = Table::fresh(256, 1, 16).unwrap();
    let request = Request::upright(1).tree(chain(16));
    assert_eq!(table.refine(&request.bytes()), Ok(16));
    assert!(rows(&table).iter().all(|row| row.l == row.id && row.r == row.id));
}

#[test]
fn depth_17_is_refused() {
    let mut table = Table::fresh(256, 1, 17).unwrap();
    let before = table.columns().clone();
    let request = Request::upright(1).tree(chain(17));
    assert_eq!(table.refine(&request.bytes()), Err(Refusal::Depth));
    assert_eq!(*table.columns(), before);
}

/// Figure 9(b) of the ntree paper, as the program `grow` has it.
#[test]
fn figure_9b() {
    let mut table = Table::fresh(256, 1, 100).unwrap();
    let mut ok = |request: Request, bytes: &[u8], count: usize| {
        assert_eq!(request.bytes(), bytes);
        assert_eq!(table.refine(bytes), Ok(count));
    };
    ok(
        Request::upright(1).tree(entry(1, 5).child(entry(2, 90).child(entry(5, 5)))),
        &[1, 0, 1, 1, 5, 1, 2, 90, 1, 5, 5, 0],
        3,
    );
    ok(
        Request::upright(2).trees([entry(2, 15), entry(3, 15), entry(4, 60)]),
        &[2, 0, 3, 2, 15, 0, 3, 15, 0, 4, 60, 0],
        5,
    );
    ok(
        Request::upright(4).tree(entry(4, 42)).tree(entry(9, 6).children([entry(10, 6), entry(11, 6)])),
        &[4, 0, 2, 4, 42, 0, 9, 6, 2, 10, 6, 0, 11, 6, 0],
        8,
    );
    ok(
        Request::inverted(4).tree(entry(8, 6).child(entry(4, 24).child(entry(6, 6)).child(entry(7, 6)))),
        &[4, 1, 1, 8, 6, 1, 4, 24, 2, 6, 6, 0, 7, 6, 0],
        11,
    );
    let expected = [
        row(1, 1, 1, 5),
        row(2, 6, 81, 15),
        row(5, 96, 96, 5),
        row(3, 21, 66, 15),
        row(4, 48, 36, 24),
        row(9, 78, 6, 6),
        row(10, 84, 18, 6),
        row(11, 90, 12, 6),
        row(8, 72, 60, 6),
        row(6, 36, 30, 6),
        row(7, 42, 24, 6),
    ];
    assert_eq!(rows(&table), expected);
    // Stored and read back, it is the same table, and its bytes are the same.
    let bytes = table.store().unwrap();
    let back = Table::read(11, &bytes).unwrap();
    assert_eq!(rows(&back), expected);
    assert_eq!(back.store().unwrap(), bytes);
}

/// The decision on feature 7 for the pass (1, 1), over windows of it at (2, 2); last day 0 is open.
fn renewed(day: u32, windows: &[(u32, u32)]) -> Decision {
    let at = Pass { l: 2, r: 2 };
    let list: Vec<Grant> =
        windows.iter().map(|&(first, last)| Grant::new(7, at, first).until(last)).collect();
    decide(7, Pass { l: 1, r: 1 }, day, &grants(&list)).unwrap()
}

/// Both ways round.
#[track_caller]
fn both_ways(day: u32, one: (u32, u32), other: (u32, u32), decision: Decision) {
    assert_eq!(renewed(day, &[one, other]), decision);
    assert_eq!(renewed(day, &[other, one]), decision);
}

/// Document 02, note 1.
#[test]
fn renewals_that_follow_on() {
    both_ways(15, (10, 20), (21, 30), Decision::OnUntil(30));
    both_ways(10, (10, 20), (21, 30), Decision::OnUntil(30));
    both_ways(20, (10, 20), (21, 30), Decision::OnUntil(30));
    both_ways(21, (10, 20), (21, 30), Decision::OnUntil(30));
    both_ways(100, (1, 100), (101, 101), Decision::OnUntil(101));
    // A gap of a day.
    both_ways(15, (10, 20), (22, 30), Decision::OnUntil(20));
    both_ways(21, (10, 20), (22, 30), Decision::Ended(20));
    // Overlapping, contained, equal.
    both_ways(15, (10, 20), (20, 30), Decision::OnUntil(30));
    both_ways(15, (10, 20), (16, 30), Decision::OnUntil(30));
    both_ways(15, (10, 20), (16, 18), Decision::OnUntil(20));
    both_ways(15, (10, 20), (16, 20), Decision::OnUntil(20));
    both_ways(15, (10, 20), (10, 20), Decision::OnUntil(20));
    assert_eq!(renewed(15, &[(21, 30), (10, 20), (21, 30)]), Decision::OnUntil(30));
    // One that lies within the next does not end the run.
    assert_eq!(renewed(15, &[(10, 20), (21, 22), (21, 30), (23, 25), (31, 40)]), Decision::OnUntil(40));
    // An ended one neither begins a run nor cuts it.
    assert_eq!(renewed(15, &[(1, 5), (10, 20), (6, 14), (21, 30)]), Decision::OnUntil(30));
    // Ended and ahead stay as they are.
    both_ways(21, (10, 20), (30, 40), Decision::Ended(20));
    both_ways(31, (10, 20), (21, 30), Decision::Ended(30));
    both_ways(9, (10, 20), (21, 30), Decision::Ahead(10));
    both_ways(9, (10, 20), (21, 0), Decision::Ahead(10));
}

#[test]
fn a_renewal_without_an_end() {
    both_ways(15, (10, 20), (21, 0), Decision::OnOpen);
    both_ways(15, (10, 20), (18, 0), Decision::OnOpen);
    both_ways(15, (10, 20), (22, 0), Decision::OnUntil(20));
    both_ways(15, (10, 20), (10, 0), Decision::OnOpen);
    for last in [(31, 0), (30, 0), (21, 0)] {
        assert_eq!(renewed(15, &[last, (21, 30), (10, 20)]), Decision::OnOpen);
    }
    assert_eq!(renewed(15, &[(32, 0), (21, 30), (10, 20)]), Decision::OnUntil(30));
}

/// A renewal counts only where it applies.
#[test]
fn renewals_of_others() {
    let at = Pass { l: 2, r: 2 };
    let first = Grant::new(7, at, 10).until(20);
    let after = |feature: u32, l: u32, r: u32| Grant::new(feature, Pass { l, r }, 21).until(30);
    for (renewal, last) in [
        (after(7, 2, 2), 30),
        (after(7, 3, 9), 30),
        (after(8, 2, 2), 20),
        (after(7, 1, 2), 20),
        (after(7, 2, 1), 20),
        (Grant { last: None, ..after(8, 2, 2) }, 20),
        (Grant { last: None, ..after(7, 1, 2) }, 20),
    ] {
        for list in [[first, renewal], [renewal, first]] {
            assert_eq!(decide(7, at, 15, &grants(&list)), Ok(Decision::OnUntil(last)), "{renewal:?}");
        }
    }
    // A bad grant is refused, also past the run's end.
    let bad = Grant::new(7, at, 40).until(39);
    assert_eq!(decide(7, at, 15, &grants(&[first, after(7, 2, 2), bad])), Err(Refusal::Grant));
}

#[test]
fn three_in_a_chain_in_each_order() {
    let chain = [(10, 20), (21, 30), (31, 40)];
    let open = [(10, 20), (21, 30), (31, 0)];
    let apart = [(10, 20), (22, 30), (31, 40)];
    for [a, b, c] in [[0, 1, 2], [0, 2, 1], [1, 0, 2], [1, 2, 0], [2, 0, 1], [2, 1, 0]] {
        assert_eq!(renewed(15, &[chain[a], chain[b], chain[c]]), Decision::OnUntil(40));
        assert_eq!(renewed(15, &[open[a], open[b], open[c]]), Decision::OnOpen);
        assert_eq!(renewed(15, &[apart[a], apart[b], apart[c]]), Decision::OnUntil(20));
        assert_eq!(renewed(21, &[apart[a], apart[b], apart[c]]), Decision::Ended(20));
        assert_eq!(renewed(25, &[apart[a], apart[b], apart[c]]), Decision::OnUntil(40));
    }
}

#[test]
fn a_run_to_the_greatest_day() {
    let most = u32::MAX;
    both_ways(15, (10, 20), (21, most), Decision::OnUntil(most));
    both_ways(15, (10, most - 1), (most, most), Decision::OnUntil(most));
    both_ways(15, (10, most - 1), (most, 0), Decision::OnOpen);
    both_ways(15, (10, most - 2), (most, 0), Decision::OnUntil(most - 2));
    both_ways(15, (10, most), (most, 0), Decision::OnOpen);
    both_ways(most, (most, most), (10, most - 1), Decision::OnUntil(most));
    // The day after the greatest is not day 0: nothing from day 1 on follows it.
    both_ways(most, (most, most), (1, 1), Decision::OnUntil(most));
    both_ways(most - 1, (10, most), (1, 1), Decision::OnUntil(most));
}

/// 1,000 grants of three days each, which follow on.
#[test]
fn a_chain_of_1000() {
    let mut chain: Vec<(u32, u32)> = (0..1_000).map(|k| (10 + 3 * k, 12 + 3 * k)).collect();
    let all = Decision::OnUntil(3_009);
    assert_eq!(renewed(11, &chain), all);
    chain.reverse();
    assert_eq!(renewed(11, &chain), all);
    let mut rng = Rng::new(1);
    for _ in 0..3 {
        rng.shuffle(&mut chain);
        assert_eq!(renewed(11, &chain), all);
    }
    // One of them a day short, and the run ends there.
    let short = chain.iter().position(|window| window.0 == 1_510).unwrap();
    chain[short].1 -= 1;
    assert_eq!(renewed(11, &chain), Decision::OnUntil(1_511));
}
