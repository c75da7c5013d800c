//! Document 02's note 5: reflected trees of the old product. What is written for the paper's figures
//! and at every limit is told by hand; lists are carried out, and the order of every two groups is
//! held to Table 2 of document 000.

mod common;

use std::collections::BTreeSet;

use common::both::{of_plain, Answer, Both};
use common::bytes::{damaged, encode};
use common::guarded::{Guarded, Lent};
use common::rng::{one_seed, seeds, Rng, Seed};
use common::{reflected as trees, tables};
use zintukor::{lent, reflected, Refusal, NODES, REFLECTED};
use zintukor_plain::{Ledger, Reader, Reflected};

/// The paper's Figure 1(c): D is 1 and d 11, P1 is 2 and p1 12, P2 is 6 and p2 16; the tasks are 3 to 5,
/// 7 and 8.
const FIGURE_1C: [u32; 25] = [8, 1, 11, 2, 2, 12, 3, 3, 0, 0, 4, 0, 0, 5, 0, 0, 6, 16, 2, 7, 0, 0, 8, 0, 0];

/// Figure 1(d): P2 has the task T6, which is 9, besides.
const FIGURE_1D: [u32; 28] =
    [9, 1, 11, 2, 2, 12, 3, 3, 0, 0, 4, 0, 0, 5, 0, 0, 6, 16, 3, 7, 0, 0, 8, 0, 0, 9, 0, 0];

/// The fresh pair and the requests of a list.
fn parts(list: &[u8]) -> ([u32; 2], Vec<&[u8]>) {
    let reader = &mut Reader::new(list);
    let pair = [reader.number().unwrap(), reader.number().unwrap()];
    let mut requests = Vec::new();
    let mut rest = &list[encode(&pair).len()..];
    while !rest.is_empty() {
        let length = Reader::new(rest).number().unwrap();
        let (request, after) = rest[encode(&[length]).len()..].split_at(length as usize);
        requests.push(request);
        rest = after;
    }
    (pair, requests)
}

/// Carries a list out in columns of 256 rows, in the engine, the plain version and the ledger: all of
/// it is accepted. Answers the columns, the count and the ledger.
fn carried_out(both: &mut Both, list: &[u8]) -> (Lent, usize, Ledger) {
    let ([group, quota], requests) = parts(list);
    let column = vec![0xEEEE; 256];
    let mut lent = Lent::new(&column, &column, &column, &column);
    let mut ledger = Ledger::fresh(256, group, quota).unwrap();
    let mut count = 1;
    assert_eq!(both.fresh(&mut lent, group, quota), Answer::Count(1));
    for request in requests {
        let answer = both.refine(&mut lent, count, request);
        assert_eq!(of_plain(ledger.refine(request)), answer);
        let Answer::Count(more) = answer else { panic!("{request:?}: {answer:?}") };
        assert!(more > count);
        count = more;
    }
    assert_eq!(count, quota as usize);
    (lent, count, ledger)
}

/// Carries a tree's list out. The groups are the tree's, with quota 1 each, and the order of every two
/// of them is Table 2.
fn moved_over(both: &mut Both, bytes: &[u8]) {
    let list = reflected(bytes).unwrap();
    let (lent, count, ledger) = carried_out(both, &list);
    let groups = Reflected::read(bytes).unwrap().groups();
    let ids: BTreeSet<u32> = groups.iter().map(|group| group.id).collect();
    let [id, l, r, q] = lent.parts();
    assert_eq!((count, ids), (groups.len(), id[..count].iter().copied().collect()));
    assert!(q[..count].iter().all(|&quota| quota == 1));
    for first in &groups {
        for second in &groups {
            let table_2 = of_plain(Ok(first.order(second)));
            let engine = lent::order(id, l, r, q, count, first.id, second.id).unwrap();
            assert_eq!(Answer::from(engine), table_2, "{bytes:?}: {first:?} {second:?}");
            assert_eq!(of_plain(ledger.order(first.id, second.id)), table_2);
        }
    }
}

/// The list of some numbers, by the engine and by the plain version.
fn list(numbers: &[u32]) -> Vec<u8> {
    let mut buffer = Guarded::new(&[0xEE; REFLECTED]);
    let bytes = encode(numbers);
    let answer = Both::default().reflected(&bytes, &mut buffer);
    let Answer::Count(length) = answer else { panic!("{numbers:?}: {answer:?}") };
    buffer.part()[..length].to_vec()
}

/// A list from its pair and its requests, as numbers.
fn listed(pair: [u32; 2], requests: &[&[u32]]) -> Vec<u8> {
    let mut list = encode(&pair);
    for request in requests {
        let request = encode(request);
        list.extend(encode(&[request.len() as u32]));
        list.extend(request);
    }
    list
}

/// A chain of so many nodes: inner node k has the ids 2k and 2k + 1.
fn chain(nodes: u32) -> Vec<u32> {
    let mut numbers = vec![nodes];
    numbers.extend((1..nodes).flat_map(|k| [2 * k, 2 * k + 1, 1]));
    numbers.extend([2 * nodes, 0, 0]);
    numbers
}

/// A root, 1 and 2, with so many leaves: 3 upward.
fn star(leaves: u32) -> Vec<u32> {
    let mut numbers = vec![1 + leaves, 1, 2, leaves];
    numbers.extend((0..leaves).flat_map(|k| [3 + k, 0, 0]));
    numbers
}

/// The same tree with ids of five bytes.
fn with_great_ids(numbers: &[u32]) -> Vec<u32> {
    let id = |(at, &number): (usize, &u32)| match at % 3 {
        0 => number,
        _ if number == 0 => 0,
        _ => u32::MAX - at as u32,
    };
    numbers.iter().enumerate().map(id).collect()
}

#[test]
fn figures_of_the_paper() {
    let requests_1c: [&[u32]; 6] = [
        &[1, 0, 1, 1, 1, 1, 2, 9, 1, 11, 1, 0],
        &[2, 0, 2, 2, 5, 0, 6, 4, 0],
        &[2, 0, 1, 2, 1, 1, 3, 3, 1, 12, 1, 0],
        &[3, 0, 3, 3, 1, 0, 4, 1, 0, 5, 1, 0],
        &[6, 0, 1, 6, 1, 1, 7, 2, 1, 16, 1, 0],
        &[7, 0, 2, 7, 1, 0, 8, 1, 0],
    ];
    let requests_1d: [&[u32]; 6] = [
        &[1, 0, 1, 1, 1, 1, 2, 10, 1, 11, 1, 0],
        &[2, 0, 2, 2, 5, 0, 6, 5, 0],
        requests_1c[2],
        requests_1c[3],
        &[6, 0, 1, 6, 1, 1, 7, 3, 1, 16, 1, 0],
        &[7, 0, 3, 7, 1, 0, 8, 1, 0, 9, 1, 0],
    ];
    assert_eq!(list(&FIGURE_1C), listed([1, 11], &requests_1c));
    assert_eq!(list(&FIGURE_1D), listed([1, 12], &requests_1d));
    // Each group with those that it is a proper subgroup of: the ways down in Figure 1(c).
    let below: [(u32, &[u32]); 11] = [
        (1, &[2, 3, 4, 5, 6, 7, 8, 11, 12, 16]),
        (2, &[3, 4, 5, 11, 12]),
        (3, &[11, 12]),
        (4, &[11, 12]),
        (5, &[11, 12]),
        (6, &[7, 8, 11, 16]),
        (7, &[11, 16]),
        (8, &[11, 16]),
        (12, &[11]),
        (16, &[11]),
        (11, &[]),
    ];
    let both = &mut Both::default();
    let (lent, count, _) = carried_out(both, &list(&FIGURE_1C));
    for (first, below_first) in below {
        for (second, below_second) in below {
            let told = if first == second {
                Answer::Same
            } else if below_first.contains(&second) {
                Answer::First
            } else if below_second.contains(&first) {
                Answer::Second
            } else {
                Answer::Incomparable
            };
            assert_eq!(both.order(&lent, count, first, second), told, "{first} {second}");
        }
    }
    moved_over(both, &encode(&FIGURE_1C));
    moved_over(both, &encode(&FIGURE_1D));
}

#[test]
fn at_the_limits() {
    let both = &mut Both::default();
    // One node: the pair alone.
    for id in [1, 127, 128, u32::MAX] {
        assert_eq!(list(&[1, id, 0, 0]), encode(&[id, 1]));
        moved_over(both, &encode(&[1, id, 0, 0]));
    }
    // Two nodes, of the greatest ids.
    const M: u32 = u32::MAX;
    let two = [2, M, M - 1, 1, M - 2, 0, 0];
    assert_eq!(list(&two), listed([M, 3], &[&[M, 0, 1, M, 1, 1, M - 2, 1, 1, M - 1, 1, 0]]));
    moved_over(both, &encode(&two));
    // A chain of depth 16.
    let request = |k: u32| [2 * k, 0, 1, 2 * k, 1, 1, 2 * k + 2, 31 - 2 * k, 1, 2 * k + 1, 1, 0];
    let requests: Vec<[u32; 12]> = (1..16).map(request).collect();
    let requests: Vec<&[u32]> = requests.iter().map(|request| &request[..]).collect();
    assert_eq!(list(&chain(16)), listed([2, 31], &requests));
    moved_over(both, &encode(&chain(16)));
    // 63 leaves: a request of 192 bytes, after a length of two.
    let mut spread = vec![3, 0, 63];
    spread.extend((3..66).flat_map(|id| [id, 1, 0]));
    assert_eq!(list(&star(63)), listed([1, 65], &[&[1, 0, 1, 1, 1, 1, 3, 63, 1, 2, 1, 0], &spread]));
    assert_eq!(list(&star(63)).len(), 2 + 13 + 2 + 192);
    moved_over(both, &encode(&star(63)));
    // 17 and 18 leaves whose ids have five bytes: requests of 126 bytes, after a length of one, and of 133.
    for (leaves, length) in [(17, 6 + 29 + 127), (18, 6 + 29 + 135)] {
        let numbers = with_great_ids(&star(leaves));
        assert_eq!(list(&numbers).len(), length);
        moved_over(both, &encode(&numbers));
    }
}

/// The number that some numbers are refused with, by the engine and by the plain version.
fn refused(numbers: &[u32]) -> u32 {
    match Both::default().reflected(&encode(numbers), &mut Guarded::new(&[0; REFLECTED])) {
        Answer::Refused(number) => number,
        answer => panic!("{numbers:?}: {answer:?}"),
    }
}

#[test]
fn refusals_at_the_borders() {
    // The number of nodes.
    assert_eq!([refused(&[]), refused(&[0]), refused(&[65]), refused(&[u32::MAX])], [1, 32, 32, 32]);
    assert_eq!([refused(&[1]), refused(&[64]), refused(&star(64))], [1, 1, 32]);
    // The nodes end before the tree is whole.
    let counted = |count: u32, mut numbers: Vec<u32>| {
        numbers[0] = count;
        numbers
    };
    assert_eq!([refused(&counted(64, star(64))), refused(&counted(63, star(63)))], [32, 32]);
    // The tree is whole before all nodes that are counted: found before a byte of the next.
    assert_eq!([refused(&counted(64, star(62))), refused(&counted(2, chain(1)))], [32, 32]);
    // Depth 17, before a byte of the node is read, unless no node is left.
    assert_eq!([refused(&chain(17)), refused(&chain(18)), refused(&chain(17)[..49])], [5, 5, 5]);
    assert_eq!([refused(&chain(17)[..48]), refused(&counted(16, chain(17)))], [1, 32]);
    // Upper id 0, as it is read.
    assert_eq!([refused(&[1, 0]), refused(&[1, 0, 5, 5]), refused(&[2, 1, 2, 1, 0])], [4, 4, 4]);
    // Lower ids, once the child count is read.
    assert_eq!([refused(&[1, 7, 8]), refused(&[1, 7, 8, 0]), refused(&[1, 7, 0, 1])], [1, 32, 32]);
    assert_eq!([refused(&[2, 7, 0, 2]), refused(&[2, 7, 8, 1, 9, 10, 0])], [32, 32]);
    // A number is cut or in another form.
    let bytes = |bytes: &[u8]| Both::default().reflected(bytes, &mut Guarded::new(&[]));
    assert_eq!(bytes(&[1, 7, 0x80]), Answer::Refused(1));
    assert_eq!(bytes(&[1, 7, 8, 0x80, 0]), Answer::Refused(2));
    assert_eq!(bytes(&[0xC1, 0]), Answer::Refused(2));
    // Bytes after the tree, before an id that repeats.
    let mut numbers = FIGURE_1C.to_vec();
    numbers.push(0);
    assert_eq!(refused(&numbers), 6);
    numbers[1] = 2;
    assert_eq!(refused(&numbers), 6);
    // Each id in the place of each other: the ids of leaves, inner nodes and lower groups.
    let ids: Vec<usize> = (1..FIGURE_1C.len()).filter(|at| at % 3 != 0 && FIGURE_1C[*at] != 0).collect();
    assert_eq!(ids.len(), 11);
    for &one in &ids {
        for &other in ids.iter().filter(|&&other| other != one) {
            let mut numbers = FIGURE_1C;
            numbers[one] = numbers[other];
            assert_eq!(refused(&numbers), 33);
        }
    }
    // The buffer last.
    assert_eq!(lent::reflected(&encode(&FIGURE_1C), &mut [0; 73]), Err(Refusal::BufferShort));
    assert_eq!(lent::reflected(&encode(&FIGURE_1C), &mut [0; 74]), Ok(74));
}

/// The bytes of the longest requests that a tree of so many nodes has, where so many depths are left and
/// ids have five bytes; `None` where there is no such tree. Numbers of groups have one byte.
fn longest(nodes: usize, depths: usize, known: &mut [[Option<Option<usize>>; 17]; 65]) -> Option<usize> {
    if depths == 0 || nodes == 0 {
        return None;
    }
    if let Some(known) = known[nodes][depths] {
        return known;
    }
    // forests[n]: the longest of so many trees with n nodes in all.
    let trees: Vec<Option<usize>> = (0..nodes).map(|nodes| longest(nodes, depths - 1, known)).collect();
    let mut forests = vec![None; nodes];
    forests[0] = Some(0);
    let mut most = if nodes == 1 { Some(0) } else { None };
    for children in 1..nodes {
        let with_one_more =
            |n: usize| (0..n).filter_map(|rest| Some(forests[rest]? + trees[n - rest]?)).max();
        forests = (0..nodes).map(with_one_more).collect();
        let spread = 5 + 1 + 1 + 7 * children;
        let length = if spread < 128 { 1 } else { 2 };
        let own = 29 + if children > 1 { length + spread } else { 0 };
        most = most.max(forests[nodes - 1].map(|below| own + below));
    }
    known[nodes][depths] = Some(most);
    most
}

/// No list is longer than 1,805 bytes, 28 less than the room that hosts are told of, which asks nothing of
/// the depth; and one is as long: five ways of 16 nodes or less below four nodes with two children each.
#[test]
fn the_longest_list() {
    let mut known = [[None; 17]; 65];
    let most = (1..=NODES).filter_map(|nodes| longest(nodes, 16, &mut known)).max();
    // The pair has six bytes.
    assert_eq!(most.map(|most| 6 + most), Some(1_805));
    assert_eq!(6 + 29 * (NODES - 1), REFLECTED);
    // The last way is so short that the nodes are 64.
    let mut depths: Vec<usize> = (1..=16).collect();
    for from in [4, 3, 2] {
        depths.extend(from..=16);
    }
    depths.extend(4..4 + 64 - depths.len());
    let bytes = encode(&with_great_ids(&trees::tree(&mut Rng::new(1), &depths)));
    assert_eq!(reflected(&bytes).map(|list| list.len()), Ok(1_805));
    moved_over(&mut Both::default(), &bytes);
}

/// Every tree of up to eight nodes: every list of depths that a left pre-order has is tried.
#[test]
fn every_small_tree() {
    fn grow(depths: &mut Vec<usize>, nodes: usize, found: &mut Vec<Vec<usize>>) {
        if depths.len() == nodes {
            found.push(depths.clone());
            return;
        }
        for depth in 2..=1 + depths[depths.len() - 1] {
            depths.push(depth);
            grow(depths, nodes, found);
            depths.pop();
        }
    }
    let (rng, both) = (&mut Rng::new(5), &mut Both::default());
    for (nodes, how_many) in (1..).zip([1, 1, 2, 5, 14, 42, 132, 429]) {
        let mut found = Vec::new();
        grow(&mut vec![1], nodes, &mut found);
        assert_eq!(found.len(), how_many);
        for depths in found {
            moved_over(both, &encode(&trees::tree(rng, &depths)));
        }
    }
}

/// Random trees: each moves over, and its bytes, changed, cut or longer, are read alike.
#[test]
fn many_trees() {
    let mut both = Both::default();
    for seed in seeds(1, 3_000) {
        let _named = Seed(seed);
        let mut rng = Rng::new(seed);
        let nodes = if seed % 30 == 0 { 21 + rng.below(44) } else { 1 + rng.below(20) };
        let numbers = trees::sound(&mut rng, nodes);
        let bytes = encode(&numbers);
        moved_over(&mut both, &bytes);
        let needed = reflected(&bytes).unwrap().len();
        for length in [needed, needed - 1, needed + 1, needed + 100, 0] {
            let answer = both.reflected(&bytes, &mut tables::buffer(&mut rng, length));
            assert_eq!(answer, if length < needed { Answer::Refused(30) } else { Answer::Count(needed) });
        }
        for _ in 0..20 {
            let mut numbers = if rng.once_in(8) { trees::too_big(&mut rng) } else { numbers.clone() };
            let mut bytes = encode(&numbers);
            match rng.below(6) {
                0 => bytes.truncate(rng.below(bytes.len())),
                1 => bytes.push(rng.next() as u8),
                2 => {
                    let at = rng.below(bytes.len());
                    bytes[at] = rng.next() as u8;
                }
                3 => bytes = damaged(&mut rng, &numbers),
                _ => {
                    trees::break_rule(&mut rng, &mut numbers);
                    bytes = encode(&numbers);
                }
            }
            // Where it is still a tree, its list is accepted too.
            let mut buffer = tables::buffer(&mut rng, REFLECTED);
            if let Answer::Count(length) = both.reflected(&bytes, &mut buffer) {
                carried_out(&mut both, &buffer.part()[..length]);
            }
        }
    }
    println!("{:?}", both.refused["reflected"]);
    if !one_seed() {
        let seen: Vec<u32> = both.refused["reflected"].keys().copied().collect();
        assert_eq!(seen, [1, 2, 4, 5, 6, 30, 32, 33]);
        assert!(both.refused["reflected"].values().all(|&times| times > 100));
    }
}
