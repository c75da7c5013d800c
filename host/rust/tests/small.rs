//! Document 02's note 4: every small request of a size, in order. What is listed is told beforehand:
//! by hand for size 3, and for each size by trying every child count. The engine and the plain
//! version are held to it.

mod common;

use std::collections::{BTreeMap, HashSet};

use common::both::{Answer, Both};
use common::bytes::encode;
use common::guarded::{Guarded, Lent};
use zintukor::{lent, small_requests, Refusal, Table, SMALL_REQUESTS};
use zintukor_plain::{Ledger, Request};

/// The sizes that have requests: how many, and their bytes in all.
const SIZES: [(u32, usize, usize); 6] =
    [(1, 2, 14), (2, 4, 40), (3, 10, 130), (4, 28, 448), (5, 84, 1_596), (6, 264, 5_808)];

/// Sizes that have none: next to the others, and those that a byte or two cut short.
const OTHERS: [u32; 14] =
    [0, 7, 8, 100, 255, 256, 257, 262, 65_535, 65_537, 65_542, 1 << 31, (1 << 31) + 3, u32::MAX];

/// The list of a size, as the engine writes it.
fn list(size: u32) -> Vec<u8> {
    let mut bytes = vec![0xEE; SMALL_REQUESTS];
    let length = lent::small_requests(size, &mut bytes).unwrap();
    bytes.truncate(length);
    bytes
}

/// The same by the plain version.
fn plain_list(size: u32) -> Vec<u8> {
    let mut bytes = vec![0xEE; SMALL_REQUESTS];
    let length = zintukor_plain::small_requests(size, &mut bytes).unwrap();
    bytes.truncate(length);
    bytes
}

/// A list's requests, each after its length: a number of one byte.
fn requests(mut list: &[u8]) -> Vec<&[u8]> {
    let mut requests = Vec::new();
    while let [length, rest @ ..] = list {
        assert!(*length < 128);
        let (request, rest) = rest.split_at(usize::from(*length));
        requests.push(request);
        list = rest;
    }
    requests
}

/// What the order goes by: the direction, the tree count, and the child counts from left to right.
fn key(request: &Request) -> (bool, u32, Vec<u32>) {
    let children = request.entries.iter().map(|entry| entry.children).collect();
    (request.inverted, request.trees, children)
}

/// The numbers of a request for group 1: ids 1 upward in left pre-order, and quota 1 each.
fn numbers(direction: u32, trees: u32, children: &[u32]) -> Vec<u32> {
    let mut numbers = vec![1, direction, trees];
    for (id, &children) in (1..).zip(children) {
        numbers.extend([id, 1, children]);
    }
    numbers
}

/// The list of a size, found by trying: every direction, tree count and child counts, the smaller
/// first, of which those are kept that read as a request. So many entries have fewer children each.
fn tried(size: u32) -> Vec<u8> {
    let mut list = Vec::new();
    for direction in [0, 1] {
        for trees in 1..=size {
            for choice in 0..size.pow(size) {
                let digit = |place: u32| choice / size.pow(place) % size;
                let children: Vec<u32> = (0..size).rev().map(digit).collect();
                let request = encode(&numbers(direction, trees, &children));
                if Request::read(&request).is_ok() {
                    list.push(request.len() as u8);
                    list.extend(request);
                }
            }
        }
    }
    list
}

#[test]
fn the_ten_of_size_3() {
    let ten: [[u8; 13]; 10] = [
        [12, 1, 0, 1, 1, 1, 1, 2, 1, 1, 3, 1, 0],
        [12, 1, 0, 1, 1, 1, 2, 2, 1, 0, 3, 1, 0],
        [12, 1, 0, 2, 1, 1, 0, 2, 1, 1, 3, 1, 0],
        [12, 1, 0, 2, 1, 1, 1, 2, 1, 0, 3, 1, 0],
        [12, 1, 0, 3, 1, 1, 0, 2, 1, 0, 3, 1, 0],
        [12, 1, 1, 1, 1, 1, 1, 2, 1, 1, 3, 1, 0],
        [12, 1, 1, 1, 1, 1, 2, 2, 1, 0, 3, 1, 0],
        [12, 1, 1, 2, 1, 1, 0, 2, 1, 1, 3, 1, 0],
        [12, 1, 1, 2, 1, 1, 1, 2, 1, 0, 3, 1, 0],
        [12, 1, 1, 3, 1, 1, 0, 2, 1, 0, 3, 1, 0],
    ];
    assert_eq!(list(3), ten.concat());
    assert_eq!(plain_list(3), ten.concat());
    assert_eq!(tried(3), ten.concat());
    assert!(small_requests(3).eq(ten.map(|request| request[1..].to_vec())));
}

/// Every legal shape comes, none comes twice, and nothing else does: for each size as tried.
#[test]
fn every_shape_in_order() {
    for (size, ..) in SIZES {
        let tried = tried(size);
        assert_eq!(list(size), tried, "size {size}");
        assert_eq!(plain_list(size), tried, "size {size}, plain");
    }
}

#[test]
fn how_many() {
    let mut all = HashSet::new();
    for (size, how_many, bytes) in SIZES {
        let list = list(size);
        let requests = requests(&list);
        assert_eq!((requests.len(), list.len()), (how_many, bytes), "size {size}");
        assert!(requests.iter().all(|request| request.len() == 3 + 3 * size as usize));
        assert!(small_requests(size).eq(requests.iter().copied()));
        all.extend(requests.into_iter().map(<[u8]>::to_vec));
    }
    assert_eq!(all.len(), 392);
    for size in OTHERS {
        assert_eq!((list(size), plain_list(size), small_requests(size).len()), (vec![], vec![], 0), "{size}");
    }
}

/// Each reads as a request for group 1 with the entries it is to have, and comes after the one before.
#[test]
fn each_as_it_is_read() {
    for (size, ..) in SIZES {
        let mut before = None;
        for request in small_requests(size) {
            let read = Request::read(&request).unwrap();
            assert_eq!((read.exploded, read.entries.len()), (1, size as usize));
            for (id, entry) in (1..).zip(&read.entries) {
                assert_eq!((entry.id, entry.quota), (id, 1), "{request:?}");
            }
            let key = Some(key(&read));
            assert!(before < key, "{request:?}");
            before = key;
        }
    }
}

/// From a fresh group 1 with the size as its quota, in columns of just so many rows and of more: the
/// rows are those of the plain version and of the ledger.
#[test]
fn refine_accepts_each() {
    let mut both = Both::default();
    let mut accepted = 0;
    for (size, ..) in SIZES {
        let least = size as usize;
        for request in small_requests(size) {
            for rows in [least, least + 1, 100, 256] {
                let column = vec![0xEEEE; rows];
                let mut lent = Lent::new(&column, &column, &column, &column);
                assert_eq!(both.fresh(&mut lent, 1, size), Answer::Count(1));
                assert_eq!(both.refine(&mut lent, 1, &request), Answer::Count(least), "{request:?}");
                let [id, l, r, q] = lent.parts();
                let numbers: BTreeMap<u32, (u32, u32)> =
                    (0..least).map(|row| (id[row], (l[row], r[row]))).collect();
                let mut ledger = Ledger::fresh(rows, 1, size).unwrap();
                assert_eq!(ledger.refine(&request), Ok(least));
                assert_eq!(numbers, ledger.numbers(), "{request:?}");
                // Ids 1 upward, quota 1 each; rows past them stay.
                assert!(id[..least].iter().copied().eq(1..=size));
                assert!(q[..least].iter().all(|&quota| quota == 1));
                assert!(lent.parts().iter().all(|column| column[least..].iter().all(|&x| x == 0xEEEE)));
            }
            accepted += 1;
        }
    }
    assert_eq!(accepted, 392);
}

/// In fewer rows there is no room, and another quota is not the sum.
#[test]
fn fewer_rows_and_other_quotas() {
    for (size, ..) in SIZES {
        for request in small_requests(size) {
            for quota in (1..=7).chain([u32::MAX]).filter(|&quota| quota != size) {
                let mut table = Table::fresh(6, 1, quota).unwrap();
                assert_eq!(table.refine(&request), Err(Refusal::QuotaSum));
                assert_eq!(table.count(), 1);
            }
            for rows in 1..size as usize {
                let mut table = Table::fresh(rows, 1, size).unwrap();
                assert_eq!(table.refine(&request), Err(Refusal::RowsFull));
                assert_eq!(table.count(), 1);
            }
        }
    }
}

/// Exact, one short, longer; the bytes after the list stay, and all of them where it is refused.
#[test]
fn buffers() {
    let mut both = Both::default();
    for (size, _, needed) in SIZES {
        let list = tried(size);
        for length in [needed, needed + 1, needed + 22, needed + 1_000] {
            let mut buffer = Guarded::new(&vec![0xEE; length]);
            assert_eq!(both.small_requests(size, &mut buffer), Answer::Count(needed));
            let after = vec![0xEE; length - needed];
            buffer.assert_is(&Guarded::new(&[&list[..], &after].concat()), "the list and what is after");
        }
        for length in [needed - 1, needed - 4 - 3 * size as usize, needed / 2, 1, 0] {
            let before = Guarded::new(&vec![0xEE; length]);
            let mut buffer = before.clone();
            assert_eq!(both.small_requests(size, &mut buffer), Answer::Refused(30));
            buffer.assert_is(&before, "refused");
        }
    }
    assert_eq!(both.refused["small_requests"], BTreeMap::from([(30, 30)]));
}

/// There is nothing to write, so no buffer is too short, and each stays.
#[test]
fn sizes_without_requests() {
    let mut both = Both::default();
    for size in OTHERS {
        for length in [0, 1, 130, SMALL_REQUESTS] {
            let before = Guarded::new(&vec![0xEE; length]);
            let mut buffer = before.clone();
            assert_eq!(both.small_requests(size, &mut buffer), Answer::Count(0), "size {size}");
            buffer.assert_is(&before, "nothing is written");
        }
    }
}
