//! Where two conditions are met, the first counts: the documents' order of checks, written out.

use zintukor::{decide, fresh, lent, order, page, read, refine, reflected, store, Columns, Pass};

/// Columns from rows (id, l, r, q), as long as the rows are many.
fn columns(rows: &[[u32; 4]]) -> Columns {
    let column = |at: usize| rows.iter().map(|row| row[at]).collect();
    Columns { id: column(0), l: column(1), r: column(2), q: column(3) }
}

const SOUND: [[u32; 4]; 2] = [[1, 1, 6, 5], [2, 6, 1, 5]];
const ZERO_AND_EQUAL: [[u32; 4]; 3] = [[1, 1, 1, 1], [1, 2, 2, 1], [3, 3, 0, 1]];
const EQUAL_AND_MEETING: [[u32; 4]; 3] = [[1, 1, 1, 2], [2, 2, 3, 1], [1, 4, 4, 1]];
const MEETING_IN_L: [[u32; 4]; 2] = [[1, 1, 1, 2], [2, 2, 3, 1]];
const MEETING_IN_R: [[u32; 4]; 2] = [[1, 1, 1, 2], [2, 3, 2, 1]];
const PAST: [[u32; 4]; 2] = [[1, 1, 1, 2], [2, u32::MAX, 3, 2]];
const AT_THE_END: [[u32; 4]; 2] = [[1, 1, 1, 2], [2, u32::MAX - 1, 3, 2]];

#[track_caller]
fn refused<A: std::fmt::Debug>(answer: Result<A, zintukor::Refusal>, number: u32) {
    assert_eq!(answer.map_err(|refusal| refusal.number()).unwrap_err(), number);
}

#[test]
fn columns_before_everything_else() {
    for (rows, count, number) in [
        (&SOUND[..], 0, 10),
        (&SOUND, 3, 10),
        (&SOUND, usize::MAX, 10),
        (&[], 0, 10),
        (&ZERO_AND_EQUAL, 4, 10),
        (&ZERO_AND_EQUAL, 3, 11),
        (&ZERO_AND_EQUAL, 2, 12),
        (&EQUAL_AND_MEETING, 3, 12),
        (&EQUAL_AND_MEETING, 2, 13),
        (&MEETING_IN_L, 2, 13),
        (&MEETING_IN_R, 2, 13),
        (&PAST, 2, 11),
    ] {
        let mut lent = columns(rows);
        refused(refine(&mut lent, count, &[]), number);
        refused(order(&lent, count, 0, 0), number);
        refused(store(&lent, count, &mut []), number);
        assert_eq!(lent, columns(rows));
    }
    // Rows past the count have no meaning.
    for (rows, count) in
        [(&SOUND[..], 2), (&ZERO_AND_EQUAL, 1), (&MEETING_IN_L, 1), (&PAST, 1), (&AT_THE_END, 2)]
    {
        let mut lent = columns(rows);
        refused(refine(&mut lent, count, &[]), 1);
        refused(order(&lent, count, 1, 9), 20);
        refused(order(&lent, count, 9, 1), 20);
        refused(store(&lent, count, &mut [0; 4]), 30);
    }
    let mut odd = Columns { q: vec![1], ..columns(&ZERO_AND_EQUAL) };
    refused(refine(&mut odd, 1, &[]), 10);
    refused(fresh(&mut odd, 0, 0), 10);
    refused(read(&mut odd, &[]), 10);
}

/// Requests on two sound rows without room for a third.
#[test]
fn requests_from_left_to_right() {
    for (request, number) in [
        (&[][..], 1),
        (&[0], 4),
        (&[0, 2, 0], 4),
        (&[0x80, 0], 2),
        (&[1, 2, 0], 3),
        (&[1, 2], 3),
        (&[1, 0x80, 0x80, 0x80, 0x80, 0x10], 2),
        (&[1, 0, 0], 4),
        (&[1, 0, 1], 1),
        (&[1, 0, 1, 0], 4),
        (&[1, 0, 1, 1], 1),
        (&[1, 0, 1, 1, 0], 4),
        (&[1, 0, 1, 1, 5], 1),
        (&[1, 0, 1, 1, 5, 1], 1),
        (&[1, 0, 1, 1, 5, 0, 0], 6),
        (&[9, 0, 1, 1, 5, 0, 0], 6),
        (&[9, 0, 1, 1, 5, 0x80], 1),
        // 20 before 21, 21 before 22, 22 before 26, 26 before 23, 23 before 24.
        (&[9, 0, 1, 1, 5, 0], 20),
        (&[1, 0, 2, 2, 1, 0, 2, 1, 0], 21),
        (&[1, 0, 3, 1, 1, 0, 1, 1, 0, 2, 1, 0], 21),
        (&[1, 0, 2, 1, 1, 0, 2, 1, 0], 22),
        (&[1, 0, 4, 3, 1, 0, 3, 1, 0, 1, 1, 0, 2, 1, 0], 22),
        (&[1, 0, 3, 1, 1, 0, 3, 1, 0, 3, 1, 0], 26),
        (&[1, 0, 3, 1, 1, 0, 3, 1, 0, 3, 3, 0], 26),
        (&[1, 0, 2, 1, 1, 0, 3, 1, 0], 23),
        (&[1, 0, 2, 1, 1, 0, 3, 4, 0], 24),
    ] {
        let mut lent = columns(&SOUND);
        refused(refine(&mut lent, 2, request), number);
        assert_eq!(lent, columns(&SOUND));
    }
}

/// An entry that is one too many is refused before its bytes are read; 7 before 5.
#[test]
fn before_an_entry() {
    let mut lent = columns(&SOUND);
    let flat = |entries: usize| [3, 1, 0].repeat(entries);
    let chain = |entries: usize| [3, 1, 1].repeat(entries);
    let request = |trees: [u8; 2], entries: &[u8]| [&[1, 0], &trees[..], entries].concat();
    // Trees 255, 256 and 257 as two bytes.
    let (t255, t256, t257) = ([0xFF, 1], [0x80, 2], [0x81, 2]);
    refused(refine(&mut lent, 2, &request(t257, &flat(256))), 7);
    refused(refine(&mut lent, 2, &request(t257, &flat(255))), 1);
    refused(refine(&mut lent, 2, &request(t256, &flat(256))), 21);
    refused(refine(&mut lent, 2, &request(t255, &flat(256))), 6);
    let chained = |trees: u8, before: usize, entries: usize| {
        let head = if trees < 128 { vec![1, 0, trees] } else { vec![1, 0, trees, 1] };
        [head, flat(before), chain(entries)].concat()
    };
    refused(refine(&mut lent, 2, &chained(1, 0, 16)), 5);
    refused(refine(&mut lent, 2, &chained(1, 0, 15)), 1);
    // 240 trees of one entry and a chain of 16: the 257th entry has depth 17.
    refused(refine(&mut lent, 2, &chained(0xF1, 240, 16)), 7);
    refused(refine(&mut lent, 2, &chained(0xF0, 239, 16)), 5);
    assert_eq!(lent, columns(&SOUND));
}

#[test]
fn questions_and_grants() {
    let pass = Pass { l: 1, r: 1 };
    refused(decide(0, pass, 1, &[0x80, 0]), 15);
    refused(decide(1, Pass { l: 0, r: 1 }, 1, &[0]), 15);
    refused(decide(1, Pass { l: 1, r: 0 }, 1, &[0]), 15);
    refused(decide(1, pass, 0, &[0]), 15);
    for (grants, number) in [
        // A grant is checked once its five numbers are read.
        (&[0, 0, 0, 0][..], 1),
        (&[0, 0, 0, 0, 0x80, 0], 2),
        (&[0, 1, 1, 1, 0], 14),
        (&[1, 0, 1, 1, 0], 14),
        (&[1, 1, 0, 1, 0], 14),
        (&[1, 1, 1, 0, 0], 14),
        (&[1, 1, 1, 2, 1], 14),
        // The first grant that is bad counts, of another feature too.
        (&[9, 1, 1, 2, 1, 0x80, 0], 14),
        (&[1, 1, 1, 1, 0, 9], 1),
        (&[1, 1, 1, 1, 0, 9, 1, 1, 0, 0], 14),
    ] {
        refused(decide(1, pass, 1, grants), number);
    }
}

/// The list's refusals come before the buffer's; 14 before 31 in a grant, and the first bad grant counts.
#[test]
fn pages() {
    // Day 36526, which has no date, as three bytes.
    const LATE: [u8; 3] = [0xAE, 0x9D, 2];
    let late = |before: &[u8], after: &[u8]| [before, &LATE, after].concat();
    for (l, r, day) in [(0, 1, 1), (1, 0, 1), (1, 1, 0), (0, 0, 0)] {
        for list in [&[][..], &[0x80, 0], &[0], &[0; 5], &late(&[1, 1, 1], &[0]), &[1, 1, 1, 1, 0]] {
            refused(page(Pass { l, r }, day, list), 15);
            refused(lent::page(l, r, day, list, &mut []), 15);
        }
    }
    for (list, number) in [
        (vec![1, 1, 1, 1], 1),
        (vec![0, 0, 0, 0], 1),
        (vec![0, 0, 0, 0, 0x80, 0], 2),
        (vec![0, 1, 1, 1, 0], 14),
        (late(&[1, 1, 1], &[]), 1),
        (late(&[1, 1, 1], &[0x80, 0]), 2),
        (late(&[0, 1, 1], &[0]), 14),
        (late(&[1, 1, 1], &[1]), 14),
        (late(&[1, 1, 1, 0], &[]), 14),
        (late(&[1, 1, 1], &[0]), 31),
        (late(&[1, 1, 1, 1], &[]), 31),
        (late(&[1, 1, 1, 1], &[0]), 31),
        (late(&[1, 1, 1, 1], &[1, 1, 1, 2, 1]), 31),
        (late(&[1, 1, 1, 2, 1, 1, 1, 1, 1], &[]), 14),
        (late(&[1, 1, 1, 1, 0, 1, 1, 1, 1], &[]), 31),
        (vec![1, 1, 1, 1, 0, 1], 1),
    ] {
        // Whether the grants apply or not, and whatever the buffer's length.
        for (l, r) in [(1, 1), (2, 1), (1, 2)] {
            refused(page(Pass { l, r }, 1, &list), number);
            refused(lent::page(l, r, 1, &list, &mut []), number);
            refused(lent::page(l, r, 1, &list, &mut [0; 100]), number);
        }
    }
    refused(lent::page(1, 1, 1, &[1, 1, 1, 1, 0], &mut [0; 40]), 30);
}

#[test]
fn stored_tables() {
    for (bytes, number) in [
        (&[][..], 1),
        (&[0x80, 0], 2),
        (&[0, 0x80, 0], 10),
        (&[4, 0x80, 0], 10),
        (&[0x81, 2], 10),
        (&[1, 0, 0, 0], 1),
        (&[1, 0, 0, 0, 0x80, 0], 2),
        (&[1, 0, 0, 0, 0, 0], 6),
        (&[1, 0, 0, 0, 0], 11),
        (&[3, 1, 1, 1, 1, 1, 2, 2, 1, 3, 3, 0, 1], 11),
        (&[3, 1, 1, 1, 2, 2, 2, 3, 1, 1, 4, 4, 1], 12),
        (&[2, 1, 1, 1, 2, 2, 2, 3, 1], 13),
        (&[2, 1, 1, 1, 2, 2, 3, 2, 1], 13),
        (&[2, 1, 1, 1, 2, 2, 3, 2, 1, 1], 6),
    ] {
        let mut lent = columns(&ZERO_AND_EQUAL);
        refused(read(&mut lent, bytes), number);
        assert_eq!(lent, columns(&ZERO_AND_EQUAL));
    }
}

/// A reflected tree from left to right, then 6, 33 and the buffer.
#[test]
fn reflected_trees() {
    // So many inner nodes, each the child of the one before; the tree is said to have `nodes`.
    let chain = |nodes: u8, inner: u8, after: &[u8]| {
        let mut bytes = vec![nodes];
        bytes.extend((1..=inner).flat_map(|k| [k, 100 + k, 1]));
        bytes.extend(after);
        bytes
    };
    for (bytes, number) in [
        (vec![], 1),
        (vec![0x80, 0], 2),
        (vec![0, 0], 32),
        (vec![65, 0x80, 0], 32),
        (vec![1, 0, 0x80, 0], 4),
        (vec![1, 0, 0, 1], 4),
        // A lower id counts once the number of children is read.
        (vec![1, 7, 8], 1),
        (vec![1, 7, 0, 0x80, 0], 2),
        (vec![1, 7, 8, 0, 0], 32),
        (vec![1, 7, 0, 1, 0], 32),
        // The tree is whole, or no node is left, or its depth is 17: nothing of the next is read.
        (vec![2, 7, 0, 0], 32),
        (vec![2, 7, 0, 0, 0x80, 0], 32),
        (vec![1, 7, 7, 1], 32),
        (vec![1, 7, 7, 1, 0x80, 0], 32),
        (vec![2, 7, 7, 2, 7, 0, 0, 0], 32),
        (chain(17, 15, &[]), 1),
        (chain(17, 15, &[0]), 4),
        (chain(17, 16, &[]), 5),
        (chain(17, 16, &[0]), 5),
        (chain(64, 16, &[0x80, 0]), 5),
        (chain(16, 16, &[]), 32),
        (chain(16, 15, &[1, 0, 0, 0]), 6),
        (chain(16, 15, &[1, 0, 0]), 33),
        (vec![2, 7, 7, 1, 7, 0, 0, 0x80], 6),
        (vec![2, 7, 7, 1, 9, 0, 0], 33),
        (vec![2, 7, 8, 1, 8, 0, 0], 33),
    ] {
        refused(reflected(&bytes), number);
        for mut buffer in [vec![], vec![0xEE; 1_000]] {
            refused(lent::reflected(&bytes, &mut buffer), number);
            assert!(buffer.iter().all(|&byte| byte == 0xEE));
        }
    }
    refused(lent::reflected(&[2, 7, 8, 1, 9, 0, 0], &mut [0; 14]), 30);
}
