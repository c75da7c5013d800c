//! The table: its checks, a fresh one, and the order of two groups.

use crate::{Refused, ROWS};

/// What order says of two ids.
#[derive(Clone, Copy, PartialEq, Eq, Debug)]
pub enum Order {
    /// One id named twice.
    Same,
    /// The first is a subgroup of the second.
    First,
    /// The second is a subgroup of the first.
    Second,
    /// Neither is a subgroup of the other.
    Incomparable,
}

/// 10: lengths differ or aren't 1 to 256.
pub(crate) fn lengths(id: &[u32], l: &[u32], r: &[u32], q: &[u32]) -> Result<(), Refused> {
    let length = id.len();
    if l.len() != length || r.len() != length || q.len() != length {
        return Err(Refused(10));
    }
    if !(1..=ROWS).contains(&length) {
        return Err(Refused(10));
    }
    Ok(())
}

/// 11, 12 and 13, over rows that are all in use; at most 256.
pub(crate) fn rows(id: &[u32], l: &[u32], r: &[u32], q: &[u32]) -> Result<(), Refused> {
    let sound = |start: u32, quota: u32| start != 0 && quota - 1 <= u32::MAX - start;
    for (((&id, &l), &r), &q) in id.iter().zip(l).zip(r).zip(q) {
        if id == 0 || q == 0 || !sound(l, q) || !sound(r, q) {
            return Err(Refused(11));
        }
    }
    let mut ids = [0; ROWS];
    let ids = &mut ids[..id.len()];
    ids.copy_from_slice(id);
    ids.sort_unstable();
    if ids.windows(2).any(|two| two[0] == two[1]) {
        return Err(Refused(12));
    }
    if meet(l, q) || meet(r, q) {
        return Err(Refused(13));
    }
    Ok(())
}

/// Whether two of these ranges meet. In the order of their starts it's enough to compare
/// neighbours: where those are disjoint, each range ends before all later ones begin.
fn meet(start: &[u32], q: &[u32]) -> bool {
    let mut ranges = [0u64; ROWS];
    let ranges = &mut ranges[..start.len()];
    for ((range, &start), &q) in ranges.iter_mut().zip(start).zip(q) {
        *range = u64::from(start) << 32 | u64::from(q);
    }
    ranges.sort_unstable();
    ranges.windows(2).any(|two| (two[0] >> 32) + (two[0] & 0xFFFF_FFFF) > two[1] >> 32)
}

/// 10 to 13 of columns and their count.
pub fn check(id: &[u32], l: &[u32], r: &[u32], q: &[u32], count: usize) -> Result<(), Refused> {
    lengths(id, l, r, q)?;
    if count == 0 || count > id.len() {
        return Err(Refused(10));
    }
    rows(&id[..count], &l[..count], &r[..count], &q[..count])
}

/// Writes row 0: the group at (1, 1) with its quota. Answers count 1.
pub fn fresh(
    id: &mut [u32],
    l: &mut [u32],
    r: &mut [u32],
    q: &mut [u32],
    group: u32,
    quota: u32,
) -> Result<usize, Refused> {
    lengths(id, l, r, q)?;
    if group == 0 || quota == 0 {
        return Err(Refused(11));
    }
    id[0] = group;
    l[0] = 1;
    r[0] = 1;
    q[0] = quota;
    Ok(1)
}

/// The order of two ids of the table.
pub fn order(
    id: &[u32],
    l: &[u32],
    r: &[u32],
    q: &[u32],
    count: usize,
    first: u32,
    second: u32,
) -> Result<Order, Refused> {
    check(id, l, r, q, count)?;
    let row = |group: u32| id[..count].iter().position(|&id| id == group).ok_or(Refused(20));
    let (a, b) = (row(first)?, row(second)?);
    Ok(if a == b {
        Order::Same
    } else if l[a] <= l[b] && r[a] <= r[b] {
        Order::First
    } else if l[b] <= l[a] && r[b] <= r[a] {
        Order::Second
    } else {
        Order::Incomparable
    })
}

#[cfg(test)]
mod tests {
    use super::*;

    /// The rows' rules pair by pair, as document 01 has them.
    fn by_pairs(id: &[u32], l: &[u32], r: &[u32], q: &[u32]) -> Result<(), Refused> {
        let n = id.len();
        let end = |start: u32, q: u32| u64::from(start) + u64::from(q) - 1;
        let disjoint =
            |x: &[u32], i: usize, j: usize| end(x[i], q[i]) < x[j].into() || end(x[j], q[j]) < x[i].into();
        for i in 0..n {
            if [id[i], l[i], r[i], q[i]].contains(&0) {
                return Err(Refused(11));
            }
            if end(l[i], q[i]) > 4_294_967_295 || end(r[i], q[i]) > 4_294_967_295 {
                return Err(Refused(11));
            }
        }
        let pairs = || (0..n).flat_map(|i| (0..i).map(move |j| (i, j)));
        if pairs().any(|(i, j)| id[i] == id[j]) {
            return Err(Refused(12));
        }
        if pairs().any(|(i, j)| !disjoint(l, i, j) || !disjoint(r, i, j)) {
            return Err(Refused(13));
        }
        Ok(())
    }

    #[test]
    fn sorted_check_is_the_pairwise_one() {
        let mut state = 88_172_645_463_325_252u64;
        let mut random = |below: u64| {
            state ^= state << 13;
            state ^= state >> 7;
            state ^= state << 17;
            (state >> 20) % below
        };
        let mut seen = [0u32; 4];
        for _ in 0..200_000 {
            let n = 1 + random(4) as usize;
            let high = random(4) == 0;
            let mut column = |most: u64, high: bool| -> Vec<u32> {
                (0..n)
                    .map(|_| random(most) as u32)
                    .map(|x| if high && x != 0 { u32::MAX - x + 1 } else { x })
                    .collect()
            };
            let (id, l, r, q) = (column(12, high), column(40, high), column(40, high), column(8, false));
            let answer = rows(&id, &l, &r, &q);
            assert_eq!(answer, by_pairs(&id, &l, &r, &q), "{id:?} {l:?} {r:?} {q:?}");
            seen[answer.err().map_or(0, |refused| refused.0 as usize - 10)] += 1;
        }
        assert!(seen.iter().all(|&times| times > 1_000), "{seen:?}");
    }
}
