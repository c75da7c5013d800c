//! Refinement: a group is replaced by a forest of groups inside its box.

use crate::table::check;
use crate::{Entry, Refused, Request, ROWS};

/// Carries a request out on the columns and answers the new count.
pub fn refine(
    id: &mut [u32],
    l: &mut [u32],
    r: &mut [u32],
    q: &mut [u32],
    count: usize,
    request: &[u8],
) -> Result<usize, Refused> {
    check(id, l, r, q, count)?;
    let request = Request::read(request)?;
    let row = id[..count].iter().position(|&id| id == request.exploded).ok_or(Refused(20))?;
    entries_fit(&request, &id[..count], row)?;
    let total: u64 = request.entries.iter().map(|entry| u64::from(entry.quota)).sum();
    if total != u64::from(q[row]) {
        return Err(Refused(23));
    }
    let after = count + request.entries.len() - 1;
    if after > id.len() {
        return Err(Refused(24));
    }
    let mut places = [(0, 0); ROWS];
    place(&request, &mut places);
    let (old_l, old_r) = (l[row], r[row]);
    let mut next = count;
    for (entry, (before_l, before_r)) in request.entries.iter().zip(places) {
        let at = if entry.id == request.exploded {
            row
        } else {
            next += 1;
            next - 1
        };
        id[at] = entry.id;
        l[at] = old_l + before_l;
        r[at] = old_r + before_r;
        q[at] = entry.quota;
    }
    Ok(after)
}

/// 21: the exploded id isn't exactly one entry. 22: another entry's id is in the table. 26: or
/// comes twice.
fn entries_fit(request: &Request, table: &[u32], row: usize) -> Result<(), Refused> {
    if request.entries.iter().filter(|entry| entry.id == request.exploded).count() != 1 {
        return Err(Refused(21));
    }
    let mut ids = [0; ROWS];
    let ids = &mut ids[..request.entries.len()];
    for (id, entry) in ids.iter_mut().zip(&request.entries) {
        *id = entry.id;
    }
    ids.sort_unstable();
    let taken = |(at, id): (usize, &u32)| at != row && ids.binary_search(id).is_ok();
    if table.iter().enumerate().any(taken) {
        return Err(Refused(22));
    }
    if ids.windows(2).any(|two| two[0] == two[1]) {
        return Err(Refused(26));
    }
    Ok(())
}

/// The quotas before each entry in L and in R.
///
/// R read backwards is the other order of the same forest, children left to right: post-order
/// for an upright request, pre-order for an inverted one. So R is given out from its end.
fn place(request: &Request, places: &mut [(u32, u32); ROWS]) {
    let total = request.entries.iter().map(|entry| entry.quota).sum();
    let mut walk = Walk { entries: &request.entries, next: 0, l: 0, r: total, places };
    for _ in 0..request.trees {
        if request.inverted {
            walk.inverted();
        } else {
            walk.upright();
        }
    }
}

struct Walk<'a> {
    entries: &'a [Entry],
    next: usize,
    /// The quotas given out in L so far.
    l: u32,
    /// The quotas yet to be given out in R.
    r: u32,
    places: &'a mut [(u32, u32); ROWS],
}

impl Walk<'_> {
    fn upright(&mut self) {
        let at = self.next;
        let entry = self.entries[at];
        self.next += 1;
        self.places[at].0 = self.l;
        self.l += entry.quota;
        for _ in 0..entry.children {
            self.upright();
        }
        self.r -= entry.quota;
        self.places[at].1 = self.r;
    }

    fn inverted(&mut self) {
        let at = self.next;
        let entry = self.entries[at];
        self.next += 1;
        self.r -= entry.quota;
        self.places[at].1 = self.r;
        for _ in 0..entry.children {
            self.inverted();
        }
        self.places[at].0 = self.l;
        self.l += entry.quota;
    }
}
