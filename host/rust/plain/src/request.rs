//! Requests as they are read.

use crate::{Reader, Refused, DEPTH, ROWS};

/// An entry of a request's forest, in left pre-order.
#[derive(Clone, Copy, PartialEq, Eq, Debug)]
pub struct Entry {
    /// Its group.
    pub id: u32,
    /// Its quota.
    pub quota: u32,
    /// How many children follow it.
    pub children: u32,
}

/// A request that was read whole.
#[derive(Clone, PartialEq, Eq, Debug)]
pub struct Request {
    /// The group to explode.
    pub exploded: u32,
    /// Whether a descendant is a subgroup of its ancestors; upright otherwise.
    pub inverted: bool,
    /// The number of trees.
    pub trees: u32,
    /// The entries, in left pre-order.
    pub entries: Vec<Entry>,
}

/// A number that may not be 0.
#[inline]
pub(crate) fn not_zero(reader: &mut Reader) -> Result<u32, Refused> {
    match reader.number()? {
        0 => Err(Refused(4)),
        value => Ok(value),
    }
}

impl Request {
    /// Reads a request from left to right.
    pub fn read(bytes: &[u8]) -> Result<Request, Refused> {
        let reader = &mut Reader::new(bytes);
        let exploded = not_zero(reader)?;
        let direction = reader.number()?;
        if direction > 1 {
            return Err(Refused(3));
        }
        let trees = not_zero(reader)?;
        // An entry has three bytes at least.
        let mut entries = Vec::with_capacity(ROWS.min(bytes.len() / 3));
        // due[d]: entries yet to come at depth d + 1, below the open ones above it.
        let mut due = [0; DEPTH + 1];
        due[0] = trees;
        let mut depth = 1;
        while depth > 0 {
            if due[depth - 1] == 0 {
                depth -= 1;
                continue;
            }
            if entries.len() == ROWS {
                return Err(Refused(7));
            }
            if depth > DEPTH {
                return Err(Refused(5));
            }
            due[depth - 1] -= 1;
            let id = not_zero(reader)?;
            let quota = not_zero(reader)?;
            let children = reader.number()?;
            entries.push(Entry { id, quota, children });
            due[depth] = children;
            depth += 1;
        }
        if !reader.at_end() {
            return Err(Refused(6));
        }
        Ok(Request { exploded, inverted: direction == 1, trees, entries })
    }
}
