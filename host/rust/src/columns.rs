//! Owned columns, and the calls on them.

use crate::{lent, Order, Refusal};

/// The four columns of a table, each a vector of its own. Nothing is promised of them here: the
/// engine checks them in every call.
#[derive(Clone, PartialEq, Eq, Debug, Default)]
pub struct Columns {
    /// The groups' ids.
    pub id: Vec<u32>,
    /// Their l-values.
    pub l: Vec<u32>,
    /// Their r-values.
    pub r: Vec<u32>,
    /// Their quotas.
    pub q: Vec<u32>,
}

impl Columns {
    /// Columns of a length, all 0.
    pub fn new(length: usize) -> Columns {
        let column = || vec![0; length];
        Columns { id: column(), l: column(), r: column(), q: column() }
    }
}

/// Writes row 0: the group at (1, 1) with its quota. Answers count 1.
pub fn fresh(columns: &mut Columns, group: u32, quota: u32) -> Result<usize, Refusal> {
    let Columns { id, l, r, q } = columns;
    lent::fresh(id, l, r, q, group, quota)
}

/// Carries a request's bytes out and answers the new count.
pub fn refine(columns: &mut Columns, count: usize, request: &[u8]) -> Result<usize, Refusal> {
    let Columns { id, l, r, q } = columns;
    lent::refine(id, l, r, q, count, request)
}

/// The order of two ids of the table.
pub fn order(columns: &Columns, count: usize, first: u32, second: u32) -> Result<Order, Refusal> {
    let Columns { id, l, r, q } = columns;
    lent::order(id, l, r, q, count, first, second)
}

/// Writes the table into the buffer and answers the byte count; bytes after it stay.
pub fn store(columns: &Columns, count: usize, buffer: &mut [u8]) -> Result<usize, Refusal> {
    let Columns { id, l, r, q } = columns;
    lent::store(id, l, r, q, count, buffer)
}

/// Fills rows from a stored table's bytes and answers the count; rows past it stay.
pub fn read(columns: &mut Columns, bytes: &[u8]) -> Result<usize, Refusal> {
    let Columns { id, l, r, q } = columns;
    lent::read(id, l, r, q, bytes)
}
