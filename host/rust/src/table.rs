//! A table: columns together with their count.

use crate::{columns, Columns, Order, Pass, Refusal, ROWS};

/// A table of groups. Its rows are made by the engine alone, so they are always sound.
#[derive(Clone, Debug)]
pub struct Table {
    columns: Columns,
    count: usize,
}

/// A row of a table.
#[derive(Clone, Copy, PartialEq, Eq, Hash, Debug)]
pub struct Row {
    /// The group's id.
    pub id: u32,
    /// Its l-value.
    pub l: u32,
    /// Its r-value.
    pub r: u32,
    /// Its quota: how many numbers it has to give out.
    pub quota: u32,
}

impl Table {
    /// A table with room for `rows` groups (1 to 256) and one group in it.
    pub fn fresh(rows: usize, group: u32, quota: u32) -> Result<Table, Refusal> {
        let mut columns = room(rows);
        let count = columns::fresh(&mut columns, group, quota)?;
        Ok(Table { columns, count })
    }

    /// A stored table, with room for `rows` groups (1 to 256).
    pub fn read(rows: usize, bytes: &[u8]) -> Result<Table, Refusal> {
        let mut columns = room(rows);
        let count = columns::read(&mut columns, bytes)?;
        Ok(Table { columns, count })
    }

    /// Carries a request's bytes out and answers the new count.
    pub fn refine(&mut self, request: &[u8]) -> Result<usize, Refusal> {
        self.count = columns::refine(&mut self.columns, self.count, request)?;
        Ok(self.count)
    }

    /// The order of two groups.
    pub fn order(&self, first: u32, second: u32) -> Result<Order, Refusal> {
        columns::order(&self.columns, self.count, first, second)
    }

    /// The table's stored form.
    pub fn store(&self) -> Result<Vec<u8>, Refusal> {
        // A number has 5 bytes at most.
        let mut bytes = vec![0; 5 + self.count * 4 * 5];
        let length = columns::store(&self.columns, self.count, &mut bytes)?;
        bytes.truncate(length);
        Ok(bytes)
    }

    /// The number of groups.
    pub fn count(&self) -> usize {
        self.count
    }

    /// The rows in use.
    pub fn rows(&self) -> impl Iterator<Item = Row> + '_ {
        let Columns { id, l, r, q } = &self.columns;
        (0..self.count).map(move |at| Row { id: id[at], l: l[at], r: r[at], quota: q[at] })
    }

    /// A group's numbers, if the group is in the table.
    pub fn pass(&self, group: u32) -> Option<Pass> {
        self.rows().find(|row| row.id == group).map(|row| Pass { l: row.l, r: row.r })
    }

    /// The columns, rows past the count included.
    pub fn columns(&self) -> &Columns {
        &self.columns
    }
}

/// Columns for so many rows. A length that the engine refuses is kept small enough to be made.
fn room(rows: usize) -> Columns {
    Columns::new(rows.min(ROWS + 1))
}
