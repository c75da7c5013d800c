//! Stored tables: count, then id, l, r, q of each row.

use crate::number::{length, put};
use crate::table::{check, lengths, rows};
use crate::{Reader, Refused, ROWS};

/// Writes the table into the buffer and answers the byte count; bytes after it stay.
pub fn store(
    id: &[u32],
    l: &[u32],
    r: &[u32],
    q: &[u32],
    count: usize,
    buffer: &mut [u8],
) -> Result<usize, Refused> {
    check(id, l, r, q, count)?;
    let row = |at: usize| [id[at], l[at], r[at], q[at]];
    let needed = length(count as u32) + (0..count).flat_map(row).map(length).sum::<usize>();
    if buffer.len() < needed {
        return Err(Refused(30));
    }
    let mut rest = put(buffer, count as u32);
    for value in (0..count).flat_map(row) {
        rest = put(rest, value);
    }
    Ok(needed)
}

/// Reads a stored table into the columns and answers its count; rows past it stay.
pub fn read(
    id: &mut [u32],
    l: &mut [u32],
    r: &mut [u32],
    q: &mut [u32],
    bytes: &[u8],
) -> Result<usize, Refused> {
    lengths(id, l, r, q)?;
    let mut reader = Reader::new(bytes);
    let count = reader.number()? as usize;
    if count == 0 || count > id.len() {
        return Err(Refused(10));
    }
    let mut work = [[0; ROWS]; 4];
    for at in 0..count {
        for column in &mut work {
            column[at] = reader.number()?;
        }
    }
    if !reader.at_end() {
        return Err(Refused(6));
    }
    let [new_id, new_l, new_r, new_q] = work.each_ref().map(|column| &column[..count]);
    rows(new_id, new_l, new_r, new_q)?;
    id[..count].copy_from_slice(new_id);
    l[..count].copy_from_slice(new_l);
    r[..count].copy_from_slice(new_r);
    q[..count].copy_from_slice(new_q);
    Ok(count)
}
