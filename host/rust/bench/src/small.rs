//! Small requests as plain Rust writes them where time counts: entry by entry into one row, in the
//! order of the list, without trees and without a sort.

use zintukor_plain::Refused;

/// How many requests each size has.
const HOW_MANY: [usize; 7] = [0, 2, 4, 10, 28, 84, 264];

/// The bytes before a request's entries, its length included.
const LEAD: usize = 4;

/// The bytes of an entry.
const ENTRY: usize = 3;

/// Writes every request that goes on from `at` with `due` trees of all the entries left, and answers
/// what is left of the buffer.
fn write<'a>(mut rest: &'a mut [u8], row: &mut [u8], at: usize, due: usize) -> &'a mut [u8] {
    if at == row.len() {
        let (request, rest) = rest.split_at_mut(row.len());
        request.copy_from_slice(row);
        return rest;
    }
    let left = (row.len() - at) / ENTRY;
    // The last tree that is due has all the entries left: below its root, if there are more.
    let least = usize::from(due == 1 && left > 1);
    for children in least..=left - due {
        row[at + 2] = children as u8;
        rest = write(rest, row, at + ENTRY, due - 1 + children);
    }
    rest
}

/// Writes every small request of a size, each after its length, and answers the byte count.
pub fn small_requests(size: u32, buffer: &mut [u8]) -> Result<usize, Refused> {
    let Some(how_many) = HOW_MANY.get(size as usize) else {
        return Ok(0);
    };
    let size = size as usize;
    let length = LEAD + ENTRY * size;
    let needed = how_many * length;
    if buffer.len() < needed {
        return Err(Refused(30));
    }
    let mut row = [0; LEAD + ENTRY * 6];
    let row = &mut row[..length];
    (row[0], row[1]) = (length as u8 - 1, 1);
    for (id, entry) in (1..).zip(row[LEAD..].chunks_exact_mut(ENTRY)) {
        (entry[0], entry[1]) = (id, 1);
    }
    let mut rest = buffer;
    for direction in [0, 1] {
        for trees in 1..=size {
            (row[2], row[3]) = (direction, trees as u8);
            rest = write(rest, row, LEAD, trees);
        }
    }
    Ok(needed)
}
