//! Pages for the shift board.

use crate::{lent, Pass, Refusal, PAGE_LINE};

/// The shift board's page for a pass on a day, over a grant list's bytes: a line for each grant that
/// applies to the pass, of any feature, in the list's order. A line has the feature, the dates of
/// the first day and the last, or `open`, and whether this grant by itself is `on`, `ended` or
/// `ahead`. Day 1 is 2000-01-01; a list in which some grant has a day after 36525, 2099-12-31, is
/// refused, also where the grant doesn't apply. The day asked about may be later. A page longer than
/// 4294967295 bytes is refused with [`Refusal::BufferShort`].
///
/// ```
/// use zintukor::{grants, page, Grant, Pass};
/// let (pass, region) = (Pass { l: 1, r: 1 }, Pass { l: 41, r: 41 });
/// let list = [Grant::new(7, region, 1).until(366), Grant::new(7, region, 367), Grant::new(12, pass, 500)];
/// let lines = [
///     "         7 2000-01-01 2000-12-31 ended  \n",
///     "         7 2001-01-01 open       on     \n",
///     "        12 2001-05-14 open       ahead  \n",
/// ];
/// assert_eq!(page(pass, 400, &grants(&list))?, lines.concat());
/// # Ok::<(), zintukor::Refusal>(())
/// ```
pub fn page(pass: Pass, day: u32, grants: &[u8]) -> Result<String, Refusal> {
    let mut bytes = vec![0; most(grants)];
    let length = lent::page(pass.l, pass.r, day, grants, &mut bytes)?;
    bytes.truncate(length);
    Ok(String::from_utf8(bytes).expect("a page is ASCII"))
}

/// The bytes of a page with a line for each grant. A grant is five numbers, and only the last byte
/// of a number is below 128. Bytes that aren't such a list are refused before the buffer counts.
fn most(grants: &[u8]) -> usize {
    let numbers = grants.iter().filter(|&&byte| byte < 128).count();
    let most = (numbers / 5).saturating_mul(PAGE_LINE);
    // The engine uses no more.
    most.min(u32::MAX as usize)
}
