//! Reflected trees of the old product.

use crate::{lent, Refusal, REFLECTED};

/// The list that makes the groups of a reflected tree, from the tree's bytes: the number of nodes, 1
/// to 64, then each node in left pre-order, upper id, lower id, number of children. A node with
/// children has a lower group, the mirror image of its upper one; a leaf has none, and its lower id
/// is 0.
///
/// The list is the fresh pair, the root's upper id and the number of groups, then requests, each
/// after its length. A table with room for 256 groups accepts all of them, and answers of any two
/// groups how they stand in the reflected tree, by Table 2 of its paper. A [`Refusal::BufferShort`]
/// doesn't come.
///
/// ```
/// use zintukor::{entry, reflected, Order, Request, Table};
/// // 1 over 2 and 3, with 11 below the line.
/// let list = reflected(&[3, 1, 11, 2, 2, 0, 0, 3, 0, 0])?;
/// let chain = Request::upright(1).tree(entry(1, 1).child(entry(2, 2).child(entry(11, 1))));
/// let spread = Request::upright(2).trees([entry(2, 1), entry(3, 1)]);
/// assert_eq!(list, [&[1, 4, 12][..], &chain.bytes(), &[9], &spread.bytes()].concat());
///
/// let mut table = Table::fresh(256, 1, 4)?;
/// assert_eq!(table.refine(&list[3..15])?, 3);
/// assert_eq!(table.refine(&list[16..])?, 4);
/// assert_eq!(table.order(1, 3)?, Order::FirstIsSubgroup);
/// assert_eq!(table.order(3, 11)?, Order::FirstIsSubgroup);
/// assert_eq!(table.order(2, 3)?, Order::Incomparable);
/// # Ok::<(), zintukor::Refusal>(())
/// ```
pub fn reflected(bytes: &[u8]) -> Result<Vec<u8>, Refusal> {
    let mut list = vec![0; REFLECTED];
    let length = lent::reflected(bytes, &mut list)?;
    list.truncate(length);
    Ok(list)
}
