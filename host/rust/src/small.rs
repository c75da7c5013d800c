//! Every small request of a size.

use std::iter::FusedIterator;
use std::vec;

use crate::{lent, SMALL_REQUESTS};

/// The bytes of every small request of a size from 1 to 6, in order: each request that explodes
/// group 1 into exactly so many entries, with ids 1 upward in left pre-order and quota 1 each.
/// Upright come before inverted, then the smaller tree count, then the smaller child counts from
/// left to right. There are 2, 4, 10, 28, 84 and 264; other sizes have none.
///
/// Each is accepted from a fresh group 1 whose quota is the size, with room for so many groups:
///
/// ```
/// use zintukor::{small_requests, Table};
/// assert_eq!(small_requests(3).len(), 10);
/// for request in small_requests(3) {
///     let mut table = Table::fresh(3, 1, 3)?;
///     assert_eq!(table.refine(&request)?, 3);
/// }
/// # Ok::<(), zintukor::Refusal>(())
/// ```
pub fn small_requests(size: u32) -> SmallRequests {
    let mut list = vec![0; SMALL_REQUESTS];
    let length = lent::small_requests(size, &mut list).expect("the buffer is long enough for every size");
    list.truncate(length);
    SmallRequests { rest: list.into_iter() }
}

/// The requests that [`small_requests`] gives, one after another.
#[derive(Clone, Debug)]
pub struct SmallRequests {
    /// Those to come, each after its length: a byte.
    rest: vec::IntoIter<u8>,
}

impl Iterator for SmallRequests {
    type Item = Vec<u8>;

    fn next(&mut self) -> Option<Vec<u8>> {
        let length = self.rest.next()?;
        Some(self.rest.by_ref().take(length.into()).collect())
    }

    fn size_hint(&self) -> (usize, Option<usize>) {
        // All of a size have one length.
        let rest = self.rest.as_slice();
        let left = rest.first().map_or(0, |&length| rest.len() / (1 + usize::from(length)));
        (left, Some(left))
    }
}

impl ExactSizeIterator for SmallRequests {}

impl FusedIterator for SmallRequests {}
