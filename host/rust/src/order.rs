//! The order of two groups.

use std::fmt;

/// How two groups stand to each other.
#[derive(Clone, Copy, PartialEq, Eq, Hash, Debug)]
pub enum Order {
    /// They are one group.
    Same,
    /// The first is a subgroup of the second.
    FirstIsSubgroup,
    /// The second is a subgroup of the first.
    SecondIsSubgroup,
    /// Neither is a subgroup of the other.
    Incomparable,
}

impl fmt::Display for Order {
    fn fmt(&self, f: &mut fmt::Formatter) -> fmt::Result {
        f.write_str(match self {
            Order::Same => "same",
            Order::FirstIsSubgroup => "first is a subgroup",
            Order::SecondIsSubgroup => "second is a subgroup",
            Order::Incomparable => "incomparable",
        })
    }
}
