//! Passes, grants and decisions over them.

use crate::{lent, write_number, Decision, Refusal};

/// A group's two numbers, as a line in the field holds them.
#[derive(Clone, Copy, PartialEq, Eq, Hash, Debug)]
pub struct Pass {
    /// The l-value. It is compared with l-values only.
    pub l: u32,
    /// The r-value. It is compared with r-values only.
    pub r: u32,
}

/// A feature granted to a group for some days.
#[derive(Clone, Copy, PartialEq, Eq, Hash, Debug)]
pub struct Grant {
    /// The feature.
    pub feature: u32,
    /// The group's numbers.
    pub group: Pass,
    /// The first day.
    pub first: u32,
    /// The last day, which is included; `None` when the grant is open.
    pub last: Option<u32>,
}

impl Grant {
    /// A grant from its first day on, open.
    pub fn new(feature: u32, group: Pass, first: u32) -> Grant {
        Grant { feature, group, first, last: None }
    }

    /// The same grant with a last day, which is included. Day 0 means open.
    #[must_use]
    pub fn until(self, last: u32) -> Grant {
        Grant { last: Some(last), ..self }
    }

    /// Adds the grant's bytes to a grant list.
    pub fn write(&self, list: &mut Vec<u8>) {
        let last = self.last.unwrap_or(0);
        for number in [self.feature, self.group.l, self.group.r, self.first, last] {
            write_number(list, number);
        }
    }
}

/// The bytes of a grant list.
pub fn grants(grants: &[Grant]) -> Vec<u8> {
    let mut list = Vec::new();
    for grant in grants {
        grant.write(&mut list);
    }
    list
}

/// Decides a feature for a pass on a day, over a grant list's bytes; an empty list is one too.
/// Grants stand in any order; one that begins on the day after another ends continues it.
pub fn decide(feature: u32, pass: Pass, day: u32, grants: &[u8]) -> Result<Decision, Refusal> {
    lent::decide(feature, pass.l, pass.r, day, grants)
}
