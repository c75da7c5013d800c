//! Grants and decisions.

use crate::{Reader, Refused};

/// What is decided of a feature on a day.
#[derive(Clone, Copy, PartialEq, Eq, Debug)]
pub enum Decision {
    /// On: the run of days meets an open grant.
    Open,
    /// On: the last day of the unbroken run of days.
    Until(u32),
    /// Ended on this day.
    Ended(u32),
    /// Ahead, from this day.
    Ahead(u32),
    /// Never granted.
    Never,
}

/// A grant as it is read.
#[derive(Clone, Copy, PartialEq, Eq, Debug)]
pub struct Grant {
    /// The feature.
    pub feature: u32,
    /// Its group's l.
    pub l: u32,
    /// Its group's r.
    pub r: u32,
    /// The first day.
    pub first: u32,
    /// The last day, or 0: open.
    pub last: u32,
}

impl Grant {
    /// Five numbers, and then 14: feature, l, r or first is 0, or last is not 0 and below first.
    // Always, so that what decide and page take doesn't go with what else the crate has.
    #[inline(always)]
    pub(crate) fn read(reader: &mut Reader) -> Result<Grant, Refused> {
        let grant = Grant {
            feature: reader.number()?,
            l: reader.number()?,
            r: reader.number()?,
            first: reader.number()?,
            last: reader.number()?,
        };
        let zero = grant.feature == 0 || grant.l == 0 || grant.r == 0 || grant.first == 0;
        if zero || (grant.last != 0 && grant.last < grant.first) {
            return Err(Refused(14));
        }
        Ok(grant)
    }
}

/// A window of days.
#[derive(Clone, Copy, Debug)]
struct Window {
    first: u32,
    last: u32,
}

/// What the applying grants that were met amount to.
#[derive(Clone, Default, Debug)]
pub struct Tally {
    open: bool,
    until: u32,
    ended: u32,
    ahead: Vec<Window>,
}

impl Tally {
    /// Adds an applying grant's days, seen on a day.
    #[inline]
    pub fn add(&mut self, first: u32, last: u32, day: u32) {
        if first > day {
            // Where an open grant runs, nothing that lies ahead counts.
            if !self.open {
                self.ahead.push(Window { first, last });
            }
        } else if last == 0 {
            self.open = true;
        } else if last >= day {
            self.until = self.until.max(last);
        } else {
            self.ended = self.ended.max(last);
        }
    }

    /// On, ended, ahead, never, tried in turn. Last days are at least 1, so 0 means none.
    pub fn decision(self) -> Decision {
        if self.open {
            Decision::Open
        } else if self.until != 0 {
            follow(self.until, self.ahead)
        } else if self.ended != 0 {
            Decision::Ended(self.ended)
        } else {
            self.ahead.iter().map(|window| window.first).min().map_or(Decision::Never, Decision::Ahead)
        }
    }
}

/// Follows a run of days on from its last day, through the windows that lie ahead.
fn follow(mut until: u32, mut ahead: Vec<Window>) -> Decision {
    ahead.sort_unstable_by_key(|window| window.first);
    for Window { first, last } in ahead {
        // A window ahead begins on day 2 or later.
        if first - 1 > until {
            break;
        }
        if last == 0 {
            return Decision::Open;
        }
        until = until.max(last);
    }
    Decision::Until(until)
}

/// Decides a feature for the pass (l, r) on a day, over a grant list's bytes.
pub fn decide(feature: u32, l: u32, r: u32, day: u32, grants: &[u8]) -> Result<Decision, Refused> {
    if feature == 0 || l == 0 || r == 0 || day == 0 {
        return Err(Refused(15));
    }
    let mut reader = Reader::new(grants);
    let mut tally = Tally::default();
    while !reader.at_end() {
        let grant = Grant::read(&mut reader)?;
        if grant.feature == feature && l <= grant.l && r <= grant.r {
            tally.add(grant.first, grant.last, day);
        }
    }
    Ok(tally.decision())
}
