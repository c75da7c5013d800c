//! Decisions.

use std::fmt;

/// What is decided of a feature for a pass on a day.
#[derive(Clone, Copy, PartialEq, Eq, Hash, Debug)]
pub enum Decision {
    /// On, without an end: the run of days meets an open grant.
    OnOpen,
    /// On: the last day of the unbroken run of days, beginning with the day asked about, on each
    /// of which some grant that applies runs.
    OnUntil(u32),
    /// Ended: this was the last day.
    Ended(u32),
    /// Ahead: this will be the first day.
    Ahead(u32),
    /// Never sold to the pass's group.
    Never,
}

impl Decision {
    /// Whether the feature is on.
    pub const fn is_on(self) -> bool {
        matches!(self, Decision::OnOpen | Decision::OnUntil(_))
    }
}

/// As the program `may` prints it.
impl fmt::Display for Decision {
    fn fmt(&self, f: &mut fmt::Formatter) -> fmt::Result {
        match self {
            Decision::OnOpen => f.write_str("on open"),
            Decision::OnUntil(day) => write!(f, "on {day}"),
            Decision::Ended(day) => write!(f, "ended {day}"),
            Decision::Ahead(day) => write!(f, "ahead {day}"),
            Decision::Never => f.write_str("never"),
        }
    }
}
