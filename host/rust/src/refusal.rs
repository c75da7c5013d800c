//! Refusals and their numbers.

use std::fmt;

macro_rules! refusals {
    ($($name:ident = $number:literal, $text:literal;)*) => {
        /// Why a call was refused. Each refusal has the number that the documents give it.
        #[derive(Clone, Copy, PartialEq, Eq, PartialOrd, Ord, Hash, Debug)]
        pub enum Refusal {
            $(
                #[doc = concat!($number, ": ", $text, ".")]
                $name = $number,
            )*
        }

        impl Refusal {
            /// All refusals, by number.
            pub const ALL: &'static [Refusal] = &[$(Refusal::$name),*];

            /// The refusal with this number, if there is one.
            pub const fn from_number(number: u32) -> Option<Refusal> {
                match number {
                    $($number => Some(Refusal::$name),)*
                    _ => None,
                }
            }

            /// What is wrong, in a sentence without its full stop.
            pub const fn text(self) -> &'static str {
                match self {
                    $(Refusal::$name => $text,)*
                }
            }
        }
    };
}

refusals! {
    NumberCut = 1, "the bytes end in the middle of a number or before all numbers are there";
    NumberForm = 2, "a number in the bytes is too great or not in its shortest form";
    Direction = 3, "the request's direction is neither 0 (upright) nor 1 (inverted)";
    Zero = 4, "the request has a 0 as an id, as a quota or as its number of trees, or the reflected tree has one as an upper id";
    Depth = 5, "the request's trees or the reflected tree are more than 16 levels deep";
    BytesRemain = 6, "there are bytes left over after the end";
    Entries = 7, "the request has more than 256 entries";
    Columns = 10, "the columns differ in length or aren't 1 to 256 long, or the count of rows is 0 or above that length";
    RowValue = 11, "a group has a 0 as its id, l, r or quota, or its numbers run past the greatest one";
    RowIds = 12, "two rows of the table have the same id";
    RowRanges = 13, "two groups of the table share numbers";
    Grant = 14, "a grant has a 0 as its feature, l, r or first day, or it ends before it begins";
    Question = 15, "the feature, the pass or the day asked about is 0";
    IdUnknown = 20, "a group that is named isn't in the table";
    ExplodedEntry = 21, "the group to break up must be exactly one of the request's entries";
    IdTaken = 22, "a new group's id is in the table already";
    QuotaSum = 23, "the entries' quotas don't add up to the quota of the group to break up";
    RowsFull = 24, "the columns have too few rows for the new groups";
    IdTwice = 26, "a new group's id comes twice in the request";
    BufferShort = 30, "the buffer is too short for the stored table, the page or the requests";
    Undated = 31, "a grant's first or last day has no date: it is above 36525";
    Nodes = 32, "the bytes aren't one whole reflected tree of 1 to 64 nodes, or a lower id is 0 in a node with children or isn't in one without";
    IdRepeats = 33, "an id comes twice in the reflected tree";
}

impl Refusal {
    /// Its number in the documents.
    pub const fn number(self) -> u32 {
        self as u32
    }
}

impl fmt::Display for Refusal {
    fn fmt(&self, f: &mut fmt::Formatter) -> fmt::Result {
        write!(f, "refused ({}): {}", self.number(), self.text())
    }
}

impl std::error::Error for Refusal {}
