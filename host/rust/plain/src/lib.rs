//! Document 01 and notes 1 to 5 of document 02 in plain Rust, written from their sentences and
//! from nothing else.
//!
//! The tests compare the engine with it, answer by answer and column by column, and the
//! benchmark takes its times as the measure. It is no part of what a host links.

#![forbid(unsafe_code)]
#![deny(missing_docs)]

mod decide;
mod ledger;
mod number;
mod page;
mod refine;
mod reflected;
mod request;
mod small;
mod stored;
mod table;

pub use decide::{decide, Decision, Grant, Tally};
pub use ledger::{GroupGrant, Ledger};
pub use number::{write_number, Reader};
pub use page::page;
pub use refine::refine;
pub use reflected::{reflected, Reflected, ReflectedGroup};
pub use request::{Entry, Request};
pub use small::small_requests;
pub use stored::{read, store};
pub use table::{check, fresh, order, Order};

/// A refusal, by its number in the documents.
#[derive(Clone, Copy, PartialEq, Eq, Debug)]
pub struct Refused(pub u32);

/// The greatest column length, and the most entries of a request.
pub const ROWS: usize = 256;

/// The greatest depth of an entry; a root has depth 1.
pub const DEPTH: usize = 16;
