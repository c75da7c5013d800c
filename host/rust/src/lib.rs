//! Licence and feature decisions over groups that keep splitting.
//!
//! Each group has two numbers, l and r. A line in the field holds its group's numbers as a
//! [`Pass`] and decides offline, by comparing them with a [`Grant`]'s, whether a feature is on,
//! has ended, is ahead or was never sold. A [`Request`] breaks a group up; no other group's
//! numbers change. The engine behind these calls is a verified library with a C interface; this
//! crate links it and gives its answers as Rust types.
//!
//! ```
//! use zintukor::{decide, entry, grants, page, Decision, Grant, Order, Request, Table};
//!
//! // Carrier 1 has 100 numbers to give out. It becomes 1, with regions 2 and 3 above it.
//! let mut table = Table::fresh(256, 1, 100)?;
//! let request = Request::upright(1).tree(entry(1, 40).child(entry(2, 30)).child(entry(3, 30)));
//! assert_eq!(table.refine(&request.bytes())?, 3);
//! assert_eq!(table.order(1, 2)?, Order::FirstIsSubgroup);
//! assert_eq!(table.order(2, 3)?, Order::Incomparable);
//!
//! // Feature 7 is granted to region 2 from day 10 to day 20; carrier 1 asks on day 15.
//! let (pass, region) = (table.pass(1).unwrap(), table.pass(2).unwrap());
//! let sold = Grant::new(7, region, 10).until(20);
//! assert_eq!(decide(7, pass, 15, &grants(&[sold]))?, Decision::OnUntil(20));
//!
//! // A renewal that follows on, from day 21 to day 30, counts at once.
//! let renewal = Grant::new(7, region, 21).until(30);
//! let list = grants(&[sold, renewal]);
//! assert_eq!(decide(7, pass, 15, &list)?, Decision::OnUntil(30));
//!
//! // The carrier's page for the shift board on that day: each grant with its dates.
//! let lines = [
//!     "         7 2000-01-10 2000-01-20 on     \n",
//!     "         7 2000-01-21 2000-01-30 ahead  \n",
//! ];
//! assert_eq!(page(pass, 15, &list)?, lines.concat());
//! # Ok::<(), zintukor::Refusal>(())
//! ```
//!
//! [`small_requests`] gives every small request in order, for tools that want a full set.
//! [`reflected`] turns a reflected tree of the old product into requests.
//!
//! Every call takes any columns, bytes and numbers and answers or refuses. A refused call leaves
//! each lent column and buffer as it found it.

#![deny(unsafe_code)]
#![deny(missing_docs)]

mod answer;
mod columns;
mod decision;
mod ffi;
mod grant;
pub mod lent;
mod number;
mod order;
mod page;
mod reflected;
mod refusal;
mod request;
mod small;
mod table;

pub use columns::{fresh, order, read, refine, store, Columns};
pub use decision::Decision;
pub use grant::{decide, grants, Grant, Pass};
pub use number::write_number;
pub use order::Order;
pub use page::page;
pub use reflected::reflected;
pub use refusal::Refusal;
pub use request::{entry, Entry, Request};
pub use small::{small_requests, SmallRequests};
pub use table::{Row, Table};

/// The version of this crate, which is the header's `ZINTUKOR_VERSION`.
pub const VERSION: &str = env!("CARGO_PKG_VERSION");

/// The greatest column length, and the most entries of a request.
pub const ROWS: usize = 256;

/// The greatest depth of an entry; a root has depth 1.
pub const DEPTH: usize = 16;

/// The bytes of a page's line, its line feed included.
pub const PAGE_LINE: usize = 41;

/// The bytes of the small requests of size 6, each after its length: no size has more.
pub const SMALL_REQUESTS: usize = 5_808;

/// The most nodes of a reflected tree.
pub const NODES: usize = 64;

/// A buffer of so many bytes holds the list of any reflected tree: 29 for each node but the root, and 6.
pub const REFLECTED: usize = 1_833;
