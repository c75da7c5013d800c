//! Requests, written as trees.

use crate::write_number;

/// An entry of a request: a group with its quota, and its children.
#[derive(Clone, PartialEq, Eq, Debug)]
pub struct Entry {
    id: u32,
    quota: u32,
    children: Vec<Entry>,
}

/// An entry without children.
pub fn entry(id: u32, quota: u32) -> Entry {
    Entry { id, quota, children: Vec::new() }
}

impl Entry {
    /// Adds a child to the right of the others.
    #[must_use]
    pub fn child(mut self, child: Entry) -> Entry {
        self.children.push(child);
        self
    }

    /// Adds children, from left to right.
    #[must_use]
    pub fn children(mut self, children: impl IntoIterator<Item = Entry>) -> Entry {
        self.children.extend(children);
        self
    }

    fn write(&self, bytes: &mut Vec<u8>) {
        write_number(bytes, self.id);
        write_number(bytes, self.quota);
        write_count(bytes, self.children.len());
        for child in &self.children {
            child.write(bytes);
        }
    }
}

/// A request: a group to explode and the forest that takes its place, in which it stays as one
/// entry. The entries' quotas add up to its own.
///
/// ```
/// use zintukor::{entry, Request};
/// let request = Request::upright(2).tree(entry(2, 15)).tree(entry(3, 15).child(entry(4, 60)));
/// assert_eq!(request.bytes(), [2, 0, 2, 2, 15, 0, 3, 15, 1, 4, 60, 0]);
/// ```
#[derive(Clone, PartialEq, Eq, Debug)]
pub struct Request {
    exploded: u32,
    inverted: bool,
    trees: Vec<Entry>,
}

impl Request {
    /// An upright request: a parent is a subgroup of its descendants.
    pub fn upright(exploded: u32) -> Request {
        Request { exploded, inverted: false, trees: Vec::new() }
    }

    /// An inverted request: a descendant is a subgroup of its ancestors.
    pub fn inverted(exploded: u32) -> Request {
        Request { exploded, inverted: true, trees: Vec::new() }
    }

    /// Adds a tree to the right of the others.
    #[must_use]
    pub fn tree(mut self, root: Entry) -> Request {
        self.trees.push(root);
        self
    }

    /// Adds trees, from left to right.
    #[must_use]
    pub fn trees(mut self, roots: impl IntoIterator<Item = Entry>) -> Request {
        self.trees.extend(roots);
        self
    }

    /// The request's bytes. Nothing is checked here; the engine refuses what isn't sound.
    pub fn bytes(&self) -> Vec<u8> {
        let mut bytes = Vec::new();
        write_number(&mut bytes, self.exploded);
        write_number(&mut bytes, u32::from(self.inverted));
        write_count(&mut bytes, self.trees.len());
        for tree in &self.trees {
            tree.write(&mut bytes);
        }
        bytes
    }
}

/// A count of children or trees. One too great to be stored stays too great for the engine.
fn write_count(bytes: &mut Vec<u8>, count: usize) {
    write_number(bytes, u32::try_from(count).unwrap_or(u32::MAX));
}
