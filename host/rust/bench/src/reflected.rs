//! A reflected tree as plain Rust reads and writes it where time counts: nodes side by side in an
//! array, one loop for each pass, and no tree.

use zintukor_plain::{Reader, Refused};

/// The most nodes of a tree.
const NODES: usize = 64;

/// The greatest depth.
const DEPTH: usize = 16;

/// The bytes of the longest list.
const LONGEST: usize = 1_805;

/// A node, how many groups its tree ends as, and the place past its last descendant.
#[derive(Clone, Copy)]
struct Node {
    upper: u32,
    lower: u32,
    children: u32,
    groups: u32,
    end: usize,
}

/// The nodes that were read, side by side in left pre-order.
struct Nodes {
    all: [Node; NODES],
    count: usize,
}

impl Nodes {
    fn read(bytes: &[u8]) -> Result<Nodes, Refused> {
        let mut reader = Reader::new(bytes);
        let count = reader.number()? as usize;
        if count == 0 || count > NODES {
            return Err(Refused(32));
        }
        let mut all = [Node { upper: 0, lower: 0, children: 0, groups: 0, end: 0 }; NODES];
        // due[d]: nodes yet to come at depth d + 1.
        let mut due = [0; DEPTH + 1];
        due[0] = 1;
        let mut depth = 1;
        for node in &mut all[..count] {
            while depth > 0 && due[depth - 1] == 0 {
                depth -= 1;
            }
            if depth == 0 {
                return Err(Refused(32));
            }
            if depth > DEPTH {
                return Err(Refused(5));
            }
            due[depth - 1] -= 1;
            node.upper = reader.number()?;
            if node.upper == 0 {
                return Err(Refused(4));
            }
            node.lower = reader.number()?;
            node.children = reader.number()?;
            if (node.lower == 0) != (node.children == 0) {
                return Err(Refused(32));
            }
            due[depth] = node.children;
            depth += 1;
        }
        if due[..depth].iter().any(|&nodes| nodes > 0) {
            return Err(Refused(32));
        }
        if !reader.at_end() {
            return Err(Refused(6));
        }
        Ok(Nodes { all, count })
    }

    /// 33: an id repeats.
    fn differ(&self) -> Result<(), Refused> {
        let mut ids = [0; 2 * NODES];
        let mut many = 0;
        for node in &self.all[..self.count] {
            ids[many] = node.upper;
            ids[many + 1] = node.lower;
            many += if node.lower == 0 { 1 } else { 2 };
        }
        let ids = &mut ids[..many];
        ids.sort_unstable();
        if ids.windows(2).any(|two| two[0] == two[1]) {
            return Err(Refused(33));
        }
        Ok(())
    }

    /// Counts the groups, the last node first.
    fn count_groups(&mut self) {
        for at in (0..self.count).rev() {
            let children = self.all[at].children;
            let mut groups = 1 + u32::from(children > 0);
            let mut child = at + 1;
            for _ in 0..children {
                groups += self.all[child].groups;
                child = self.all[child].end;
            }
            self.all[at].groups = groups;
            self.all[at].end = child;
        }
    }
}

/// The list as it is written.
struct List {
    bytes: [u8; LONGEST],
    length: usize,
}

impl List {
    fn put(&mut self, mut value: u32) {
        while value > 127 {
            self.bytes[self.length] = value as u8 | 128;
            value >>= 7;
            self.length += 1;
        }
        self.bytes[self.length] = value as u8;
        self.length += 1;
    }

    fn put_all(&mut self, values: &[u32]) {
        values.iter().for_each(|&value| self.put(value));
    }

    /// Puts what `write` does after its length.
    fn request(&mut self, write: impl FnOnce(&mut List)) {
        let start = self.length;
        self.length += 1;
        write(self);
        let length = self.length - start - 1;
        self.bytes[start] = length as u8;
        if length > 127 {
            // A second byte for the length.
            self.bytes.copy_within(start + 1..self.length, start + 2);
            self.length = start;
            self.put(length as u32);
            self.length += length;
        }
    }
}

/// Reads a reflected tree, writes its list and answers the byte count.
pub fn reflected(bytes: &[u8], buffer: &mut [u8]) -> Result<usize, Refused> {
    let mut nodes = Nodes::read(bytes)?;
    nodes.differ()?;
    nodes.count_groups();
    let all = &nodes.all[..nodes.count];
    let mut list = List { bytes: [0; LONGEST], length: 0 };
    list.put_all(&[all[0].upper, all[0].groups]);
    for (at, &Node { upper, lower, children, groups, .. }) in all.iter().enumerate() {
        if children == 0 {
            continue;
        }
        let first = all[at + 1].upper;
        list.request(|list| {
            list.put_all(&[upper, 0, 1, upper, 1, 1, first, groups - 2, 1, lower, 1, 0]);
        });
        if children == 1 {
            continue;
        }
        list.request(|list| {
            list.put_all(&[first, 0, children]);
            let mut child = at + 1;
            for _ in 0..children {
                list.put_all(&[all[child].upper, all[child].groups, 0]);
                child = all[child].end;
            }
        });
    }
    let list = &list.bytes[..list.length];
    buffer.get_mut(..list.len()).ok_or(Refused(30))?.copy_from_slice(list);
    Ok(list.len())
}
