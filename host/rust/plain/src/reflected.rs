//! Reflected trees of the old product: read, written as a list of requests, and Table 2 of the paper
//! that they come from.

use std::collections::HashSet;

use crate::request::not_zero;
use crate::{write_number, Order, Reader, Refused, DEPTH};

/// The most nodes of a tree.
const NODES: u32 = 64;

/// A node of the upper half. Its mirror image is its lower group; a leaf stands on the line and has
/// none.
#[derive(Clone, PartialEq, Eq, Debug)]
struct Node {
    upper: u32,
    lower: Option<u32>,
    children: Vec<Node>,
}

/// A reflected tree that was read whole.
#[derive(Clone, PartialEq, Eq, Debug)]
pub struct Reflected {
    root: Node,
}

/// A group with its type and its lr-values: a column of the paper's Table 1.
#[derive(Clone, Copy, PartialEq, Eq, Debug)]
pub struct ReflectedGroup {
    /// Its id.
    pub id: u32,
    /// Type b: it is below the line. A group on the line is of type a.
    pub below: bool,
    /// Its position in the left pre-order of the upper half, from 1 on. Below the line it is that of
    /// the mirror image.
    pub l: usize,
    /// The same in the right pre-order.
    pub r: usize,
}

/// A node as it is stored.
struct Stored {
    upper: u32,
    lower: u32,
    children: u32,
}

impl Reflected {
    /// Reads a tree from left to right.
    pub fn read(bytes: &[u8]) -> Result<Reflected, Refused> {
        let reader = &mut Reader::new(bytes);
        let count = reader.number()?;
        if count == 0 || count > NODES {
            return Err(Refused(32));
        }
        let mut nodes = Vec::new();
        // due[d]: nodes yet to come at depth d + 1, below the last ones of the depths before.
        let mut due = vec![1];
        for _ in 0..count {
            while due.last() == Some(&0) {
                due.pop();
            }
            let depth = due.len();
            // The tree is whole already.
            let here = due.last_mut().ok_or(Refused(32))?;
            if depth > DEPTH {
                return Err(Refused(5));
            }
            *here -= 1;
            let node =
                Stored { upper: not_zero(reader)?, lower: reader.number()?, children: reader.number()? };
            if (node.lower == 0) != (node.children == 0) {
                return Err(Refused(32));
            }
            due.push(node.children);
            nodes.push(node);
        }
        if due.iter().any(|&nodes| nodes > 0) {
            return Err(Refused(32));
        }
        if !reader.at_end() {
            return Err(Refused(6));
        }
        let mut met = HashSet::new();
        let mut ids = nodes.iter().flat_map(|node| [node.upper, node.lower]).filter(|&id| id != 0);
        if !ids.all(|id| met.insert(id)) {
            return Err(Refused(33));
        }
        Ok(Reflected { root: Node::next(&mut nodes.iter()) })
    }

    /// The fresh pair, and then the requests, each after its length.
    pub fn list(&self) -> Vec<u8> {
        let mut list = encoded(&[self.root.upper, self.root.ends_as()]);
        let mut requests = Vec::new();
        self.root.requests(&mut requests);
        for request in requests.iter().map(|numbers| encoded(numbers)) {
            write_number(&mut list, request.len() as u32);
            list.extend(request);
        }
        list
    }

    /// The groups by Table 1: those of the upper half in left pre-order, each with its mirror image
    /// right after it.
    pub fn groups(&self) -> Vec<ReflectedGroup> {
        let (mut left, mut right) = (Vec::new(), Vec::new());
        self.root.pre_order(false, &mut left);
        self.root.pre_order(true, &mut right);
        let mut groups = Vec::new();
        for (l, node) in (1..).zip(left) {
            let at = right.iter().position(|other| other.upper == node.upper);
            let r = 1 + at.expect("both orders have the same nodes");
            groups.push(ReflectedGroup { id: node.upper, below: false, l, r });
            groups.extend(node.lower.map(|id| ReflectedGroup { id, below: true, l, r }));
        }
        groups
    }
}

impl Node {
    /// The next node as a tree, with as many trees below it as it has children.
    fn next<'a>(nodes: &mut impl Iterator<Item = &'a Stored>) -> Node {
        let node = nodes.next().expect("child counts were read");
        let children: Vec<Node> = (0..node.children).map(|_| Node::next(nodes)).collect();
        let lower = (node.lower != 0).then_some(node.lower);
        Node { upper: node.upper, lower, children }
    }

    /// How many groups its tree ends as.
    fn ends_as(&self) -> u32 {
        let lower = u32::from(self.lower.is_some());
        1 + self.children.iter().map(Node::ends_as).sum::<u32>() + lower
    }

    /// Adds the requests of its tree's inner nodes, in left pre-order, as numbers.
    fn requests(&self, requests: &mut Vec<Vec<u32>>) {
        let (Some(first), Some(lower)) = (self.children.first(), self.lower) else { return };
        let groups: u32 = self.children.iter().map(Node::ends_as).sum();
        requests.push(vec![self.upper, 0, 1, self.upper, 1, 1, first.upper, groups, 1, lower, 1, 0]);
        if self.children.len() > 1 {
            let mut spread = vec![first.upper, 0, self.children.len() as u32];
            spread.extend(self.children.iter().flat_map(|child| [child.upper, child.ends_as(), 0]));
            requests.push(spread);
        }
        self.children.iter().for_each(|child| child.requests(requests));
    }

    /// Adds its tree's nodes in pre-order, children left to right or right to left.
    fn pre_order<'a>(&'a self, from_right: bool, nodes: &mut Vec<&'a Node>) {
        nodes.push(self);
        if from_right {
            self.children.iter().rev().for_each(|child| child.pre_order(true, nodes));
        } else {
            self.children.iter().for_each(|child| child.pre_order(false, nodes));
        }
    }
}

impl ReflectedGroup {
    /// Whether lr(U) < lr(V).
    fn less(&self, other: &ReflectedGroup) -> bool {
        self.l < other.l && self.r < other.r
    }

    /// Table 2, row by row: whether U is a proper subgroup of V.
    fn inside(&self, other: &ReflectedGroup) -> bool {
        let (u, v) = (self, other);
        match (u.below, v.below) {
            (false, false) => u.less(v),
            (false, true) => u.less(v) || v.less(u) || (u.l, u.r) == (v.l, v.r),
            (true, false) => false,
            (true, true) => v.less(u),
        }
    }

    /// What order answers of two groups of a tree: Table 2, with equality counted as subgroup.
    pub fn order(&self, other: &ReflectedGroup) -> Order {
        if self.id == other.id {
            Order::Same
        } else if self.inside(other) {
            Order::First
        } else if other.inside(self) {
            Order::Second
        } else {
            Order::Incomparable
        }
    }
}

/// The bytes of some numbers.
fn encoded(numbers: &[u32]) -> Vec<u8> {
    let mut bytes = Vec::new();
    numbers.iter().for_each(|&number| write_number(&mut bytes, number));
    bytes
}

/// Reads a reflected tree, writes its list and answers the byte count; bytes after it stay.
pub fn reflected(bytes: &[u8], buffer: &mut [u8]) -> Result<usize, Refused> {
    let list = Reflected::read(bytes)?.list();
    buffer.get_mut(..list.len()).ok_or(Refused(30))?.copy_from_slice(&list);
    Ok(list.len())
}

#[cfg(test)]
mod tests {
    use super::*;

    /// The paper's Figure 1(c): D is 1 and d 11, P1 is 2 and p1 12, P2 is 6 and p2 16; the tasks are
    /// 3 to 5, 7 and 8.
    const FIGURE_1C: [u8; 25] =
        [8, 1, 11, 2, 2, 12, 3, 3, 0, 0, 4, 0, 0, 5, 0, 0, 6, 16, 2, 7, 0, 0, 8, 0, 0];

    #[test]
    fn the_list_of_figure_1c() {
        let list = [
            &[1, 11][..],
            &[12, 1, 0, 1, 1, 1, 1, 2, 9, 1, 11, 1, 0],
            &[9, 2, 0, 2, 2, 5, 0, 6, 4, 0],
            &[12, 2, 0, 1, 2, 1, 1, 3, 3, 1, 12, 1, 0],
            &[12, 3, 0, 3, 3, 1, 0, 4, 1, 0, 5, 1, 0],
            &[12, 6, 0, 1, 6, 1, 1, 7, 2, 1, 16, 1, 0],
            &[9, 7, 0, 2, 7, 1, 0, 8, 1, 0],
        ];
        let list = list.concat();
        let mut buffer = [0xEE; 75];
        assert_eq!(list.len(), 74);
        assert_eq!(reflected(&FIGURE_1C, &mut buffer[..73]), Err(Refused(30)));
        assert_eq!(buffer, [0xEE; 75]);
        assert_eq!(reflected(&FIGURE_1C, &mut buffer), Ok(74));
        assert_eq!(buffer[..74], list);
        assert_eq!(buffer[74], 0xEE);
    }

    /// The columns D, d, P1, p1, T1, T2, T3, P2, p2, T4, T5 of the paper's Table 1.
    #[test]
    fn table_1() {
        let groups = Reflected::read(&FIGURE_1C).unwrap().groups();
        let columns = [
            (1, false, 1, 1),
            (11, true, 1, 1),
            (2, false, 2, 5),
            (12, true, 2, 5),
            (3, false, 3, 8),
            (4, false, 4, 7),
            (5, false, 5, 6),
            (6, false, 6, 2),
            (16, true, 6, 2),
            (7, false, 7, 4),
            (8, false, 8, 3),
        ];
        assert!(groups.iter().map(|group| (group.id, group.below, group.l, group.r)).eq(columns));
        let order = |first: usize, second: usize| groups[first].order(&groups[second]);
        assert_eq!((order(0, 1), order(1, 0)), (Order::First, Order::Second));
        assert_eq!((order(4, 3), order(3, 2)), (Order::First, Order::Second));
        assert_eq!((order(9, 3), order(3, 8)), (Order::Incomparable, Order::Incomparable));
        assert_eq!((order(3, 1), order(4, 1), order(3, 3)), (Order::First, Order::First, Order::Same));
    }

    /// The numbers of every tree of so many nodes, each child count tried; upper ids are odd, lower
    /// ids even.
    fn trees(nodes: u32) -> Vec<Reflected> {
        let mut trees = Vec::new();
        for choice in 0..nodes.pow(nodes) {
            let mut numbers = vec![nodes];
            for at in 0..nodes {
                let children = choice / nodes.pow(at) % nodes;
                numbers.extend([2 * at + 1, if children == 0 { 0 } else { 2 * at + 2 }, children]);
            }
            trees.extend(Reflected::read(&encoded(&numbers)));
        }
        trees
    }

    /// Adds the edges of the diagram, each from above to below: a node to its children, their mirror
    /// images to its own. A leaf is its own.
    fn edges(node: &Node, edges: &mut Vec<(u32, u32)>) {
        for child in &node.children {
            edges.push((node.upper, child.upper));
            edges.push((child.lower.unwrap_or(child.upper), node.lower.unwrap()));
            self::edges(child, edges);
        }
    }

    /// Table 2 is what the paper's diagram shows: U is a subgroup of V where a way leads down from U
    /// to V. For every tree of up to six nodes.
    #[test]
    fn table_2_is_the_diagram() {
        for (nodes, how_many) in (1..).zip([1, 1, 2, 5, 14, 42]) {
            let trees = trees(nodes);
            assert_eq!(trees.len(), how_many);
            for tree in trees {
                let mut diagram = Vec::new();
                edges(&tree.root, &mut diagram);
                let groups = tree.groups();
                for u in &groups {
                    let mut below = vec![u.id];
                    let mut at = 0;
                    while let Some(&id) = below.get(at) {
                        below.extend(diagram.iter().filter(|edge| edge.0 == id).map(|edge| edge.1));
                        at += 1;
                    }
                    for v in &groups {
                        let subgroup = matches!(u.order(v), Order::Same | Order::First);
                        assert_eq!(subgroup, below.contains(&v.id), "{tree:?}: {u:?} {v:?}");
                        assert_eq!(u.order(v) == Order::Second, v.order(u) == Order::First);
                    }
                }
            }
        }
    }

    #[test]
    fn one_node() {
        let mut buffer = [0; 2];
        assert_eq!(reflected(&[1, 7, 0, 0], &mut buffer), Ok(2));
        assert_eq!(buffer, [7, 1]);
        assert_eq!(reflected(&[1, 7, 0, 0], &mut [0; 1]), Err(Refused(30)));
    }

    #[test]
    fn refusals() {
        for (bytes, number) in [
            (&[][..], 1),
            (&[0x80, 0], 2),
            (&[0, 0, 0], 32),
            (&[65, 0, 0], 32),
            (&[1], 1),
            (&[1, 0, 0x80, 0], 4),
            (&[1, 7, 0x80, 0], 2),
            (&[1, 7, 8, 0], 32),
            (&[1, 7, 0, 1], 32),
            (&[1, 7, 8, 1], 32),
            (&[1, 7, 8], 1),
            (&[2, 7, 0, 0, 0], 32),
            (&[2, 7, 8, 1, 0], 4),
            (&[2, 7, 8, 1, 7, 0, 0, 0], 6),
            (&[2, 7, 8, 1, 7, 0, 0], 33),
            (&[2, 7, 8, 1, 8, 0, 0], 33),
            (&[2, 7, 7, 1, 9, 0, 0], 33),
            (&[2, 7, 8, 1, 9, 0, 0], 30),
        ] {
            assert_eq!(reflected(bytes, &mut []), Err(Refused(number)), "{bytes:?}");
        }
    }

    /// A chain, where the tree is said to have so many nodes: 5 before a node of depth 17, unless no
    /// node is left.
    #[test]
    fn depth() {
        let chain = |count: u8, nodes: u8, last: [u8; 2]| {
            let inner = |at: u8| [2 * at, 2 * at + 1, 1];
            let mut bytes = vec![count];
            bytes.extend((1..nodes).flat_map(inner));
            bytes.extend([2 * nodes, last[0], last[1]]);
            reflected(&bytes, &mut [])
        };
        assert_eq!(chain(16, 16, [0, 0]), Err(Refused(30)));
        assert_eq!(chain(16, 16, [99, 1]), Err(Refused(32)));
        assert_eq!(chain(17, 16, [99, 1]), Err(Refused(5)));
        assert_eq!(chain(17, 16, [0, 0]), Err(Refused(32)));
        assert_eq!(chain(17, 17, [0, 0]), Err(Refused(5)));
    }
}
