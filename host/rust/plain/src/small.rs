//! Every small request of a size: all forests are made as trees, and then put in order.

use crate::{write_number, Refused};

/// The greatest size that is listed.
const GREATEST: u32 = 6;

/// A tree: its root's children.
#[derive(Clone)]
struct Tree(Vec<Tree>);

/// A request's shape. The smaller comes first, field by field.
#[derive(PartialEq, Eq, PartialOrd, Ord)]
struct Shape {
    inverted: bool,
    trees: usize,
    /// The child counts, in left pre-order.
    children: Vec<u32>,
}

/// Every forest of so many entries: below its first root is any forest, and so is what stands to
/// the right of the first tree.
fn forests(entries: u32) -> Vec<Vec<Tree>> {
    if entries == 0 {
        return vec![Vec::new()];
    }
    let mut all = Vec::new();
    for below in 0..entries {
        let others = forests(entries - 1 - below);
        for children in forests(below) {
            let first = [Tree(children)];
            all.extend(others.iter().map(|others| [&first[..], others].concat()));
        }
    }
    all
}

/// Adds the child counts of a forest, in left pre-order.
fn count_children(forest: &[Tree], counts: &mut Vec<u32>) {
    for Tree(children) in forest {
        counts.push(children.len() as u32);
        count_children(children, counts);
    }
}

impl Shape {
    fn of(forest: &[Tree], inverted: bool) -> Shape {
        let mut children = Vec::new();
        count_children(forest, &mut children);
        Shape { inverted, trees: forest.len(), children }
    }

    /// The request of this shape: group 1, with ids 1 upward and quota 1 each.
    fn request(&self) -> Vec<u8> {
        let mut numbers = vec![1, u32::from(self.inverted), self.trees as u32];
        for (id, &children) in (1..).zip(&self.children) {
            numbers.extend([id, 1, children]);
        }
        let mut bytes = Vec::new();
        numbers.iter().for_each(|&number| write_number(&mut bytes, number));
        bytes
    }
}

/// Writes every small request of a size, each after its length, and answers the byte count; bytes
/// after them stay.
pub fn small_requests(size: u32, buffer: &mut [u8]) -> Result<usize, Refused> {
    if size == 0 || size > GREATEST {
        return Ok(0);
    }
    let forests = forests(size);
    let both = |forest: &Vec<Tree>| [false, true].map(|inverted| Shape::of(forest, inverted));
    let mut shapes: Vec<Shape> = forests.iter().flat_map(both).collect();
    shapes.sort_unstable();
    let mut list = Vec::new();
    for request in shapes.iter().map(Shape::request) {
        write_number(&mut list, request.len() as u32);
        list.extend(request);
    }
    buffer.get_mut(..list.len()).ok_or(Refused(30))?.copy_from_slice(&list);
    Ok(list.len())
}

#[cfg(test)]
mod tests {
    use super::*;

    #[test]
    fn of_size_2() {
        let list = [
            [9, 1, 0, 1, 1, 1, 1, 2, 1, 0],
            [9, 1, 0, 2, 1, 1, 0, 2, 1, 0],
            [9, 1, 1, 1, 1, 1, 1, 2, 1, 0],
            [9, 1, 1, 2, 1, 1, 0, 2, 1, 0],
        ];
        let mut buffer = [0xEE; 41];
        assert_eq!(small_requests(2, &mut buffer[..39]), Err(Refused(30)));
        assert_eq!(buffer, [0xEE; 41]);
        assert_eq!(small_requests(2, &mut buffer), Ok(40));
        assert_eq!(buffer[..40], list.concat());
        assert_eq!(buffer[40], 0xEE);
    }

    /// A Catalan number of forests, in two directions.
    #[test]
    fn how_many() {
        for (size, requests) in (1..).zip([2, 4, 10, 28, 84, 264]) {
            assert_eq!(2 * forests(size).len(), requests);
            assert_eq!(small_requests(size, &mut [0; 5_808]), Ok(requests * (4 + 3 * size as usize)));
        }
        for size in [0, 7, u32::MAX] {
            assert_eq!(small_requests(size, &mut []), Ok(0));
        }
    }
}
