//! The wrappers themselves: refusals and their texts, the encoders, owned columns and tables, small
//! requests one after another, the list of a reflected tree.

use std::collections::HashSet;
use std::error::Error;

use zintukor::{entry, fresh, grants, lent, order, read, refine, reflected, small_requests, store, Columns};
use zintukor::{Decision, Grant, Order, Pass, Refusal, Request, Table};

#[test]
fn each_refusal_has_its_number_and_its_text() {
    let numbers = [1, 2, 3, 4, 5, 6, 7, 10, 11, 12, 13, 14, 15, 20, 21, 22, 23, 24, 26, 30, 31, 32, 33];
    let all: Vec<u32> = Refusal::ALL.iter().map(|refusal| refusal.number()).collect();
    assert_eq!(all, numbers);
    for number in (0..=1_000).chain([u32::MAX]) {
        match Refusal::from_number(number) {
            Some(refusal) => assert_eq!(refusal.number(), number),
            None => assert!(!numbers.contains(&number)),
        }
    }
    let texts: HashSet<&str> = Refusal::ALL.iter().map(|refusal| refusal.text()).collect();
    assert_eq!(texts.len(), numbers.len());
    let error: Box<dyn Error> = Refusal::BufferShort.into();
    let text = "the buffer is too short for the stored table, the page or the requests";
    assert_eq!(error.to_string(), format!("refused (30): {text}"));
}

#[test]
fn answers_as_text() {
    assert_eq!(Decision::OnOpen.to_string(), "on open");
    assert_eq!(Decision::OnUntil(20).to_string(), "on 20");
    assert_eq!(Decision::Ended(20).to_string(), "ended 20");
    assert_eq!(Decision::Ahead(10).to_string(), "ahead 10");
    assert_eq!(Decision::Never.to_string(), "never");
    assert!(Decision::OnUntil(1).is_on() && Decision::OnOpen.is_on() && !Decision::Ahead(1).is_on());
    assert_eq!(Order::Incomparable.to_string(), "incomparable");
}

#[test]
fn requests_and_grants_as_bytes() {
    let request = Request::inverted(300).tree(entry(300, 128).child(entry(1, 2)).child(entry(2, 3)));
    assert_eq!(request.bytes(), [0xAC, 2, 1, 1, 0xAC, 2, 0x80, 1, 2, 1, 2, 0, 2, 3, 0]);
    assert_eq!(Request::upright(1).bytes(), [1, 0, 0]);
    let at = Pass { l: 300, r: 1 };
    let list = grants(&[Grant::new(7, at, 10), Grant::new(8, at, 1).until(200)]);
    assert_eq!(list, [7, 0xAC, 2, 1, 10, 0, 8, 0xAC, 2, 1, 1, 0xC8, 1]);
}

#[test]
fn owned_columns() {
    let mut columns = Columns::new(3);
    assert_eq!(fresh(&mut columns, 1, 10), Ok(1));
    let request = Request::upright(1).tree(entry(1, 4).child(entry(2, 6))).bytes();
    assert_eq!(refine(&mut columns, 1, &request), Ok(2));
    assert_eq!(columns.id, [1, 2, 0]);
    assert_eq!(columns.l, [1, 5, 0]);
    assert_eq!(columns.r, [1, 5, 0]);
    assert_eq!(columns.q, [4, 6, 0]);
    assert_eq!(order(&columns, 2, 2, 1), Ok(Order::SecondIsSubgroup));
    let mut buffer = [0xEE; 10];
    assert_eq!(store(&columns, 2, &mut buffer), Ok(9));
    assert_eq!(buffer, [2, 1, 1, 1, 4, 2, 5, 5, 6, 0xEE]);
    let mut back = Columns::new(2);
    assert_eq!(read(&mut back, &buffer[..9]), Ok(2));
    assert_eq!(back.l, [1, 5]);
    // Columns that are no table are refused, and stay.
    let odd = Columns { q: vec![1], ..Columns::new(2) };
    let mut lent = odd.clone();
    assert_eq!(fresh(&mut lent, 1, 1), Err(Refusal::Columns));
    assert_eq!(read(&mut lent, &buffer[..9]), Err(Refusal::Columns));
    assert_eq!(refine(&mut lent, 1, &request), Err(Refusal::Columns));
    assert_eq!(lent, odd);
    assert_eq!(order(&Columns::default(), 0, 1, 1), Err(Refusal::Columns));
    assert_eq!(store(&Columns::new(1), 1, &mut []), Err(Refusal::RowValue));
}

#[test]
fn tables() {
    assert_eq!(Table::fresh(0, 1, 1).unwrap_err(), Refusal::Columns);
    assert_eq!(Table::fresh(257, 1, 1).unwrap_err(), Refusal::Columns);
    assert_eq!(Table::fresh(usize::MAX, 1, 1).unwrap_err(), Refusal::Columns);
    assert_eq!(Table::fresh(1, 0, 1).unwrap_err(), Refusal::RowValue);
    let mut table = Table::fresh(2, 1, u32::MAX).unwrap();
    let request = Request::upright(1).trees([entry(1, 1), entry(2, u32::MAX - 1)]).bytes();
    assert_eq!(table.refine(&request), Ok(2));
    assert_eq!(table.refine(&request), Err(Refusal::IdTaken));
    assert_eq!((table.count(), table.pass(3)), (2, None));
    assert_eq!(table.pass(1), Some(Pass { l: 1, r: u32::MAX }));
    assert_eq!(Table::read(1, &table.store().unwrap()).unwrap_err(), Refusal::Columns);
}

#[test]
fn small_requests_one_after_another() {
    let chain = Request::upright(1).tree(entry(1, 1).child(entry(2, 1)));
    let beside = Request::upright(1).trees([entry(1, 1), entry(2, 1)]);
    let turned = Request::inverted(1).tree(entry(1, 1).child(entry(2, 1)));
    let turned_beside = Request::inverted(1).trees([entry(1, 1), entry(2, 1)]);
    let mut requests = small_requests(2);
    for (left, request) in (0..4).rev().zip([chain, beside, turned, turned_beside]) {
        assert_eq!((requests.len(), requests.clone().count()), (left + 1, left + 1));
        assert_eq!(requests.next(), Some(request.bytes()));
        assert_eq!(requests.size_hint(), (left, Some(left)));
    }
    assert_eq!((requests.next(), requests.next()), (None, None));
    for size in [0, 7, u32::MAX] {
        assert_eq!((small_requests(size).len(), small_requests(size).next()), (0, None));
        assert_eq!(lent::small_requests(size, &mut []), Ok(0));
    }
    // Any of them by its place.
    assert_eq!(small_requests(6).nth(263), small_requests(6).last());
    assert_eq!(small_requests(6).nth(264), None);
    assert_eq!(lent::small_requests(1, &mut [0; 13]), Err(Refusal::BufferShort));
}

#[test]
fn the_list_of_a_reflected_tree() {
    // 300 over 2 and 3 with 301 below the line; 2 over 4 with 5 below it.
    let tree = [4, 0xAC, 2, 0xAD, 2, 2, 2, 5, 1, 4, 0, 0, 3, 0, 0];
    let requests = [
        Request::upright(300).tree(entry(300, 1).child(entry(2, 4).child(entry(301, 1)))),
        Request::upright(2).trees([entry(2, 3), entry(3, 1)]),
        Request::upright(2).tree(entry(2, 1).child(entry(4, 1).child(entry(5, 1)))),
    ];
    let mut list = vec![0xAC, 2, 6];
    let mut table = Table::fresh(256, 300, 6).unwrap();
    for (request, count) in requests.iter().zip([3, 4, 6]) {
        list.push(request.bytes().len() as u8);
        list.extend(request.bytes());
        assert_eq!(table.refine(&request.bytes()), Ok(count));
    }
    assert_eq!(reflected(&tree), Ok(list.clone()));
    assert_eq!(table.order(4, 301), Ok(Order::FirstIsSubgroup));
    assert_eq!(table.order(5, 3), Ok(Order::Incomparable));
    let mut buffer = vec![0xEE; list.len() + 1];
    assert_eq!(lent::reflected(&tree, &mut buffer), Ok(list.len()));
    assert_eq!(buffer, [&list[..], &[0xEE]].concat());
    assert_eq!(lent::reflected(&tree, &mut buffer[1..list.len()]), Err(Refusal::BufferShort));
    assert_eq!(reflected(&tree[..14]), Err(Refusal::NumberCut));
    assert_eq!(reflected(&[&tree[..], &[0]].concat()), Err(Refusal::BytesRemain));
    assert_eq!(reflected(&[0]), Err(Refusal::Nodes));
    assert_eq!(reflected(&[2, 7, 8, 1, 7, 0, 0]), Err(Refusal::IdRepeats));
}
