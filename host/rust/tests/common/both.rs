//! The engine and the plain version called side by side; answers, columns and buffers compared.

use std::collections::BTreeMap;

use super::guarded::{Guarded, Lent};
use zintukor::Pass;

/// An answer of either version.
#[derive(Clone, Copy, PartialEq, Eq, PartialOrd, Ord, Debug)]
pub enum Answer {
    Refused(u32),
    Count(usize),
    Same,
    First,
    Second,
    Incomparable,
    Open,
    Until(u32),
    Ended(u32),
    Ahead(u32),
    Never,
}

impl From<usize> for Answer {
    fn from(count: usize) -> Answer {
        Answer::Count(count)
    }
}

impl From<zintukor::Order> for Answer {
    fn from(order: zintukor::Order) -> Answer {
        match order {
            zintukor::Order::Same => Answer::Same,
            zintukor::Order::FirstIsSubgroup => Answer::First,
            zintukor::Order::SecondIsSubgroup => Answer::Second,
            zintukor::Order::Incomparable => Answer::Incomparable,
        }
    }
}

impl From<zintukor_plain::Order> for Answer {
    fn from(order: zintukor_plain::Order) -> Answer {
        match order {
            zintukor_plain::Order::Same => Answer::Same,
            zintukor_plain::Order::First => Answer::First,
            zintukor_plain::Order::Second => Answer::Second,
            zintukor_plain::Order::Incomparable => Answer::Incomparable,
        }
    }
}

impl From<zintukor::Decision> for Answer {
    fn from(decision: zintukor::Decision) -> Answer {
        match decision {
            zintukor::Decision::OnOpen => Answer::Open,
            zintukor::Decision::OnUntil(day) => Answer::Until(day),
            zintukor::Decision::Ended(day) => Answer::Ended(day),
            zintukor::Decision::Ahead(day) => Answer::Ahead(day),
            zintukor::Decision::Never => Answer::Never,
        }
    }
}

impl From<zintukor_plain::Decision> for Answer {
    fn from(decision: zintukor_plain::Decision) -> Answer {
        match decision {
            zintukor_plain::Decision::Open => Answer::Open,
            zintukor_plain::Decision::Until(day) => Answer::Until(day),
            zintukor_plain::Decision::Ended(day) => Answer::Ended(day),
            zintukor_plain::Decision::Ahead(day) => Answer::Ahead(day),
            zintukor_plain::Decision::Never => Answer::Never,
        }
    }
}

pub fn of_engine(result: Result<impl Into<Answer>, zintukor::Refusal>) -> Answer {
    result.map_or_else(|refusal| Answer::Refused(refusal.number()), Into::into)
}

pub fn of_plain(result: Result<impl Into<Answer>, zintukor_plain::Refused>) -> Answer {
    result.map_or_else(|refused| Answer::Refused(refused.0), Into::into)
}

/// Calls both, and keeps what was answered.
#[derive(Default)]
pub struct Both {
    /// For each call: the refusal numbers seen, and how often.
    pub refused: BTreeMap<&'static str, BTreeMap<u32, u64>>,
    /// For each call: the kinds of other answers seen, and how often.
    pub kinds: BTreeMap<&'static str, BTreeMap<&'static str, u64>>,
    /// How many calls there were.
    pub calls: u64,
}

impl Both {
    fn compare(&mut self, call: &'static str, engine: Answer, plain: Answer) -> bool {
        assert_eq!(engine, plain, "{call}: the engine's answer, and the plain one");
        self.calls += 1;
        let kind = match engine {
            Answer::Refused(number) => {
                *self.refused.entry(call).or_default().entry(number).or_default() += 1;
                return true;
            }
            Answer::Count(_) => "count",
            Answer::Same => "same",
            Answer::First => "first",
            Answer::Second => "second",
            Answer::Incomparable => "incomparable",
            Answer::Open => "open",
            Answer::Until(_) => "until",
            Answer::Ended(_) => "ended",
            Answer::Ahead(_) => "ahead",
            Answer::Never => "never",
        };
        *self.kinds.entry(call).or_default().entry(kind).or_default() += 1;
        false
    }

    /// A call that may write the columns: the engine has `lent`, the plain version a copy.
    fn writing(
        &mut self,
        call: &'static str,
        lent: &mut Lent,
        engine: impl FnOnce([&mut [u32]; 4]) -> Answer,
        plain: impl FnOnce([&mut [u32]; 4]) -> Answer,
    ) -> Answer {
        let before = lent.clone();
        let mut other = lent.clone();
        let answer = engine(lent.parts_mut());
        let refused = self.compare(call, answer, plain(other.parts_mut()));
        lent.assert_is(&other, call);
        if refused {
            lent.assert_is(&before, "refused");
        }
        answer
    }

    pub fn fresh(&mut self, lent: &mut Lent, group: u32, quota: u32) -> Answer {
        self.writing(
            "fresh",
            lent,
            |[id, l, r, q]| of_engine(zintukor::lent::fresh(id, l, r, q, group, quota)),
            |[id, l, r, q]| of_plain(zintukor_plain::fresh(id, l, r, q, group, quota)),
        )
    }

    pub fn refine(&mut self, lent: &mut Lent, count: usize, request: &[u8]) -> Answer {
        self.writing(
            "refine",
            lent,
            |[id, l, r, q]| of_engine(zintukor::lent::refine(id, l, r, q, count, request)),
            |[id, l, r, q]| of_plain(zintukor_plain::refine(id, l, r, q, count, request)),
        )
    }

    pub fn read(&mut self, lent: &mut Lent, bytes: &[u8]) -> Answer {
        self.writing(
            "read",
            lent,
            |[id, l, r, q]| of_engine(zintukor::lent::read(id, l, r, q, bytes)),
            |[id, l, r, q]| of_plain(zintukor_plain::read(id, l, r, q, bytes)),
        )
    }

    pub fn order(&mut self, lent: &Lent, count: usize, first: u32, second: u32) -> Answer {
        let before = lent.clone();
        let [id, l, r, q] = lent.parts();
        let engine = of_engine(zintukor::lent::order(id, l, r, q, count, first, second));
        let plain = of_plain(zintukor_plain::order(id, l, r, q, count, first, second));
        self.compare("order", engine, plain);
        lent.assert_is(&before, "order");
        engine
    }

    pub fn store(&mut self, lent: &Lent, count: usize, buffer: &mut Guarded<u8>) -> Answer {
        let (before, buffer_before) = (lent.clone(), buffer.clone());
        let mut other = buffer.clone();
        let [id, l, r, q] = lent.parts();
        let engine = of_engine(zintukor::lent::store(id, l, r, q, count, buffer.part_mut()));
        let plain = of_plain(zintukor_plain::store(id, l, r, q, count, other.part_mut()));
        let refused = self.compare("store", engine, plain);
        buffer.assert_is(&other, "store: buffer");
        lent.assert_is(&before, "store");
        if refused {
            buffer.assert_is(&buffer_before, "store refused: buffer");
        }
        engine
    }

    pub fn decide(&mut self, feature: u32, pass: Pass, day: u32, grants: &[u8]) -> Answer {
        let engine = of_engine(zintukor::decide(feature, pass, day, grants));
        let plain = of_plain(zintukor_plain::decide(feature, pass.l, pass.r, day, grants));
        self.compare("decide", engine, plain);
        engine
    }

    /// The call on a lent buffer, and the one that gives a page as text.
    pub fn page(&mut self, pass: Pass, day: u32, grants: &[u8], buffer: &mut Guarded<u8>) -> Answer {
        let before = buffer.clone();
        let mut other = buffer.clone();
        let Pass { l, r } = pass;
        let engine = of_engine(zintukor::lent::page(l, r, day, grants, buffer.part_mut()));
        let plain = of_plain(zintukor_plain::page(l, r, day, grants, other.part_mut()));
        let refused = self.compare("page", engine, plain);
        buffer.assert_is(&other, "page: buffer");
        if refused {
            buffer.assert_is(&before, "page refused: buffer");
        }
        match (engine, zintukor::page(pass, day, grants)) {
            (Answer::Count(length), text) => {
                assert_eq!(text.as_ref().map(String::as_bytes), Ok(&buffer.part()[..length]));
            }
            // As text, a page has room.
            (Answer::Refused(30), text) => assert!(text.is_ok_and(|text| text.len() > buffer.len())),
            (refused, text) => assert_eq!(of_engine(text.map(|text| text.len())), refused),
        }
        engine
    }

    /// The call on a lent buffer, and the one that gives the requests one after another.
    pub fn small_requests(&mut self, size: u32, buffer: &mut Guarded<u8>) -> Answer {
        let before = buffer.clone();
        let mut other = buffer.clone();
        let engine = of_engine(zintukor::lent::small_requests(size, buffer.part_mut()));
        let plain = of_plain(zintukor_plain::small_requests(size, other.part_mut()));
        let refused = self.compare("small_requests", engine, plain);
        buffer.assert_is(&other, "small_requests: buffer");
        if refused {
            buffer.assert_is(&before, "small_requests refused: buffer");
        }
        let with_length = |request: Vec<u8>| [&[request.len() as u8], &request[..]].concat();
        let list: Vec<u8> = zintukor::small_requests(size).flat_map(with_length).collect();
        match engine {
            Answer::Count(length) => assert_eq!(list, buffer.part()[..length]),
            // One after another, they need no buffer.
            _ => assert!(list.len() > buffer.len()),
        }
        engine
    }

    /// The call on a lent buffer, and the one that gives the list.
    pub fn reflected(&mut self, bytes: &[u8], buffer: &mut Guarded<u8>) -> Answer {
        let before = buffer.clone();
        let mut other = buffer.clone();
        let engine = of_engine(zintukor::lent::reflected(bytes, buffer.part_mut()));
        let plain = of_plain(zintukor_plain::reflected(bytes, other.part_mut()));
        let refused = self.compare("reflected", engine, plain);
        buffer.assert_is(&other, "reflected: buffer");
        if refused {
            buffer.assert_is(&before, "reflected refused: buffer");
        }
        match (engine, zintukor::reflected(bytes)) {
            (Answer::Count(length), list) => assert_eq!(list.as_deref(), Ok(&buffer.part()[..length])),
            // As a vector, a list has room.
            (Answer::Refused(30), list) => assert!(list.is_ok_and(|list| list.len() > buffer.len())),
            (refused, list) => assert_eq!(of_engine(list.map(|list| list.len())), refused),
        }
        engine
    }
}
