//! The engine's answers: kind * 4294967296 + value.

use crate::{Decision, Order, Refusal};

/// The kinds, by the names that include/zintukor.h has for them.
mod kind {
    pub(super) const REFUSED: u32 = 0;
    pub(super) const COUNT: u32 = 1;
    pub(super) const SAME: u32 = 2;
    pub(super) const FIRST: u32 = 3;
    pub(super) const SECOND: u32 = 4;
    pub(super) const INCOMPARABLE: u32 = 5;
    pub(super) const ON_OPEN: u32 = 6;
    pub(super) const ON_UNTIL: u32 = 7;
    pub(super) const ENDED: u32 = 8;
    pub(super) const AHEAD: u32 = 9;
    pub(super) const NEVER: u32 = 10;
}

/// The kind and the value, or the refusal.
fn split(answer: u64) -> Result<(u32, u32), Refusal> {
    let (kind, value) = ((answer >> 32) as u32, answer as u32);
    if kind != kind::REFUSED {
        return Ok((kind, value));
    }
    match Refusal::from_number(value) {
        Some(refusal) => Err(refusal),
        None => unknown(answer),
    }
}

/// The library linked isn't the one this crate was written for.
#[cold]
fn unknown(answer: u64) -> ! {
    panic!("the engine's answer {answer} is none of this call: is libzintukor.a of another version?")
}

/// A count or a byte count.
pub(crate) fn count(answer: u64) -> Result<usize, Refusal> {
    match split(answer)? {
        (kind::COUNT, value) => Ok(value as usize),
        _ => unknown(answer),
    }
}

/// An order.
pub(crate) fn order(answer: u64) -> Result<Order, Refusal> {
    match split(answer)? {
        (kind::SAME, 0) => Ok(Order::Same),
        (kind::FIRST, 0) => Ok(Order::FirstIsSubgroup),
        (kind::SECOND, 0) => Ok(Order::SecondIsSubgroup),
        (kind::INCOMPARABLE, 0) => Ok(Order::Incomparable),
        _ => unknown(answer),
    }
}

/// A decision.
pub(crate) fn decision(answer: u64) -> Result<Decision, Refusal> {
    match split(answer)? {
        (kind::ON_OPEN, 0) => Ok(Decision::OnOpen),
        (kind::ON_UNTIL, day) => Ok(Decision::OnUntil(day)),
        (kind::ENDED, day) => Ok(Decision::Ended(day)),
        (kind::AHEAD, day) => Ok(Decision::Ahead(day)),
        (kind::NEVER, 0) => Ok(Decision::Never),
        _ => unknown(answer),
    }
}

#[cfg(test)]
mod tests {
    use super::*;

    const fn answer(kind: u64, value: u64) -> u64 {
        kind * 4_294_967_296 + value
    }

    /// The kinds have the names and numbers of the header and of the engine.
    #[test]
    fn one_name_for_each_kind() {
        let header = include_str!("../../../include/zintukor.h");
        let engine = include_str!("../../../crates/codes/src/lib.rt");
        for (name, number) in [
            ("REFUSED", kind::REFUSED),
            ("COUNT", kind::COUNT),
            ("SAME", kind::SAME),
            ("FIRST", kind::FIRST),
            ("SECOND", kind::SECOND),
            ("INCOMPARABLE", kind::INCOMPARABLE),
            ("ON_OPEN", kind::ON_OPEN),
            ("ON_UNTIL", kind::ON_UNTIL),
            ("ENDED", kind::ENDED),
            ("AHEAD", kind::AHEAD),
            ("NEVER", kind::NEVER),
        ] {
            assert!(header.contains(&format!("#define ZINTUKOR_{name} {number} ")), "{name} in the header");
            let case: String = name.split('_').map(|word| word[..1].to_owned() + &word[1..].to_lowercase()).collect();
            assert!(engine.contains(&format!("    {case} = {number},\n")), "{name} in the engine");
        }
    }

    #[test]
    fn each_kind() {
        assert_eq!(count(answer(1, 256)), Ok(256));
        assert_eq!(count(answer(0, 23)), Err(Refusal::QuotaSum));
        assert_eq!(order(answer(2, 0)), Ok(Order::Same));
        assert_eq!(order(answer(3, 0)), Ok(Order::FirstIsSubgroup));
        assert_eq!(order(answer(4, 0)), Ok(Order::SecondIsSubgroup));
        assert_eq!(order(answer(5, 0)), Ok(Order::Incomparable));
        assert_eq!(decision(answer(6, 0)), Ok(Decision::OnOpen));
        assert_eq!(decision(answer(7, u64::from(u32::MAX))), Ok(Decision::OnUntil(u32::MAX)));
        assert_eq!(decision(answer(8, 20)), Ok(Decision::Ended(20)));
        assert_eq!(decision(answer(9, 10)), Ok(Decision::Ahead(10)));
        assert_eq!(decision(answer(10, 0)), Ok(Decision::Never));
        assert_eq!(decision(answer(0, 15)), Err(Refusal::Question));
    }

    #[test]
    #[should_panic(expected = "of another version")]
    fn a_kind_of_another_call() {
        let _ = count(answer(2, 0));
    }

    #[test]
    #[should_panic(expected = "of another version")]
    fn a_refusal_without_a_condition() {
        let _ = order(answer(0, 8));
    }
}
