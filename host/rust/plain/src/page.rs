//! Pages for the shift board.

use crate::decide::Grant;
use crate::{Reader, Refused};

/// The bytes of a line.
const LINE: usize = 41;

/// 2099-12-31, the last day with a date.
const LAST_DATED: u32 = 36_525;

/// A day's date: year, month, day. Day 1 is 2000-01-01.
///
/// Years are counted from March 1 on, so that a leap day is the last of its year: 400 years have
/// 146,097 days, and five months from March or from August on have 153.
fn date(day: u32) -> (u32, u32, u32) {
    // Day 0 is March 1 of the year 0: 2,000 years before 2000-03-01, which is day 61.
    let from_march = day + 5 * 146_097 - 61;
    let (era, in_era) = (from_march / 146_097, from_march % 146_097);
    let year = (in_era - in_era / 1_460 + in_era / 36_524 - in_era / 146_096) / 365;
    let in_year = in_era - (365 * year + year / 4 - year / 100);
    let month = (5 * in_year + 2) / 153;
    let day = in_year - (153 * month + 2) / 5 + 1;
    // Months 10 and 11 from March are January and February of the next year.
    if month < 10 {
        (400 * era + year, month + 3, day)
    } else {
        (400 * era + year + 1, month - 9, day)
    }
}

/// Writes a number at the end of its field, which has room for it.
fn put_number(field: &mut [u8], mut value: u32) {
    for place in field.iter_mut().rev() {
        *place = b'0' + (value % 10) as u8;
        value /= 10;
        if value == 0 {
            return;
        }
    }
}

/// Writes a day's date: ten bytes.
fn put_date(field: &mut [u8], day: u32) {
    let (year, month, day) = date(day);
    field.copy_from_slice(b"0000-00-00");
    put_number(&mut field[..4], year);
    put_number(&mut field[..7], month);
    put_number(field, day);
}

/// Writes a grant's line; its days have dates.
fn put(line: &mut [u8], grant: &Grant, today: u32) {
    line.fill(b' ');
    put_number(&mut line[..10], grant.feature);
    put_date(&mut line[11..21], grant.first);
    if grant.last == 0 {
        line[22..26].copy_from_slice(b"open");
    } else {
        put_date(&mut line[22..32], grant.last);
    }
    let state = if grant.first > today {
        "ahead"
    } else if grant.last != 0 && grant.last < today {
        "ended"
    } else {
        "on"
    };
    line[33..33 + state.len()].copy_from_slice(state.as_bytes());
    line[LINE - 1] = b'\n';
}

/// Writes a line for each grant that applies to the pass (l, r), and answers the byte count; bytes
/// after the page stay.
pub fn page(l: u32, r: u32, day: u32, grants: &[u8], buffer: &mut [u8]) -> Result<usize, Refused> {
    if l == 0 || r == 0 || day == 0 {
        return Err(Refused(15));
    }
    let mut reader = Reader::new(grants);
    let mut applying = Vec::new();
    while !reader.at_end() {
        let grant = Grant::read(&mut reader)?;
        if grant.first > LAST_DATED || grant.last > LAST_DATED {
            return Err(Refused(31));
        }
        if l <= grant.l && r <= grant.r {
            applying.push(grant);
        }
    }
    let needed = LINE * applying.len();
    if buffer.len() < needed {
        return Err(Refused(30));
    }
    for (line, grant) in buffer.chunks_exact_mut(LINE).zip(&applying) {
        put(line, grant, day);
    }
    Ok(needed)
}

#[cfg(test)]
mod tests {
    use super::*;

    /// The calendar counted day by day: leap years by the full rule, months by their lengths.
    #[test]
    fn dates_by_counting() {
        let mut day = 0;
        for year in 2000..2100 {
            let leap = year % 4 == 0 && (year % 100 != 0 || year % 400 == 0);
            let february = if leap { 29 } else { 28 };
            let months = [31, february, 31, 30, 31, 30, 31, 31, 30, 31, 30, 31];
            for (month, length) in (1..).zip(months) {
                for in_month in 1..=length {
                    day += 1;
                    assert_eq!(date(day), (year, month, in_month), "day {day}");
                }
            }
        }
        assert_eq!(day, LAST_DATED);
    }

    fn line(feature: u32, first: u32, last: u32, today: u32) -> String {
        let mut line = [0; LINE];
        put(&mut line, &Grant { feature, l: 1, r: 1, first, last }, today);
        String::from_utf8(line.to_vec()).unwrap()
    }

    #[test]
    fn a_line() {
        assert_eq!(line(7, 60, 61, 59), "         7 2000-02-29 2000-03-01 ahead  \n");
        assert_eq!(line(7, 60, 61, 60), "         7 2000-02-29 2000-03-01 on     \n");
        assert_eq!(line(7, 60, 61, 61), "         7 2000-02-29 2000-03-01 on     \n");
        assert_eq!(line(7, 60, 61, 62), "         7 2000-02-29 2000-03-01 ended  \n");
        assert_eq!(line(u32::MAX, 1, 0, u32::MAX), "4294967295 2000-01-01 open       on     \n");
    }

    /// The fields are those that Rust's own alignment gives.
    #[test]
    fn lines_by_format() {
        let text = |day: u32| {
            let (year, month, day) = date(day);
            format!("{year:04}-{month:02}-{day:02}")
        };
        let mut feature = 1u32;
        for day in 1..=LAST_DATED {
            let (open, dated) = (line(feature, day, 0, day), line(feature, day, day, day + 1));
            let (date, open_last, on, ended) = (text(day), "open", "on", "ended");
            assert_eq!(open, format!("{feature:>10} {date:<10} {open_last:<10} {on:<7}\n"));
            assert_eq!(dated, format!("{feature:>10} {date:<10} {date:<10} {ended:<7}\n"));
            feature = feature.wrapping_mul(7);
        }
    }

    #[test]
    fn a_page() {
        let list = [9, 1, 1, 10, 20, 8, 2, 2, 1, 0, 7, 2, 3, 1, 1];
        let mut buffer = [0xEE; 83];
        assert_eq!(page(2, 2, 5, &list, &mut buffer[..81]), Err(Refused(30)));
        assert_eq!(buffer, [0xEE; 83]);
        assert_eq!(page(2, 2, 5, &list, &mut buffer), Ok(82));
        assert_eq!(
            String::from_utf8_lossy(&buffer[..82]),
            "         8 2000-01-01 open       on     \n         7 2000-01-01 2000-01-01 ended  \n"
        );
        assert_eq!(buffer[82], 0xEE);
        assert_eq!(page(1, 1, 1, &[], &mut []), Ok(0));
        for (l, r, day, list, number) in [
            (0, 1, 1, &[0][..], 15),
            (1, 0, 1, &[0], 15),
            (1, 1, 0, &[0], 15),
            (1, 1, 1, &[1, 1, 1, 1], 1),
            (1, 1, 1, &[1, 1, 1, 1, 0x80, 0], 2),
            (1, 1, 1, &[1, 1, 1, 2, 1], 14),
            (1, 1, 1, &[1, 1, 1, 0xAE, 0x9D, 2, 0xAD, 0x9D, 2], 14),
            (2, 1, 1, &[1, 1, 1, 1, 0xAE, 0x9D, 2], 31),
            (2, 1, 1, &[1, 1, 1, 0xAE, 0x9D, 2, 0], 31),
            (1, 1, 1, &[1, 1, 1, 1, 0xAD, 0x9D, 2], 30),
        ] {
            assert_eq!(page(l, r, day, list, &mut []), Err(Refused(number)), "{list:?}");
        }
    }
}
