//! Document 02's note 2: the shift board's pages, line by line, and their dates against the C
//! library's calendar.

mod common;

use std::alloc::{alloc_zeroed, dealloc, Layout};
use std::slice;

use common::calendar::{date_of, day_of};
use common::guarded::Guarded;
use zintukor::{grants, lent, page, Grant, Pass, Refusal, PAGE_LINE};

/// The last day with a date, 2099-12-31.
const LAST_DATED: u32 = 36_525;

const PASS: Pass = Pass { l: 2, r: 2 };

/// Grants of feature 7 to the pass's own group, by their first and last days; last day 0 is open.
fn windows(days: &[(u32, u32)]) -> Vec<u8> {
    let list: Vec<Grant> = days.iter().map(|&(first, last)| Grant::new(7, PASS, first).until(last)).collect();
    grants(&list)
}

/// The two dates of such a grant, as the page has them.
#[track_caller]
fn dates(first: u32, last: u32) -> [String; 2] {
    let text = page(PASS, 1, &windows(&[(first, last)])).unwrap();
    assert_eq!(text.len(), PAGE_LINE);
    [text[11..21].to_string(), text[22..32].to_string()]
}

/// Such a grant's state on a day, with its line feed.
#[track_caller]
fn state(day: u32, window: (u32, u32)) -> String {
    page(PASS, day, &windows(&[window])).unwrap()[33..].to_string()
}

/// The list is refused by this number, and the buffer stays, be it long enough or not.
#[track_caller]
fn refused(pass: Pass, day: u32, list: &[u8], number: u32) {
    let refusal = Refusal::from_number(number).unwrap();
    assert_eq!(page(pass, day, list), Err(refusal));
    for length in [0, 1, PAGE_LINE, 1_000] {
        let before = Guarded::new(&vec![0xEE; length]);
        let mut buffer = before.clone();
        assert_eq!(lent::page(pass.l, pass.r, day, list, buffer.part_mut()), Err(refusal));
        buffer.assert_is(&before, "refused");
    }
}

#[test]
fn a_page_as_it_is_printed() {
    let region = Pass { l: 96, r: 96 };
    let list = grants(&[
        Grant::new(7, region, 9_133).until(9_497),
        Grant::new(7, region, 9_498).until(9_862),
        // A grant to a group that isn't above the pass's.
        Grant::new(9, Pass { l: 6, r: 81 }, 9_498),
        Grant::new(12, region, 9_679).until(10_043),
        Grant::new(300, region, 8_826),
    ]);
    let lines = [
        "         7 2025-01-01 2025-12-31 ended  \n",
        "         7 2026-01-01 2026-12-31 on     \n",
        "        12 2026-07-01 2027-06-30 ahead  \n",
        "       300 2024-02-29 open       on     \n",
    ];
    assert_eq!(page(Pass { l: 48, r: 36 }, 9_640, &list), Ok(lines.concat()));
}

#[test]
fn first_and_last_days_of_months() {
    // A leap year by 400, one by 4, and years of 365 days; each with the day of its January 1.
    for (year, before, february) in
        [(2000, 0, 29), (2001, 366, 28), (2004, 1_461, 29), (2096, 35_064, 29), (2099, 36_160, 28)]
    {
        let mut day = before;
        for (month, length) in (1..).zip([31, february, 31, 30, 31, 30, 31, 31, 30, 31, 30, 31]) {
            let expected = [format!("{year}-{month:02}-01"), format!("{year}-{month:02}-{length}")];
            assert_eq!(dates(day + 1, day + length), expected);
            day += length;
        }
    }
}

#[test]
fn dates_by_name() {
    for (day, date) in [
        (1, "2000-01-01"),
        (2, "2000-01-02"),
        (59, "2000-02-28"),
        (60, "2000-02-29"),
        (61, "2000-03-01"),
        (366, "2000-12-31"),
        (367, "2001-01-01"),
        (425, "2001-02-28"),
        (426, "2001-03-01"),
        (36_524, "2099-12-30"),
        (36_525, "2099-12-31"),
    ] {
        assert_eq!(dates(day, day), [date, date]);
        assert_eq!(dates(day, 0), [date, "open      "]);
    }
}

/// Every day's date is the one that the C library gives it; a page of 36,525 lines.
#[test]
fn each_date_is_that_of_c() {
    let days: Vec<(u32, u32)> = (1..=LAST_DATED).map(|day| (day, day)).collect();
    let text = page(PASS, 1, &windows(&days)).unwrap();
    assert_eq!(text.len(), PAGE_LINE * days.len());
    for (day, line) in (1..).zip(text.lines()) {
        let date = date_of(day);
        assert_eq!((&line[11..21], &line[22..32]), (&date[..], &date[..]), "day {day}");
    }
}

/// The other way round: the C library counts the days up to three dates of each year.
#[test]
fn three_dates_of_each_year() {
    for year in 2000..2100 {
        let dated = [(1, 1), (3, 1), (12, 31)].map(|(month, day)| {
            let number = day_of(year, month, day);
            assert_eq!(dates(number, 0)[0], format!("{year}-{month:02}-{day:02}"));
            number
        });
        // March 1 comes after February 29 in a leap year, else after February 28.
        let leap = dated[2] - dated[0] == 365;
        let february = format!("{year}-02-{}", if leap { 29 } else { 28 });
        assert_eq!(dates(dated[1] - 1, dated[2]), [february, format!("{year}-12-31")]);
    }
    assert_eq!((day_of(2000, 1, 1), day_of(2099, 12, 31)), (1, LAST_DATED));
}

#[test]
fn features() {
    for (feature, column) in [
        (1, "         1 "),
        (9, "         9 "),
        (10, "        10 "),
        (123_456_789, " 123456789 "),
        (999_999_999, " 999999999 "),
        (1_000_000_000, "1000000000 "),
        (u32::MAX, "4294967295 "),
    ] {
        let list = grants(&[Grant::new(feature, PASS, 1)]);
        assert_eq!(page(PASS, 1, &list), Ok(format!("{column}2000-01-01 open       on     \n")));
    }
}

#[test]
fn states_at_border_days() {
    let (on, ended, ahead) = ("on     \n", "ended  \n", "ahead  \n");
    for (day, expected) in
        [(1, ahead), (9, ahead), (10, on), (11, on), (20, on), (21, ended), (u32::MAX, ended)]
    {
        assert_eq!(state(day, (10, 20)), expected, "on day {day}");
    }
    for (day, expected) in [(9, ahead), (10, on), (11, ended)] {
        assert_eq!(state(day, (10, 10)), expected, "on day {day}");
    }
    for (day, expected) in [(1, ahead), (9, ahead), (10, on), (LAST_DATED + 1, on), (u32::MAX, on)] {
        assert_eq!(state(day, (10, 0)), expected, "on day {day}");
    }
    // The day asked about may lie past the last one with a date.
    for (day, expected) in
        [(LAST_DATED - 1, ahead), (LAST_DATED, on), (LAST_DATED + 1, ended), (u32::MAX, ended)]
    {
        assert_eq!(state(day, (LAST_DATED, LAST_DATED)), expected, "on day {day}");
    }
}

/// Each grant's state is its own, though one follows on another of the same feature.
#[test]
fn a_state_for_each_grant() {
    let text = page(PASS, 15, &windows(&[(21, 30), (10, 20), (1, 9), (31, 0), (1, 0)])).unwrap();
    let states: Vec<&str> = text.lines().map(|line| line[33..].trim_end()).collect();
    assert_eq!(states, ["ahead", "on", "ended", "ahead", "on"]);
}

/// Grants of any feature that apply to the pass, in the list's order, also where two are equal.
#[test]
fn which_grants_and_in_which_order() {
    let grant = |feature: u32, l: u32, r: u32| Grant::new(feature, Pass { l, r }, 1);
    let most = u32::MAX;
    let list = grants(&[
        grant(9, 2, 2),
        grant(1, 1, 2),
        grant(8, 3, 2),
        grant(2, 2, 1),
        grant(7, 2, most),
        grant(3, 1, most),
        grant(9, 2, 2),
        grant(4, most, 1),
        grant(5, most, most),
    ]);
    let features = |l: u32, r: u32| -> Vec<u32> {
        let text = page(Pass { l, r }, 1, &list).unwrap();
        text.lines().map(|line| line[..10].trim_start().parse().unwrap()).collect()
    };
    assert_eq!(features(2, 2), [9, 8, 7, 9, 5]);
    assert_eq!(features(1, 1), [9, 1, 8, 2, 7, 3, 9, 4, 5]);
    assert_eq!(features(4, 1), [4, 5]);
    assert_eq!(features(1, 3), [7, 3, 5]);
    assert_eq!(features(most, most), [5]);
}

#[test]
fn days_without_a_date() {
    let late = LAST_DATED + 1;
    assert!(page(PASS, 1, &windows(&[(LAST_DATED, LAST_DATED), (LAST_DATED, 0)])).is_ok());
    for window in [(late, 0), (late, late), (1, late), (LAST_DATED, late), (1, u32::MAX), (u32::MAX, 0)] {
        refused(PASS, 1, &windows(&[window]), 31);
        // After a line that could be written, and before one.
        refused(PASS, 1, &windows(&[(1, 0), window]), 31);
        refused(PASS, 1, &windows(&[window, (1, 0)]), 31);
        // Of a grant that doesn't apply.
        refused(Pass { l: 3, r: 2 }, 1, &windows(&[window]), 31);
        refused(Pass { l: 2, r: 3 }, 1, &windows(&[(1, 0), window]), 31);
    }
    // It is the grant's days that count, not the day asked about.
    assert_eq!(page(PASS, late, &windows(&[(1, 1)])).unwrap().len(), PAGE_LINE);
}

/// Where a grant meets 14 and 31, or two grants one of them each.
#[test]
fn bad_grants_and_days_without_a_date() {
    let late = LAST_DATED + 1;
    for pass in [PASS, Pass { l: 3, r: 2 }] {
        refused(pass, 1, &windows(&[(late + 1, late)]), 14);
        refused(pass, 1, &windows(&[(late, 1)]), 14);
        refused(pass, 1, &windows(&[(0, late)]), 14);
        refused(pass, 1, &grants(&[Grant::new(0, PASS, late)]), 14);
        refused(pass, 1, &windows(&[(2, 1), (late, 0)]), 14);
        refused(pass, 1, &windows(&[(late, 0), (2, 1)]), 31);
        refused(pass, 1, &[&windows(&[(late, 0)])[..], &[0x80, 0]].concat(), 31);
    }
}

#[test]
fn nothing_to_list() {
    assert_eq!(page(PASS, 1, &[]), Ok(String::new()));
    let aside = grants(&[Grant::new(7, Pass { l: 1, r: 9 }, 1), Grant::new(7, Pass { l: 9, r: 1 }, 1)]);
    for list in [&[][..], &aside] {
        assert_eq!(lent::page(PASS.l, PASS.r, 1, list, &mut []), Ok(0));
        let before = Guarded::new(&[0xEE; 50]);
        let mut buffer = before.clone();
        assert_eq!(lent::page(PASS.l, PASS.r, 1, list, buffer.part_mut()), Ok(0));
        buffer.assert_is(&before, "an empty page");
    }
}

/// Exact, one short, longer; the bytes after the page stay, and all of them where it is refused.
#[test]
fn buffers() {
    for lines in [1, 2, 3, 10] {
        let list = windows(&vec![(60, 0); lines]);
        let text = "         7 2000-02-29 open       on     \n".repeat(lines);
        let needed = PAGE_LINE * lines;
        for length in [needed, needed + 1, needed + 40, needed + 41, needed + 1_000] {
            let mut buffer = Guarded::new(&vec![0xEE; length]);
            assert_eq!(lent::page(2, 2, 60, &list, buffer.part_mut()), Ok(needed));
            let after = vec![0xEE; length - needed];
            buffer
                .assert_is(&Guarded::new(&[text.as_bytes(), &after].concat()), "the page and what is after");
        }
        for length in [needed - 1, needed - 40, needed - 41, 0] {
            let before = Guarded::new(&vec![0xEE; length]);
            let mut buffer = before.clone();
            assert_eq!(lent::page(2, 2, 60, &list, buffer.part_mut()), Err(Refusal::BufferShort));
            buffer.assert_is(&before, "refused");
            // The list is read to its end first.
            let bad = [&list[..], &[7, 2, 2, 2, 1]].concat();
            assert_eq!(lent::page(2, 2, 60, &bad, buffer.part_mut()), Err(Refusal::Grant));
            buffer.assert_is(&before, "refused");
        }
    }
}

/// Numbers of one byte and of five: the text's buffer is as long as the page.
#[test]
fn short_and_long_numbers() {
    let most = u32::MAX;
    let list = [Grant::new(1, PASS, 1), Grant::new(most, Pass { l: most, r: most }, LAST_DATED)].repeat(500);
    let lines = "         1 2000-01-01 open       on     \n4294967295 2099-12-31 open       ahead  \n";
    assert_eq!(page(PASS, 1, &grants(&list)), Ok(lines.repeat(500)));
}

/// Of a longer buffer the engine uses the first 4294967295 bytes: its length isn't taken in 32 bits,
/// in which these would be 0 and 40. Only the page's bytes are touched.
#[test]
fn a_buffer_of_more_than_4294967295_bytes() {
    let layout = Layout::array::<u8>((1 << 32) + 40).unwrap();
    // SAFETY: the layout isn't empty; the slice is of the bytes allocated, which are all 0.
    unsafe {
        let start = alloc_zeroed(layout);
        // A machine may have too little to lend.
        if !start.is_null() {
            let buffer = slice::from_raw_parts_mut(start, layout.size());
            for length in [1 << 32, (1 << 32) + 40] {
                buffer[..50].fill(0xEE);
                assert_eq!(lent::page(2, 2, 1, &windows(&[(1, 0)]), &mut buffer[..length]), Ok(PAGE_LINE));
                assert_eq!(buffer[..PAGE_LINE], *b"         7 2000-01-01 open       on     \n");
                assert_eq!(buffer[PAGE_LINE..50], [0xEE; 9]);
            }
            dealloc(start, layout);
        }
    }
}
