//! The C library's calendar: neither version's own.

use std::ffi::{c_char, c_int, c_long};

/// `struct tm`, as x86-64 Linux has it.
#[repr(C)]
struct Tm {
    sec: c_int,
    min: c_int,
    hour: c_int,
    mday: c_int,
    mon: c_int,
    year: c_int,
    wday: c_int,
    yday: c_int,
    isdst: c_int,
    gmtoff: c_long,
    zone: *const c_char,
}

impl Tm {
    /// Noon of a date, which need not be one: a day 0 is the last of the month before.
    fn noon(year: i32, month: i32, day: i32) -> Tm {
        Tm {
            sec: 0,
            min: 0,
            hour: 12,
            mday: day,
            mon: month - 1,
            year: year - 1900,
            wday: 0,
            yday: 0,
            isdst: 0,
            gmtoff: 0,
            zone: std::ptr::null(),
        }
    }
}

extern "C" {
    fn gmtime_r(time: *const i64, tm: *mut Tm) -> *mut Tm;
    fn strftime(text: *mut c_char, room: usize, format: *const c_char, tm: *const Tm) -> usize;
    fn timegm(tm: *mut Tm) -> i64;
}

const SECONDS_OF_A_DAY: i64 = 86_400;

/// The day number of a date: seconds since 1970 as days, counted from 2000-01-01 as day 1.
pub fn day_of(year: i32, month: i32, day: i32) -> u32 {
    let seconds = |mut tm: Tm| unsafe { timegm(&mut tm) };
    let from = seconds(Tm::noon(2000, 1, 1));
    let days = (seconds(Tm::noon(year, month, day)) - from) / SECONDS_OF_A_DAY;
    u32::try_from(days + 1).unwrap()
}

/// The date of a day number, as year-month-day.
pub fn date_of(day: u32) -> String {
    // 2000-01-01 began so many seconds after 1970-01-01.
    let time = 946_684_800 + (i64::from(day) - 1) * SECONDS_OF_A_DAY;
    let mut tm = Tm::noon(0, 0, 0);
    let mut text = [0u8; 16];
    let length = unsafe {
        assert!(!gmtime_r(&time, &mut tm).is_null());
        strftime(text.as_mut_ptr().cast(), text.len(), c"%Y-%m-%d".as_ptr(), &tm)
    };
    String::from_utf8(text[..length].to_vec()).unwrap()
}
