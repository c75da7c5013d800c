//! The engine against the plain version: lists of calls, sound and damaged, on sound tables and
//! on columns that aren't tables. After every call answers are compared, and all columns and
//! buffers whole, guard words included.

mod common;

use std::collections::BTreeSet;

use common::both::{Answer, Both};
use common::bytes::{damaged, encode};
use common::guarded::Lent;
use common::rng::{one_seed, seeds, Rng, Seed};
use common::{reflected, requests, tables, windows};
use zintukor::Pass;

/// One list of calls on one table.
struct List<'a> {
    rng: Rng,
    both: &'a mut Both,
    lent: Lent,
    count: usize,
    /// How many decisions followed on past the windows of the day asked about.
    followed_on: u64,
}

impl List<'_> {
    /// Half of the lists start from fresh, the others from a sound table of any making.
    fn new(seed: u64, both: &mut Both) -> List<'_> {
        let mut rng = Rng::new(seed);
        let (mut lent, mut count) = tables::sound(&mut rng);
        if rng.once_in(2) {
            let group = rng.number().max(1);
            let quota = rng.pick(&[1, 2, 17, 300, 5_000, u32::MAX - 1, u32::MAX]);
            assert_eq!(both.fresh(&mut lent, group, quota), Answer::Count(1));
            count = 1;
        }
        List { rng, both, lent, count, followed_on: 0 }
    }

    fn step(&mut self) {
        match self.rng.below(16) {
            0..=2 => self.refine_sound(),
            3 | 4 => self.refine_damaged(),
            5 => self.refine_too_big(),
            6 => self.broken_table(),
            7 | 8 => self.order(),
            9 => self.store(),
            10 => self.read(),
            11 => self.fresh(),
            12 => self.decide(),
            13 => self.page(),
            14 => self.small_requests(),
            _ => self.reflected(),
        }
    }

    fn entries(&mut self) -> usize {
        match self.rng.below(12) {
            0 => 1,
            1 => 256,
            2 => 1 + self.rng.below(256),
            3 => self.lent.id.len() - self.count + 1 + self.rng.below(2),
            _ => 1 + self.rng.below(8),
        }
    }

    fn sound_request(&mut self) -> Vec<u32> {
        let entries = self.entries();
        requests::sound(&mut self.rng, &self.lent, self.count, entries)
    }

    /// A request on the list's own table.
    fn carry_out(&mut self, request: &[u8]) {
        if let Answer::Count(count) = self.both.refine(&mut self.lent, self.count, request) {
            self.count = count;
        }
    }

    fn refine_sound(&mut self) {
        let request = encode(&self.sound_request());
        self.carry_out(&request);
    }

    fn refine_damaged(&mut self) {
        let mut numbers = self.sound_request();
        for _ in 0..self.rng.below(3) {
            requests::break_rule(&mut self.rng, &mut numbers, &self.lent, self.count);
        }
        let rng = &mut self.rng;
        let request = if rng.once_in(3) { damaged(rng, &numbers) } else { encode(&numbers) };
        self.carry_out(&request);
        // Bytes that lie after the request's end are not read.
        if self.rng.once_in(3) && !request.is_empty() {
            self.carry_out(&request[..request.len() - 1]);
        }
    }

    fn refine_too_big(&mut self) {
        let numbers = requests::too_big(&mut self.rng, &self.lent, self.count);
        let rng = &mut self.rng;
        let request = if rng.once_in(6) { damaged(rng, &numbers) } else { encode(&numbers) };
        self.carry_out(&request);
    }

    /// Every call with columns, on columns that are broken.
    fn broken_table(&mut self) {
        let mut numbers = self.sound_request();
        if self.rng.once_in(3) {
            requests::break_rule(&mut self.rng, &mut numbers, &self.lent, self.count);
        }
        let ids = self.ids();
        let (mut lent, mut count) = (self.lent.clone(), self.count);
        tables::break_table(&mut self.rng, &mut lent, &mut count);
        let rng = &mut self.rng;
        let request = if rng.once_in(4) { damaged(rng, &numbers) } else { encode(&numbers) };
        let size = rng.pick(&[0, 1, 6_000]);
        let mut buffer = tables::buffer(rng, size);
        self.both.refine(&mut lent.clone(), count, &request);
        self.both.order(&lent, count, ids.0, ids.1);
        self.both.store(&lent, count, &mut buffer);
        self.both.fresh(&mut lent.clone(), self.rng.number(), self.rng.number());
        self.both.read(&mut lent, &encode(&tables::stored(&self.lent, self.count)));
    }

    /// Two ids, mostly of the table.
    fn ids(&mut self) -> (u32, u32) {
        let mut id = || {
            if self.rng.once_in(10) {
                return self.rng.number();
            }
            self.lent.id.part()[self.rng.below(self.count)]
        };
        (id(), id())
    }

    fn order(&mut self) {
        for _ in 0..3 {
            let (first, second) = self.ids();
            self.both.order(&self.lent, self.count, first, second);
        }
    }

    /// A buffer of just the size, too short, or longer; what is stored reads back.
    fn store(&mut self) {
        let bytes = encode(&tables::stored(&self.lent, self.count));
        let rng = &mut self.rng;
        let needed = bytes.len();
        let any = rng.below(needed);
        let size = rng.pick(&[needed, needed - 1, needed + 1, needed + 40, 0, any]);
        let mut buffer = tables::buffer(rng, size);
        match self.both.store(&self.lent, self.count, &mut buffer) {
            Answer::Count(length) => assert_eq!(buffer.part()[..length], bytes),
            answer => assert!(answer == Answer::Refused(30) && size < needed),
        }
        let length = (self.count + rng.below(3)).min(256);
        let mut back = tables::anything(rng, length);
        assert_eq!(self.both.read(&mut back, &bytes), Answer::Count(self.count));
        for (column, read) in self.lent.parts().into_iter().zip(back.parts()) {
            assert_eq!(column[..self.count], read[..self.count]);
        }
    }

    /// A stored table, perhaps with broken rows, perhaps damaged, read into other columns.
    fn read(&mut self) {
        let rng = &mut self.rng;
        let (mut lent, count) = (self.lent.clone(), self.count);
        if rng.once_in(2) {
            (0..1 + rng.below(2)).for_each(|_| tables::break_row(rng, &mut lent, count));
        }
        let mut numbers = tables::stored(&lent, count);
        match rng.below(8) {
            0 => numbers[0] = rng.pick(&[0, numbers[0] + 1, numbers[0] - 1, 257, u32::MAX]),
            1 => numbers.push(rng.number()),
            _ => {}
        }
        let length = match rng.below(4) {
            0 => self.count,
            1 => (self.count + rng.below(4)).min(256),
            2 => self.count.saturating_sub(1),
            _ => tables::length(rng),
        };
        let mut back = tables::anything(rng, length);
        if rng.once_in(8) {
            tables::break_lengths(rng, &mut back);
        }
        let bytes = if rng.once_in(2) { damaged(rng, &numbers) } else { encode(&numbers) };
        let again = bytes.len().saturating_sub(1);
        self.both.read(&mut back.clone(), &bytes[..again]);
        let answer = self.both.read(&mut back, &bytes);
        // Now and then the list goes on with the table that was read.
        if let (Answer::Count(count), true) = (answer, self.rng.once_in(4)) {
            (self.lent, self.count) = (back, count);
        }
    }

    fn fresh(&mut self) {
        let rng = &mut self.rng;
        let length = rng.pick(&[0, 1, 2, 255, 256, 257]);
        let mut lent = tables::anything(rng, length);
        if rng.once_in(4) {
            tables::break_lengths(rng, &mut lent);
        }
        let (group, quota) = (rng.number(), rng.number());
        self.both.fresh(&mut lent, group, quota);
        self.both.fresh(&mut lent, 0, quota);
        self.both.fresh(&mut lent, group, 0);
    }

    /// A grant list around the pass of a group, its numbers and days near the ones asked about, or
    /// windows that follow on. Of some lists nearly every grant applies.
    fn decide(&mut self) {
        let rng = &mut self.rng;
        let row = rng.below(self.count);
        let [_, l, r, _] = self.lent.parts();
        let (l, r) = (l[row], r[row]);
        let feature = rng.pick(&[1, 2, 200, u32::MAX]);
        let how_many = if rng.once_in(30) { 500 } else { rng.below(9) };
        let (day, windows) = if rng.once_in(2) {
            let windows = windows::windows(rng, how_many);
            (windows::day(rng, &windows), windows)
        } else {
            let day = if rng.once_in(2) { rng.between(1, 40) } else { rng.number() };
            let window = |_| {
                let first = near(rng, day).max(1);
                let last = match rng.below(5) {
                    0 => 0,
                    1 => first,
                    _ => near(rng, day).max(first),
                };
                (first, last)
            };
            (day, (0..how_many).map(window).collect())
        };
        let aside = rng.pick(&[2, 20, 1_000]);
        let mut numbers = Vec::new();
        for &(first, last) in &windows {
            let mut place = [feature, l, r];
            if rng.once_in(aside) {
                place = [rng.pick(&[feature, 1, 2, 200, u32::MAX]), near(rng, l), near(rng, r)];
            }
            numbers.extend(place);
            numbers.extend([first, last]);
        }
        let (mut question, list) = ([feature, l, r, day], encode(&numbers));
        let answer = self.both.decide(question[0], Pass { l, r }, question[3], &list);
        self.followed_on += u64::from(windows::followed_on(answer, &windows, day));
        // The same with a broken grant or question.
        if !numbers.is_empty() {
            let at = rng.below(numbers.len());
            numbers[at] = if rng.once_in(2) { 0 } else { rng.number() };
        }
        if rng.once_in(4) {
            question[rng.below(4)] = rng.pick(&[0, 1, u32::MAX]);
        }
        let list = if rng.once_in(2) { damaged(rng, &numbers) } else { encode(&numbers) };
        let [feature, l, r, day] = question;
        self.both.decide(feature, Pass { l, r }, day, &list);
        let cut = list.len().saturating_sub(1);
        self.both.decide(feature, Pass { l, r }, day, &list[..cut]);
    }

    /// A page over grants of any feature, of which about half apply to the pass of a group, into a
    /// buffer of just the size, too short, or longer.
    fn page(&mut self) {
        let rng = &mut self.rng;
        let row = rng.below(self.count);
        let [_, l, r, _] = self.lent.parts();
        let (l, r) = (l[row], r[row]);
        let how_many = if rng.once_in(30) { 500 } else { rng.below(9) };
        let day = if rng.once_in(4) { rng.number().max(1) } else { rng.between(1, LAST_DATED + 2) };
        let mut numbers = Vec::new();
        let mut lines = 0;
        for _ in 0..how_many {
            let place = [near(rng, l), near(rng, r)];
            lines += usize::from(l <= place[0] && r <= place[1]);
            let first = dated(rng, day);
            let last = match rng.below(5) {
                0 => 0,
                1 => first,
                _ => dated(rng, day).max(first),
            };
            numbers.extend([rng.number().max(1), place[0], place[1], first, last]);
        }
        let needed = zintukor::PAGE_LINE * lines;
        let room = |rng: &mut Rng| {
            let any = rng.below(needed + 1);
            let sizes = [needed, needed, needed.saturating_sub(1), needed + 1, needed + 40, 0, any];
            let size = rng.pick(&sizes);
            tables::buffer(rng, size)
        };
        let mut buffer = room(rng);
        let fits = buffer.len() >= needed;
        let answer = self.both.page(Pass { l, r }, day, &encode(&numbers), &mut buffer);
        assert_eq!(answer, if fits { Answer::Count(needed) } else { Answer::Refused(30) });
        // The same with a broken grant or question.
        let mut question = [l, r, day];
        if !numbers.is_empty() {
            let at = rng.below(numbers.len());
            numbers[at] = rng.pick(&[0, LAST_DATED + 1, LAST_DATED, u32::MAX]);
        }
        if rng.once_in(4) {
            question[rng.below(3)] = rng.pick(&[0, 1, u32::MAX]);
        }
        let list = if rng.once_in(2) { damaged(rng, &numbers) } else { encode(&numbers) };
        let [l, r, day] = question;
        let cut = list.len().saturating_sub(1);
        for list in [&list, &list[..cut]] {
            self.both.page(Pass { l, r }, day, list, &mut room(rng));
        }
    }

    /// The small requests of a size, mostly of one that has some, into a buffer of just the size, too
    /// short, or longer.
    fn small_requests(&mut self) {
        let rng = &mut self.rng;
        let size = if rng.once_in(4) { rng.number() } else { rng.between(1, 6) };
        let needed = SMALL.get(size as usize).copied().unwrap_or(0);
        let any = rng.below(needed + 1);
        let length = rng.pick(&[needed, needed.saturating_sub(1), needed + 1, needed + 40, 0, any]);
        let answer = self.both.small_requests(size, &mut tables::buffer(rng, length));
        assert_eq!(answer, if length >= needed { Answer::Count(needed) } else { Answer::Refused(30) });
    }

    /// A reflected tree, into a buffer of just its list, too short, or longer; and the same broken,
    /// damaged or cut.
    fn reflected(&mut self) {
        let rng = &mut self.rng;
        let nodes = reflected::nodes(rng);
        let mut numbers = reflected::sound(rng, nodes);
        let bytes = encode(&numbers);
        let needed = zintukor::reflected(&bytes).unwrap().len();
        let any = rng.below(needed + 1);
        let length = rng.pick(&[needed, needed, needed - 1, needed + 1, needed + 40, 0, any]);
        let answer = self.both.reflected(&bytes, &mut tables::buffer(rng, length));
        assert_eq!(answer, if length >= needed { Answer::Count(needed) } else { Answer::Refused(30) });
        if rng.once_in(5) {
            numbers = reflected::too_big(rng);
        }
        if rng.once_in(2) {
            reflected::break_rule(rng, &mut numbers);
        }
        let bytes = if rng.once_in(3) { damaged(rng, &numbers) } else { encode(&numbers) };
        let cut = bytes.len().saturating_sub(1);
        for bytes in [&bytes, &bytes[..cut]] {
            self.both.reflected(bytes, &mut tables::buffer(rng, length));
        }
    }
}

/// A number near another, not 0.
fn near(rng: &mut Rng, x: u32) -> u32 {
    match rng.below(6) {
        0 => x.saturating_sub(1).max(1),
        1 => x.saturating_add(1),
        2 => rng.number().max(1),
        _ => x,
    }
}

/// A day with a date, not 0: often one at an end of the range or of a year, or the day given.
fn dated(rng: &mut Rng, day: u32) -> u32 {
    match rng.below(6) {
        0 => rng.pick(&[1, 59, 60, 61, 366, 367, LAST_DATED - 1, LAST_DATED]),
        1 | 2 => near(rng, day).clamp(1, LAST_DATED),
        _ => rng.between(1, LAST_DATED),
    }
}

/// The last day with a date.
const LAST_DATED: u32 = 36_525;

/// The bytes of the small requests of each size; greater sizes have none.
const SMALL: [usize; 7] = [0, 14, 40, 130, 448, 1_596, 5_808];

/// The refusals that each call can give, and its other answers.
const CALLS: [(&str, &[u32], &[&str]); 9] = [
    ("fresh", &[10, 11], &["count"]),
    ("refine", &[1, 2, 3, 4, 5, 6, 7, 10, 11, 12, 13, 20, 21, 22, 23, 24, 26], &["count"]),
    ("order", &[10, 11, 12, 13, 20], &["same", "first", "second", "incomparable"]),
    ("decide", &[1, 2, 14, 15], &["open", "until", "ended", "ahead", "never"]),
    ("page", &[1, 2, 14, 15, 30, 31], &["count"]),
    ("store", &[10, 11, 12, 13, 30], &["count"]),
    ("read", &[1, 2, 6, 10, 11, 12, 13], &["count"]),
    ("small_requests", &[30], &["count"]),
    ("reflected", &[1, 2, 4, 5, 6, 30, 32, 33], &["count"]),
];

#[test]
fn every_call_is_the_plain_one() {
    let mut both = Both::default();
    let mut followed_on = 0;
    for seed in seeds(1, 6_000) {
        let _named = Seed(seed);
        let mut list = List::new(seed, &mut both);
        let steps = list.rng.pick(&[2, 6, 15, 40]);
        for _ in 0..steps {
            list.step();
        }
        followed_on += list.followed_on;
    }
    println!("{} calls, {followed_on} decisions that followed on", both.calls);
    for (call, ..) in CALLS {
        println!("{call}: {:?}, refused {:?}", both.kinds.get(call), both.refused.get(call));
    }
    if one_seed() {
        return;
    }
    for (call, refusals, kinds) in CALLS {
        let seen: BTreeSet<u32> = both.refused[call].keys().copied().collect();
        assert_eq!(seen, refusals.iter().copied().collect(), "{call}: refusals");
        let seen: BTreeSet<&str> = both.kinds[call].keys().copied().collect();
        assert_eq!(seen, kinds.iter().copied().collect(), "{call}: answers");
        let times = both.refused[call].values().chain(both.kinds[call].values());
        assert!(times.min() > Some(&50), "{call}: an answer came too seldom");
    }
    assert!(followed_on > 500);
    let all: BTreeSet<u32> = both.refused.values().flat_map(|seen| seen.keys().copied()).collect();
    let numbers: BTreeSet<u32> = zintukor::Refusal::ALL.iter().map(|refusal| refusal.number()).collect();
    assert_eq!(all, numbers);
}
