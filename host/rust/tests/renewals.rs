//! Document 02's note 1, day by day: both versions are held to its sentence over many small lists.

mod common;

use common::both::{of_engine, of_plain, Answer};
use common::bytes::encode;
use common::rng::{one_seed, seeds, Rng, Seed};
use common::windows::{day, followed_on, windows, Window};
use zintukor::Pass;

/// A question over a list of grants: feature, l, r, first day, last day (0: open).
struct Asked {
    feature: u32,
    pass: Pass,
    day: u32,
    grants: Vec<[u32; 5]>,
}

/// Few features and few groups; in half of the lists every grant applies.
fn asked(seed: u64) -> Asked {
    let mut rng = Rng::new(seed);
    let how_many = rng.below(10);
    let windows = windows(&mut rng, how_many);
    let day = day(&mut rng, &windows);
    let mixed = rng.once_in(2);
    let grant = |(first, last): Window| {
        let [feature, l, r] = if mixed { [0; 3].map(|_| rng.pick(&[1, 2, 2, 2, 3])) } else { [2; 3] };
        [feature, l, r, first, last]
    };
    Asked { feature: 2, pass: Pass { l: 2, r: 2 }, day, grants: windows.into_iter().map(grant).collect() }
}

impl Asked {
    fn applying(&self) -> Vec<Window> {
        let Pass { l, r } = self.pass;
        let applies = |grant: &&[u32; 5]| grant[0] == self.feature && l <= grant[1] && r <= grant[2];
        self.grants.iter().filter(applies).map(|grant| (grant[3], grant[4])).collect()
    }

    /// The sentence: days are gone through one by one. The day after the greatest one is a day too.
    fn answer(&self) -> Answer {
        let windows = self.applying();
        let today = u64::from(self.day);
        let open_runs = |day: u64| windows.iter().any(|&(first, last)| last == 0 && u64::from(first) <= day);
        let runs = |day: u64| {
            open_runs(day)
                || windows.iter().any(|&(first, last)| u64::from(first) <= day && day <= u64::from(last))
        };
        let mut day = today;
        while runs(day) {
            if open_runs(day) {
                return Answer::Open;
            }
            day += 1;
        }
        if day > today {
            return Answer::Until((day - 1) as u32);
        }
        // Nothing runs today: each has ended, or begins later.
        let ended = windows.iter().filter(|window| window.0 < self.day).map(|window| window.1).max();
        let ahead = windows.iter().map(|window| window.0).min();
        ended.map(Answer::Ended).or(ahead.map(Answer::Ahead)).unwrap_or(Answer::Never)
    }
}

/// Compares a version with the sentence, list by list, and asks that each answer was met often.
fn held_to_the_sentence(decide: impl Fn(u32, Pass, u32, &[u8]) -> Answer) {
    let [mut open, mut until, mut ended, mut ahead, mut never] = [0; 5];
    let (mut followed, mut to_the_greatest) = ([0; 2], 0);
    for seed in seeds(1, 40_000) {
        let _named = Seed(seed);
        let asked = asked(seed);
        let list = encode(&asked.grants.concat());
        let answer = decide(asked.feature, asked.pass, asked.day, &list);
        assert_eq!(answer, asked.answer(), "on day {} with {:?}", asked.day, asked.applying());
        *match answer {
            Answer::Open => &mut open,
            Answer::Until(_) => &mut until,
            Answer::Ended(_) => &mut ended,
            Answer::Ahead(_) => &mut ahead,
            _ => &mut never,
        } += 1;
        if followed_on(answer, &asked.applying(), asked.day) {
            followed[usize::from(answer == Answer::Open)] += 1;
            to_the_greatest += usize::from(answer == Answer::Until(u32::MAX));
        }
    }
    println!("open {open}, until {until}, ended {ended}, ahead {ahead}, never {never}");
    println!(
        "followed on to a day {}, to an open one {}; to day {} {to_the_greatest}",
        followed[0],
        followed[1],
        u32::MAX
    );
    if !one_seed() {
        assert!([open, until, ended, ahead, never].iter().all(|&times| times > 1_000));
        assert!(followed[0] > 5_000 && followed[1] > 1_000 && to_the_greatest > 500);
    }
}

#[test]
fn the_plain_version() {
    held_to_the_sentence(|feature, Pass { l, r }, day, list| {
        of_plain(zintukor_plain::decide(feature, l, r, day, list))
    });
}

#[test]
fn the_engine() {
    held_to_the_sentence(|feature, pass, day, list| of_engine(zintukor::decide(feature, pass, day, list)));
}
