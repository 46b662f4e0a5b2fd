//! Asks the proved library and the second implementation the same questions after seeded
//! journals, each under several age limits, about factors and sums of both curves, which are
//! named by numbers of every sort, and about values of lists of cash flows, good and bad ones;
//! and, of sheets, lists and targets that are good and bad, for the shift that meets the
//! target. It compares answers and buffers. It prints how often each kind of question met each
//! ground, what became of posts with dropped quotes or adjustments, how many accepted ones
//! slack at known values would change and what the journals' withdrawals, the valuations and
//! the shifts met, and fails where one of a curve never met 16, where one for rates never met
//! 17, where no adjusted curve was shown or missing, where no sum was shown or refused with 14,
//! where no value was shown or one of its grounds or some sort of list was not met, where no
//! shift was found in some way or one of its grounds was not met, where no sheet was accepted
//! with some gap that runs on over a dropped maturity, or with some tail, where slack would
//! change none in some way, where some profile was not accepted, not shown in some way or did
//! not meet one of its grounds, or where some sort of withdrawal was not met.
//!
//!     differential [SEED [POSTS]]

use std::collections::BTreeSet;
use std::process::ExitCode;

use interface::compare::{Case, Kind, Met, Question};
use reference::blocks::{block, numbers};
use reference::counts::PostCounts;
use reference::curve::Which;
use reference::journal::calls;
use reference::questions::{age_limits, call, journal, kind, limits_around, page_kind};
use reference::shifts::{narrow, refused_at_once, wide};
use reference::streams::Random;
use reference::sums::Wanted;
use reference::valuation::numbers_of;
use reference::withdrawn::Withdrawals;

/// Buffers for look-ups, whose reply has 28 bytes.
const LOOK_UP_BUFFERS: [usize; 6] = [0, 12, 27, 28, 29, 60];

/// Buffers for pages, which have 1,505 bytes; in those from 1,515 on one more record would fit,
/// in the last two another page.
const PAGE_BUFFERS: [usize; 12] = [
    0, 1_504, 1_505, 1_506, 1_507, 1_510, 1_514, 1_515, 1_600, 2_000, 3_010, 4_096,
];

/// Buffers for valuations, whose reply has 20 bytes; a look-up's would fit in the last two.
const VALUE_BUFFERS: [usize; 9] = [0, 1, 16, 19, 20, 20, 21, 28, 64];

/// Buffers for shifts, whose reply has 2 bytes.
const SHIFT_BUFFERS: [usize; 6] = [0, 1, 2, 2, 3, 20];

/// A shift may take as long as 1,001 posts, so that one of few shifted sheets is asked for after
/// one in so many journals, and one of all of them after one in more.
const NARROW_EVERY: u64 = 5;
const WIDE_EVERY: u64 = 24;

/// Posts between two lines that tell how far the run is.
const PROGRESS: u64 = 20_000;

fn main() -> ExitCode {
    let Some((seed, posts)) = arguments() else {
        eprintln!("usage: differential [SEED [POSTS]]");
        return ExitCode::from(2);
    };
    let mut seen = Seen::default();
    let compared = compare(seed, posts, &mut seen);
    println!("{}\n{}\n{}", seen.met, seen.met.valuations, seen.met.shifts);
    println!("{}\n{}", seen.counts, seen.withdrawals);
    let checked = seen.check();
    match compared.and_then(|done| checked.map(|()| done)) {
        Ok((journals, posts)) => {
            println!("libraries agree after {journals} journals with {posts} posts");
            ExitCode::SUCCESS
        }
        Err(text) => {
            println!("{text}");
            ExitCode::FAILURE
        }
    }
}

/// What the questions and the journals met.
#[derive(Default)]
struct Seen {
    met: Met,
    counts: PostCounts,
    withdrawals: Withdrawals,
}

impl Seen {
    fn count_journal(&mut self, journal: &[u8]) {
        self.counts.count_journal(journal);
        self.withdrawals.count_journal(journal);
    }

    /// Says what was not met even once.
    fn check(&self) -> Result<(), String> {
        self.met.check(&Kind::ALL)?;
        self.met.check_markets()?;
        self.met.valuations.check()?;
        self.met.shifts.check()?;
        self.counts.check()?;
        self.withdrawals.check()
    }
}

/// Seed and posts; none where a word is no number or one too many.
fn arguments() -> Option<(u64, u64)> {
    let words: Option<Vec<u64>> = std::env::args_os()
        .skip(1)
        .map(|word| word.to_str()?.parse().ok())
        .collect();
    match words?[..] {
        [] => Some((1, 100_000)),
        [seed] => Some((seed, 100_000)),
        [seed, posts] => Some((seed, posts)),
        _ => None,
    }
}

/// The journals that it took to bring at least `posts` posts, and how many they brought.
fn compare(seed: u64, posts: u64, seen: &mut Seen) -> Result<(u64, u64), String> {
    let (mut done, mut number) = (0, 0);
    while done < posts {
        // A seed of its own makes each journal repeatable without those before it.
        let mut random = Random::new(seed.wrapping_mul(1_000_003).wrapping_add(number));
        let journal = journal(&mut random);
        let asked = ask(&mut random, &journal, number, &mut seen.met);
        asked.map_err(|text| format!("journal {number}: {text}"))?;
        seen.count_journal(&journal);
        let before = done;
        done += posts_in(&journal);
        number += 1;
        if before / PROGRESS < done / PROGRESS {
            eprintln!("{done} posts");
        }
    }
    Ok((number, done))
}

fn posts_in(journal: &[u8]) -> u64 {
    let posts = calls(journal).filter(|call| call.posted().is_some());
    posts.count() as u64
}

/// The library replays the journal for each question, so that a few under each limit must do.
fn ask(random: &mut Random, journal: &[u8], number: u64, met: &mut Met) -> Result<(), String> {
    let limits = age_limits(random);
    let any_limit = limits[random.below(limits.len() as u64) as usize];
    let replayed = Case::replayed(any_limit, journal);
    let around = replayed.age().into_iter().flat_map(limits_around);
    for limit in BTreeSet::from_iter([0, any_limit].into_iter().chain(around)) {
        let case = replayed.under(limit);
        for question in questions(random) {
            met.ask(&case, &question)?;
        }
    }
    for question in shifts(random, number) {
        met.ask(&replayed, &question)?;
    }
    Ok(())
}

/// The shifts that are asked for after the journal of this number.
fn shifts(random: &mut Random, number: u64) -> Vec<Question> {
    let mut asked = vec![refused_at_once(random)];
    if number.is_multiple_of(NARROW_EVERY) {
        asked.push(narrow(random));
    }
    if number.is_multiple_of(WIDE_EVERY) {
        asked.push(wide(random));
    }
    let question = |asked| Question::shift(asked, random.one_of(&SHIFT_BUFFERS));
    asked.into_iter().map(question).collect()
}

/// The same of each curve, the answers to two records, and values of a list that no ground is
/// against and of two of every sort.
fn questions(random: &mut Random) -> Vec<Question> {
    let mut questions = Vec::new();
    for which in Which::ALL {
        questions.extend(questions_about(random, which));
    }
    for _ in 0..2 {
        let call = call(random);
        questions.push(Question::Answer { call });
    }
    let lists = [numbers_of(&block(random)), numbers(random), numbers(random)];
    questions.extend(lists.map(|numbers| Question::Value {
        numbers,
        length: random.one_of(&VALUE_BUFFERS),
    }));
    questions
}

/// A look-up of a year that often is outside the curve, for either amount; for each amount one of any
/// year and one of an early year, where steep curves have no high rate; and two pages.
fn questions_about(random: &mut Random, which: Which) -> Vec<Question> {
    // 2^32 + 20 is outside as well, whatever its low bits are.
    let first = random.one_of(&[0, 151, 255, 256, (1 << 32) + 20, u64::MAX, 1, 20, 150]);
    let either = random.one_of(&Wanted::ALL);
    let mut questions = vec![
        look_up(random, which, either, first),
        page(random, which),
        page(random, which),
    ];
    for wanted in Wanted::ALL {
        questions.push(look_up_of(random, which, wanted, 1, 150));
        questions.push(look_up_of(random, which, wanted, 9, 16));
    }
    questions
}

/// A look-up of a year from `first` to `last`.
fn look_up_of(
    random: &mut Random,
    which: Which,
    wanted: Wanted,
    first: i64,
    last: i64,
) -> Question {
    let year = random.between(first, last) as u64;
    look_up(random, which, wanted, year)
}

fn look_up(random: &mut Random, which: Which, wanted: Wanted, year: u64) -> Question {
    Question::LookUp {
        named: kind(random, which, wanted),
        year,
        length: random.one_of(&LOOK_UP_BUFFERS),
    }
}

fn page(random: &mut Random, which: Which) -> Question {
    Question::Page {
        named: page_kind(random, which),
        length: random.one_of(&PAGE_BUFFERS),
    }
}
