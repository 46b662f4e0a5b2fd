//! Times posts and a page through the C interface against the second implementation, on the same
//! journal, in turn, in one run on one machine: bench [POSTS]. Then the same posts with an X,
//! whose weights are worked anew in each, with two dropped quotes, with an adjustment, whose
//! second curve is paged, and of the smaller markets. Then short journals of posts, and the same
//! with a withdrawal in place of every third, which tells what a withdrawal costs beside a post.
//! Then pages of one post's curve, look-ups of its factors and of its sums, and valuations of
//! 1,000 cash flows beside look-ups of all its factors. Then shifts that meet their target
//! nowhere beside posts of all 1,001 shifted sheets.

use std::time::{Duration, Instant};

use interface::compare::{LOOK_UP_LENGTH, SHIFT_LENGTH, VALUE_LENGTH};
use interface::{look_after, page_after, shift, value_after, ADJUSTED, PLAIN, SUM};
use reference::book::{LARGEST_AGE_LIMIT, PAGE_LENGTH};
use reference::curve::{Which, YEARS};
use reference::journal::{book_after, look_up_by, post, value_by};
use reference::market::Market;
use reference::profiled::in_market;
use reference::refusal::Refusal;
use reference::sheet::Sheet;
use reference::shift::{shift_by, SHIFTS};
use reference::streams::{
    accepted_posts, low_rates, posts_and_withdrawals, sheet_bytes, Measured, Random,
};
use reference::valuation::{MOST_CENTS, MOST_FLOWS};

/// The fastest of these runs counts, as the least disturbed one.
const RUNS: usize = 7;
const SEED: u64 = 7;

/// Calls in a journal with withdrawals, and how often it is run.
const CALLS: usize = 300;
const TURNS: usize = 400;

/// Pages timed, each by itself.
const PAGES: usize = 50_000;

/// Look-ups timed, each by itself, and their years: the rates of a late year take more steps.
const LOOK_UPS: usize = 20_000;
const LOOK_UP_YEARS: [u64; 3] = [1, 20, 150];

/// Valuations timed, each by itself, as often as look-ups of every year together. A valuation of
/// the longest list may take so many times as long as these.
const VALUATIONS: usize = 300;
const MOST_TIMES: f64 = 5.0;

/// Shifts timed, each by itself, as often as the posts of all shifted sheets together.
const SHIFTED: usize = 15;

fn main() {
    let posts = std::env::args()
        .nth(1)
        .and_then(|word| word.parse().ok())
        .unwrap_or(20_000);
    for (sheets, measured, named) in [
        ("without X", Measured::Plain, PLAIN),
        ("with X", Measured::PhaseIn, PLAIN),
        ("with two dropped quotes", Measured::TwoDropped, PLAIN),
        ("with an adjustment", Measured::Adjusted, ADJUSTED),
        ("of profile 2", Measured::Smaller(Market::TO_10), PLAIN),
        ("of profile 3", Measured::Smaller(Market::TO_15), PLAIN),
    ] {
        time_posts(sheets, posts, named, &accepted_posts(SEED, posts, measured));
    }
    for (sheets, measured, named) in [
        ("without X", Measured::Plain, PLAIN),
        ("with an adjustment", Measured::Adjusted, ADJUSTED),
    ] {
        time_withdrawals(sheets, measured, named);
    }
    let one_post = accepted_posts(SEED, 1, Measured::Plain);
    time_pages(&one_post);
    for year in LOOK_UP_YEARS {
        time_look_ups(&one_post, year);
    }
    time_values(&one_post);
    let low = low_rates(0, None);
    for (sheets, sheet) in [
        ("without X", low.clone()),
        ("with X", low_rates(0, Some(20_000))),
        ("of profile 2", in_market(&low, Market::TO_10)),
    ] {
        time_shifts(sheets, &sheet);
    }
}

/// What a journal and a page took: in the proved library, and in the second implementation.
#[derive(Clone, Copy)]
struct Times {
    proved: Duration,
    plain: Duration,
}

impl Times {
    const LONGEST: Times = Times {
        proved: Duration::MAX,
        plain: Duration::MAX,
    };

    /// The shorter times of two runs.
    fn min(self, other: Times) -> Times {
        Times {
            proved: self.proved.min(other.proved),
            plain: self.plain.min(other.plain),
        }
    }
}

/// Times one run, and asserts that both page the same.
fn run(named: u64, journal: &[u8]) -> Times {
    let (mut page, mut expected) = (vec![0; PAGE_LENGTH], vec![0; PAGE_LENGTH]);
    let start = Instant::now();
    assert_eq!(page_after(LARGEST_AGE_LIMIT, journal, named, &mut page), 0);
    let proved = start.elapsed();
    let start = Instant::now();
    let book = book_after(LARGEST_AGE_LIMIT, journal);
    assert!(book.page(Which::named_by(named), &mut expected).is_ok());
    let plain = start.elapsed();
    assert_eq!(page, expected);
    Times { proved, plain }
}

fn time_posts(sheets: &str, posts: usize, named: u64, journal: &[u8]) {
    let runs = (0..RUNS).map(|_| run(named, journal));
    let Times { proved, plain } = runs.fold(Times::LONGEST, Times::min);
    let rate = |time: Duration| posts as f64 / time.as_secs_f64();
    println!(
        "{posts} posts {sheets} and a page: proved {:.3} s ({:.0} posts a second), \
         plain Rust {:.3} s ({:.0} posts a second), ratio {:.2}",
        proved.as_secs_f64(),
        rate(proved),
        plain.as_secs_f64(),
        rate(plain),
        proved.as_secs_f64() / plain.as_secs_f64()
    );
}

/// Three posts take 3 p; two and a withdrawal take 2 p + w. The journals are short and run by turns,
/// so that a slow while is shared: w is a small difference of large times.
fn time_withdrawals(sheets: &str, measured: Measured, named: u64) {
    let three = accepted_posts(SEED, CALLS, measured);
    let two = posts_and_withdrawals(SEED, CALLS, measured);
    let (mut posts, mut both) = (Vec::new(), Vec::new());
    for _ in 0..TURNS {
        posts.push(run(named, &three));
        both.push(run(named, &two));
    }
    let each: [(&str, fn(&Times) -> Duration); 2] = [
        ("proved", |run| run.proved),
        ("plain Rust", |run| run.plain),
    ];
    for (name, time) in each {
        let micros = |runs: &[Times]| usual(runs.iter().map(time).collect()) / (CALLS / 3) as f64;
        let (posts, both) = (micros(&posts), micros(&both));
        let post = posts / 3.0;
        let withdrawal = both - 2.0 * post;
        println!(
            "{name}, {sheets}: three posts {posts:.1} µs, two and a withdrawal {both:.1} µs; so a post \
             takes {post:.1} µs and a withdrawal {withdrawal:.1} µs, {:.2} of a post",
            withdrawal / post
        );
    }
}

/// A call replays its journal before it pages, so the journal's time is taken off: that of the
/// same call with one byte too few, which is refused when the page is about to be written. The
/// second implementation's book is there already.
fn time_pages(journal: &[u8]) {
    let book = book_after(LARGEST_AGE_LIMIT, journal);
    let (mut whole, mut refused, mut plain) = (Vec::new(), Vec::new(), Vec::new());
    let mut page = vec![0; PAGE_LENGTH];
    for _ in 0..PAGES {
        whole.push(time(|| {
            page_after(LARGEST_AGE_LIMIT, journal, PLAIN, &mut page)
        }));
        let short = &mut page[1..];
        refused.push(time(|| {
            page_after(LARGEST_AGE_LIMIT, journal, PLAIN, short)
        }));
        plain.push(time(|| book.page(Which::Plain, &mut page)));
    }
    let (whole, refused, plain) = (usual(whole), usual(refused), usual(plain));
    println!(
        "a page after one post: proved {whole:.2} µs with the post, {refused:.2} µs refused for its \
         buffer, so {:.2} µs ({:.0} pages a second); plain Rust {plain:.2} µs ({:.0} pages a second)",
        whole - refused,
        1e6 / (whole - refused),
        1e6 / plain
    );
}

/// Factor and sum are looked up by turns. The journal's time is taken off here too: that of the same
/// call for the adjusted curve, which the sheet has not, so that it is refused as soon as the journal
/// is replayed.
fn time_look_ups(journal: &[u8], year: u64) {
    let book = book_after(LARGEST_AGE_LIMIT, journal);
    let mut out = [0; LOOK_UP_LENGTH];
    let mut look = |kind| time(|| look_after(LARGEST_AGE_LIMIT, journal, kind, year, &mut out));
    let mut refused = Vec::new();
    let (mut proved, mut plain) = ([vec![], vec![]], [vec![], vec![]]);
    for _ in 0..LOOK_UPS {
        refused.push(look(ADJUSTED));
        for (at, kind) in [PLAIN, PLAIN | SUM].into_iter().enumerate() {
            proved[at].push(look(kind));
            plain[at].push(time(|| look_up_by(&book, kind, year)));
        }
    }
    let refused = usual(refused);
    let [factor, sum] = proved.map(|times| usual(times) - refused);
    let [plain_factor, plain_sum] = plain.map(usual);
    println!(
        "a look-up of year {year} after one post, which takes {refused:.2} µs: proved factor {factor:.2} µs, \
         sum {sum:.2} µs, ratio {:.2}; plain Rust factor {plain_factor:.2} µs, sum {plain_sum:.2} µs, ratio {:.2}",
        sum / factor,
        plain_sum / plain_factor
    );
}

/// The longest list and all factors by turns. The journal's time is taken off here too: of a
/// valuation that of the same call without a cash flow, which is refused as soon as the journal
/// is replayed.
fn time_values(journal: &[u8]) {
    let book = book_after(LARGEST_AGE_LIMIT, journal);
    let flows = any_flows();
    let mut out = [0; VALUE_LENGTH];
    let mut value = |flows: &[u64]| value_after(LARGEST_AGE_LIMIT, journal, flows, &mut out);
    let mut out = [0; LOOK_UP_LENGTH];
    let mut look = |kind, year| look_after(LARGEST_AGE_LIMIT, journal, kind, year, &mut out);
    let [mut values, mut no_values, mut looks, mut no_looks] = [vec![], vec![], vec![], vec![]];
    let (mut plain_values, mut plain_looks) = (vec![], vec![]);
    for _ in 0..VALUATIONS {
        values.push(time(|| value(&flows)));
        no_values.push(time(|| value(&[])));
        looks.push(time_years(|year| look(PLAIN, year)));
        no_looks.push(time_years(|year| look(ADJUSTED, year)));
        plain_values.push(time(|| value_by(&book, &flows)));
        plain_looks.push(time_years(|year| look_up_by(&book, PLAIN, year)));
    }
    let proved = (
        usual(values) - usual(no_values),
        usual(looks) - usual(no_looks),
    );
    for (name, (value, looks)) in [
        ("proved", proved),
        ("plain Rust", (usual(plain_values), usual(plain_looks))),
    ] {
        println!(
            "{name}: a valuation of {MOST_FLOWS} cash flows takes {value:.2} µs, look-ups of \
             {YEARS} factors {looks:.2} µs; ratio {:.3}, of at most {MOST_TIMES}",
            value / looks
        );
    }
}

/// This block costs something everywhere, so that a target of 0 is met nowhere and every shifted
/// sheet is worked, each of which is accepted. The block has the most entries.
fn time_shifts(sheets: &str, sheet: &Sheet) {
    let shifted = SHIFTS.map(|by| sheet.shifted(by).expect("rates in their range"));
    let posts: Vec<u8> = shifted
        .flat_map(|sheet| post(&sheet_bytes(&sheet)))
        .collect();
    let (bytes, flows) = (sheet_bytes(sheet), any_flows());
    let mut out = [0; SHIFT_LENGTH];
    let (mut proved, mut plain, mut runs) = (vec![], vec![], vec![]);
    for _ in 0..SHIFTED {
        proved.push(time(|| assert_eq!(shift(&bytes, &flows, 0, &mut out), 23)));
        let nowhere = Err(Refusal::plain(23));
        plain.push(time(|| assert_eq!(shift_by(&bytes, &flows, 0), nowhere)));
        runs.push(run(PLAIN, &posts));
    }
    let proved_posts = runs.iter().map(|run| run.proved).collect();
    let plain_posts = runs.iter().map(|run| run.plain).collect();
    for (name, shifts, posts) in [
        ("proved", proved, proved_posts),
        ("plain Rust", plain, plain_posts),
    ] {
        let (shift, posts) = (usual(shifts) / 1e3, usual(posts) / 1e3);
        println!(
            "{name}, {sheets}: a shift that is met nowhere takes {shift:.2} ms, {} posts of its \
             sheets and a page {posts:.2} ms; ratio {:.2}",
            SHIFTS.count(),
            shift / posts
        );
    }
}

/// The numbers of the longest list, of any years and cents.
fn any_flows() -> Vec<u64> {
    let mut random = Random::new(SEED);
    let mut flow = |_| [1 + random.below(YEARS as u64), random.below(MOST_CENTS + 1)];
    (0..MOST_FLOWS).flat_map(&mut flow).collect()
}

/// The time of a call for every year, together.
fn time_years<A>(mut call: impl FnMut(u64) -> A) -> Duration {
    time(|| {
        for year in 1..=YEARS as u64 {
            std::hint::black_box(call(year));
        }
    })
}

fn time<A>(call: impl FnOnce() -> A) -> Duration {
    let start = Instant::now();
    std::hint::black_box(call());
    start.elapsed()
}

/// In microseconds, the time that a quarter of them stay below: the fastest ones are luck, the slow
/// ones were disturbed.
fn usual(mut times: Vec<Duration>) -> f64 {
    times.sort();
    times[times.len() / 4].as_secs_f64() * 1e6
}
