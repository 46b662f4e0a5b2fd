//! Taking back a post: what stands after it, how deep it goes, what it leaves alone, its record in
//! a journal, and the count from the calls alone; by hand, on every short list of calls and on
//! random long ones.

mod common;

use common::{flat, november, zero, Numbers};
use reference::accepted::Count;
use reference::book::{Book, Found, LARGEST_AGE_LIMIT, PAGE_LENGTH};
use reference::curve::{Curves, Which};
use reference::desk::{self, run_desk};
use reference::enclosure::{Enclosure, U};
use reference::journal::{
    answer_after, book_after, calls, look_up, make, post, turn, withdrawal, Call, NO_RECORD,
};
use reference::questions::{self, journal};
use reference::refusal::Refusal;
use reference::sheet::Sheet;
use reference::streams::{posts_and_withdrawals, whole_stream, Measured, Random};
use reference::withdrawn::{taken_back, Meeting, Withdrawals};

/// The month told before `posted` posts.
const TOLD: u16 = 10;

const NOTHING_LEFT: Result<(), Refusal> = Err(Refusal {
    number: 18,
    place: 0,
});

fn dated(month: u16, numbers: Numbers) -> Vec<u8> {
    Numbers { month, ..numbers }.bytes()
}

/// The flat sheet of `month` at 100 times that rate.
fn flat_of(month: u16) -> Vec<u8> {
    dated(month, flat(100 * month as i16))
}

/// A book that is told month 10, with `count` accepted posts: those of months 1, 2 and so on.
fn posted(count: u16) -> Book {
    let mut book = Book::new(LARGEST_AGE_LIMIT);
    book.turn(u32::from(TOLD)).unwrap();
    for month in 1..=count {
        assert_eq!(book.post(&flat_of(month)), Ok(month));
    }
    book
}

/// The book after so many accepted withdrawals.
fn withdrawn(mut book: Book, times: usize) -> Book {
    for _ in 0..times {
        assert_eq!(book.withdraw(), Ok(()));
    }
    book
}

/// Year 1 of a flat sheet by par.
fn year_1(rate: i128) -> Enclosure {
    let (whole, parts) = (100_000 * U, 100_000 + rate);
    Enclosure::new(whole / parts, (whole + parts - 1) / parts)
}

/// Asserts that the book, told month 10, shows `flat_of` this month, or has no curve for month 0.
fn assert_stands(book: &Book, month: u16) {
    let found = book.look_up(Which::Plain, 1);
    if month == 0 {
        assert_eq!(shown(book), none());
        return;
    }
    let found = found.expect("a curve stands");
    assert_eq!((found.month, found.age), (month, TOLD - month));
    assert_eq!(found.amount, year_1(100 * i128::from(month)));
    let mut page = [7; PAGE_LENGTH];
    assert_eq!(book.page(Which::Plain, &mut page), Ok(()));
    assert_eq!(page[..5], [0x48, 0, month as u8, 0, (TOLD - month) as u8]);
}

/// What a book shows: of each curve two look-ups and the page.
type Shown = [([Result<Found, Refusal>; 2], Result<Vec<u8>, Refusal>); 2];

fn shown(book: &Book) -> Shown {
    Which::ALL.map(|which| {
        let mut page = vec![7; PAGE_LENGTH + 1];
        let paged = book.page(which, &mut page);
        assert!(paged.is_ok() || page == [7; PAGE_LENGTH + 1]);
        let looked = [1, 150].map(|year| book.look_up(which, year));
        (looked, paged.map(|()| page))
    })
}

/// What a book without a curve shows.
fn none() -> Shown {
    let no_curve = Refusal::plain(14);
    [(); 2].map(|()| ([Err(no_curve); 2], Err(no_curve)))
}

/// Year 9 is U, year 10 has no high rate.
fn steep() -> Numbers {
    let mut numbers = zero();
    numbers.rates[9..].fill(11_111);
    numbers
}

// What stands

#[test]
fn a_withdrawal_returns_to_what_stood_before_the_latest_post() {
    let sheets = [
        flat(3_000),
        november().with_x(20_000),
        zero().adjusted(0),
        flat(2_400).adjusted(-500),
        steep(),
    ];
    for count in 0..=5 {
        let before = posted(count);
        for numbers in &sheets {
            let mut book = before.clone();
            assert_eq!(book.post(&dated(TOLD, numbers.clone())), Ok(TOLD));
            assert_ne!(shown(&book), shown(&before));
            assert_eq!(book.withdraw(), Ok(()));
            assert_eq!(shown(&book), shown(&before));
            // A way back more than that one was forgotten on a book three deep.
            assert_eq!(book == before, count < 3);
        }
    }
}

#[test]
fn three_of_five_posts_are_taken_back() {
    let mut book = posted(5);
    for month in [4, 3, 2] {
        assert_eq!(book.withdraw(), Ok(()));
        assert_stands(&book, month);
    }
    assert_eq!(book.withdraw(), NOTHING_LEFT);
    assert_stands(&book, 2);
    let found = book.look_up(Which::Plain, 1).unwrap();
    assert_eq!((found.month, found.age), (2, 8));
    assert_eq!(found.amount, Enclosure::new(998_003_992, 998_003_993));
    assert_eq!(book.post(&flat_of(1)), Err(Refusal::plain(6)));
    assert_eq!(book.post(&flat_of(2)), Ok(2));
}

#[test]
fn a_withdrawal_to_no_curve() {
    for told in [0, 7, 2_399] {
        let mut book = Book::new(LARGEST_AGE_LIMIT);
        assert_eq!(book.turn(told), Ok(told as u16));
        let fresh = book.clone();
        assert_eq!(book.post(&zero().adjusted(1).bytes()), Ok(0));
        assert_eq!(book.withdraw(), Ok(()));
        assert_eq!(book, fresh);
        assert_eq!(shown(&book), none());
        assert!(Which::ALL.iter().all(|&which| !book.holds(which)));
        assert_eq!(book.curve_age(), None);
        for year in 0..=151 {
            let ground = if (1..=150).contains(&year) { 14 } else { 13 };
            let looked = book.look_up(Which::Plain, year);
            assert_eq!(looked, Err(Refusal::plain(ground)));
        }
        // No curve comes before a buffer that is too short.
        let short = book.page(Which::Plain, &mut [7; PAGE_LENGTH - 1]);
        assert_eq!(short, Err(Refusal::plain(14)));
        assert_eq!(book.withdraw(), NOTHING_LEFT);
        assert_eq!(book.post(&zero().bytes()), Ok(0));
    }
}

#[test]
fn the_told_month_remains() {
    let mut book = Book::new(LARGEST_AGE_LIMIT);
    for month in [3, 6] {
        assert_eq!(book.turn(u32::from(month)), Ok(month));
        assert_eq!(book.post(&flat_of(month)), Ok(month));
    }
    assert_eq!(book.turn(9), Ok(9));
    for (month, age) in [(3, Some(6)), (0, None)] {
        assert_eq!(book.withdraw(), Ok(()));
        assert_eq!(book.curve_age(), age);
        let found = book.look_up(Which::Plain, 1).ok();
        assert_eq!(
            found.map(|found| (found.month, found.age)),
            age.map(|age| (month, age))
        );
        assert_eq!(book.turn(8), Err(Refusal::plain(12)));
        assert_eq!(book.post(&flat_of(10)), Err(Refusal::plain(5)));
        assert_eq!(book.turn(9), Ok(9));
    }
    assert_eq!(book.post(&flat_of(9)), Ok(9));
}

#[test]
fn both_curves_come_back_with_their_sheet() {
    let sheets = [
        flat(3_000).adjusted(100),
        flat(2_900),
        november().with_x(20_000).adjusted(-5),
        zero().adjusted(0),
    ];
    let mut book = Book::new(0);
    for numbers in &sheets {
        assert_eq!(book.post(&numbers.bytes()), Ok(0));
    }
    for numbers in sheets.iter().rev().skip(1) {
        assert_eq!(book.withdraw(), Ok(()));
        let curves = Curves::of(&Sheet::read(&numbers.bytes()).unwrap()).unwrap();
        for which in Which::ALL {
            assert_eq!(book.holds(which), curves.get(which).is_some());
            for year in 1..=150 {
                let found = book.look_up(which, year as u32).map(|found| found.amount);
                let expected = curves.get(which).map(|curve| curve.factor(year));
                assert_eq!(found, expected.ok_or(Refusal::plain(14)));
            }
        }
        let mut alone = Book::new(0);
        assert_eq!(alone.post(&numbers.bytes()), Ok(0));
        assert_eq!(shown(&book), shown(&alone));
    }
}

#[test]
fn years_without_a_high_rate_come_back_too() {
    let mut book = Book::new(0);
    let answer = |book: &Book| book.look_up(Which::Plain, 10).err().map(|r| r.number);
    assert_eq!(book.post(&steep().bytes()), Ok(0));
    assert_eq!(answer(&book), Some(17));
    assert_eq!(book.post(&zero().bytes()), Ok(0));
    assert_eq!(answer(&book), None);
    assert_eq!(book.withdraw(), Ok(()));
    assert_eq!(answer(&book), Some(17));
    assert_eq!(book.withdraw(), Ok(()));
    assert_eq!(answer(&book), Some(14));
}

// The depth

#[test]
fn an_accepted_post_adds_1_up_to_3() {
    for count in 0..=9 {
        let depth = usize::from(count.min(3));
        let mut book = posted(count);
        assert_eq!(book.depth(), depth);
        for times in 1..=depth {
            assert_eq!(book.withdraw(), Ok(()));
            assert_eq!(book.depth(), depth - times);
            assert_stands(&book, count - times as u16);
        }
        for _ in 0..3 {
            assert_eq!(book.withdraw(), NOTHING_LEFT);
            assert_stands(&book, count - depth as u16);
        }
    }
}

#[test]
fn a_post_three_deep_forgets_only_the_oldest_way_back() {
    // Of four posts one is taken back, and another made: the first still stands behind the three.
    let mut book = withdrawn(posted(4), 1);
    assert_eq!(book.post(&flat_of(7)), Ok(7));
    for month in [3, 2, 1] {
        assert_eq!(book.withdraw(), Ok(()));
        assert_stands(&book, month);
    }
    assert_eq!(book.withdraw(), NOTHING_LEFT);
    // A forgotten way does not come back when the book is less deep.
    let mut book = withdrawn(posted(5), 2);
    assert_eq!(book.post(&flat_of(6)), Ok(6));
    assert_eq!(book.depth(), 2);
    for month in [3, 2] {
        assert_eq!(book.withdraw(), Ok(()));
        assert_stands(&book, month);
    }
    assert_eq!(book.withdraw(), NOTHING_LEFT);
    // The same sheet twice is two posts.
    let mut book = posted(3);
    assert_eq!(book.post(&flat_of(3)), Ok(3));
    for month in [3, 2, 1] {
        assert_eq!(book.withdraw(), Ok(()));
        assert_stands(&book, month);
    }
    assert_eq!(book.withdraw(), NOTHING_LEFT);
}

#[test]
fn posts_and_withdrawals_by_turns_keep_the_depth() {
    let mut book = posted(2);
    for month in [3, 5, 4, 9, 3, 10] {
        assert_eq!(book.post(&flat_of(month)), Ok(month));
        assert_eq!(book.depth(), 3);
        assert_stands(&book, month);
        assert_eq!(book.withdraw(), Ok(()));
        assert_eq!(book, posted(2));
    }
}

/// Sheets that a book told month 10 with the curve of month 3 refuses.
fn refused_sheets() -> Vec<(Vec<u8>, Refusal)> {
    let fall = {
        let mut numbers = zero().with_rate(10, 12_000);
        numbers.rates[..9].fill(-2_000);
        numbers
    };
    let narrow = Numbers {
        limit: 636,
        ..flat(3_000)
    };
    let untraded = Numbers {
        volumes: [0; 5],
        ..zero()
    };
    let of = |numbers: Numbers| dated(TOLD, numbers);
    vec![
        (flat_of(5)[1..].to_vec(), Refusal::plain(1)),
        (vec![0; 109], Refusal::at(2, 1)),
        (of(flat(12_001)), Refusal::at(3, 2)),
        (of(untraded), Refusal::plain(4)),
        (flat_of(11), Refusal::plain(5)),
        (flat_of(2), Refusal::plain(6)),
        (of(fall), Refusal::at(7, 10)),
        (of(flat(-2_000)), Refusal::at(8, 35)),
        (of(flat(3_000).with_rate(12, 12_000)), Refusal::at(9, 12)),
        // Its adjusted curve alone fails.
        (of(narrow.adjusted(100)), Refusal::at(10, 142)),
    ]
}

#[test]
fn what_is_refused_or_only_looks_does_not_change_the_depth() {
    for (mut book, depth) in [
        (posted(3), 3),
        (withdrawn(posted(5), 2), 1),
        (withdrawn(posted(6), 3), 0),
    ] {
        let before = book.clone();
        for (sheet, refusal) in refused_sheets() {
            assert_eq!(book.post(&sheet), Err(refusal));
            assert_eq!(book, before);
        }
        for (month, number) in [(9, 12), (2_400, 11)] {
            assert_eq!(book.turn(month), Err(Refusal::plain(number)));
        }
        for year in 0..=151 {
            assert_eq!(
                book.look_up(Which::Plain, year).is_ok(),
                (1..=150).contains(&year)
            );
            assert!(book.look_up(Which::Adjusted, year).is_err());
        }
        for (which, length) in [
            (Which::Plain, 1_505),
            (Which::Plain, 1_504),
            (Which::Adjusted, 1_505),
        ] {
            let paged = book.page(which, &mut vec![7; length]);
            assert_eq!(paged.is_ok(), (which, length) == (Which::Plain, 1_505));
        }
        assert_eq!(book, before);
        // Nor does an accepted turn.
        assert_eq!(book.turn(11), Ok(11));
        assert_eq!(book.depth(), depth);
        for _ in 0..depth {
            assert_eq!(book.withdraw(), Ok(()));
        }
        assert_eq!(book.withdraw(), NOTHING_LEFT);
    }
}

#[test]
fn a_refusal_on_18_changes_nothing() {
    let fresh = Book::new(LARGEST_AGE_LIMIT);
    let books = [
        fresh,
        posted(0),
        withdrawn(posted(1), 1),
        withdrawn(posted(3), 3),
        withdrawn(posted(4), 3),
        withdrawn(posted(9), 3),
    ];
    for mut book in books {
        let before = book.clone();
        for _ in 0..4 {
            assert_eq!(book.withdraw(), NOTHING_LEFT);
            assert_eq!(book, before);
        }
        // A post after it can be withdrawn, and that one alone.
        assert_eq!(book.turn(u32::from(TOLD)), Ok(TOLD));
        let told = book.clone();
        assert_eq!(book.post(&flat_of(TOLD)), Ok(TOLD));
        assert_eq!(book.withdraw(), Ok(()));
        assert_eq!(book, told);
        assert_eq!(book.withdraw(), NOTHING_LEFT);
    }
}

// Other grounds

#[test]
fn ground_6_goes_by_what_stands() {
    let mut book = Book::new(LARGEST_AGE_LIMIT);
    assert_eq!(book.turn(u32::from(TOLD)), Ok(TOLD));
    for month in [3, 8] {
        assert_eq!(book.post(&flat_of(month)), Ok(month));
    }
    assert_eq!(book.post(&flat_of(7)), Err(Refusal::plain(6)));
    assert_eq!(book.withdraw(), Ok(()));
    assert_eq!(book.post(&flat_of(2)), Err(Refusal::plain(6)));
    for month in [3, 7, 7] {
        assert_eq!(book.post(&flat_of(month)), Ok(month));
    }
    // Nor does a month that was withdrawn long ago count.
    assert_eq!(book.post(&flat_of(6)), Err(Refusal::plain(6)));
    let mut book = withdrawn(book, 2);
    assert_eq!(book.post(&flat_of(4)), Ok(4));
    // Without a curve 6 does not apply.
    let mut book = withdrawn(posted(2), 2);
    assert_eq!(book.post(&dated(0, flat(5))), Ok(0));
}

/// The answer to a look-up of the plain curve, which its page gives too.
fn answered(book: &Book) -> u8 {
    let looked = book.look_up(Which::Plain, 20).err();
    let paged = book.page(Which::Plain, &mut [7; PAGE_LENGTH]).err();
    assert_eq!(paged, looked);
    looked.map_or(0, |refusal| refusal.number)
}

#[test]
fn an_old_curve_comes_back_closed_and_a_young_one_open() {
    // Months 1 to 5 have ages 9 to 5 when month 10 is told.
    for (limit, expected) in [
        (4, [16, 16, 16, 16]),
        (5, [0, 16, 16, 16]),
        (6, [0, 0, 16, 16]),
        (7, [0, 0, 0, 16]),
        (8, [0, 0, 0, 0]),
        (u64::MAX, [0, 0, 0, 0]),
    ] {
        let mut book = posted(5).with_age_limit(limit);
        assert_eq!(answered(&book), expected[0], "limit {limit}");
        for answer in &expected[1..] {
            assert_eq!(book.withdraw(), Ok(()));
            assert_eq!(answered(&book), *answer, "limit {limit}");
        }
        // Closed or not, it stands in ground 6.
        assert_eq!(book.post(&flat_of(1)), Err(Refusal::plain(6)));
        assert_eq!(book.withdraw(), NOTHING_LEFT);
    }
}

#[test]
fn a_missing_curve_comes_before_an_old_one() {
    let mut book = Book::new(2);
    for numbers in [zero(), zero().adjusted(3)] {
        assert_eq!(book.post(&numbers.bytes()), Ok(0));
    }
    assert_eq!(book.turn(3), Ok(3));
    let adjusted = |book: &Book| book.look_up(Which::Adjusted, 1).err().map(|r| r.number);
    assert_eq!((answered(&book), adjusted(&book)), (16, Some(16)));
    assert_eq!(book.withdraw(), Ok(()));
    assert_eq!((answered(&book), adjusted(&book)), (16, Some(14)));
    assert_eq!(book.withdraw(), Ok(()));
    assert_eq!((answered(&book), adjusted(&book)), (14, Some(14)));
}

#[test]
fn the_limit_stays_with_the_book() {
    for limit in [0, 3, 2_399, u64::MAX] {
        let book = withdrawn(posted(4).with_age_limit(limit), 2);
        assert_eq!(book, withdrawn(posted(4), 2).with_age_limit(limit));
        assert_eq!(withdrawn(book, 1).depth(), 0);
    }
}

// Lists of calls

/// What a post brings: a sheet of this month, and on which of its own grounds it is refused.
#[derive(Clone, Debug)]
struct Posted {
    month: u16,
    bytes: Vec<u8>,
    own: Option<Refusal>,
}

#[derive(Clone, Debug)]
enum Step {
    Post(Posted),
    Turn(u16),
    Withdraw,
}

impl Step {
    fn call(&self) -> Call {
        match self {
            Step::Post(posted) => Call::OfDesk(desk::Call::Post(posted.bytes.clone())),
            Step::Turn(month) => Call::OfDesk(desk::Call::Turn(*month)),
            Step::Withdraw => Call::Withdrawal,
        }
    }
}

/// The simplest book: all accepted posts that are not withdrawn, and how many may be.
#[derive(Clone, Default)]
struct Plain {
    told: u16,
    posts: Vec<Posted>,
    depth: usize,
}

impl Plain {
    fn make(&mut self, step: &Step) -> Result<(), Refusal> {
        match step {
            Step::Post(posted) => self.post(posted),
            Step::Turn(month) if *month > 2_399 => Err(Refusal::plain(11)),
            Step::Turn(month) if *month < self.told => Err(Refusal::plain(12)),
            Step::Turn(month) => {
                self.told = *month;
                Ok(())
            }
            Step::Withdraw if self.depth == 0 => NOTHING_LEFT,
            Step::Withdraw => {
                self.posts.pop();
                self.depth -= 1;
                Ok(())
            }
        }
    }

    fn post(&mut self, posted: &Posted) -> Result<(), Refusal> {
        let standing = self.posts.last().map_or(0, |post| post.month);
        match posted.own {
            Some(refusal) if refusal.number < 5 => return Err(refusal),
            _ if posted.month > self.told => return Err(Refusal::plain(5)),
            _ if posted.month < standing => return Err(Refusal::plain(6)),
            Some(refusal) => return Err(refusal),
            None => self.posts.push(posted.clone()),
        }
        self.depth = (self.depth + 1).min(3);
        Ok(())
    }

    /// A fresh book on which only the post that stands was made.
    fn book(&self, age_limit: u64) -> Book {
        let mut book = Book::new(age_limit);
        book.turn(u32::from(self.told)).unwrap();
        if let Some(post) = self.posts.last() {
            book.post(&post.bytes).unwrap();
        }
        book
    }
}

/// The book, the simplest book and the count, on the same calls.
#[derive(Clone)]
struct Three {
    book: Book,
    plain: Plain,
    count: Count,
}

impl Three {
    fn new(age_limit: u64) -> Self {
        Three {
            book: Book::new(age_limit),
            plain: Plain::default(),
            count: Count::default(),
        }
    }

    /// Makes the call on all three, and asserts that they agree in all but what is shown.
    fn make(&mut self, step: &Step) -> Result<(), Refusal> {
        let answer = self.plain.make(step);
        let before = answer.is_err().then(|| self.book.clone());
        assert_eq!(make(&mut self.book, &step.call()), answer, "{step:?}");
        assert_eq!(self.count.count(&step.call()), answer, "{step:?}");
        if let Some(before) = before {
            assert_eq!(self.book, before, "{step:?}");
        }
        let (plain, count) = (&self.plain, &self.count);
        assert_eq!(self.book.depth(), plain.depth);
        assert_eq!(usize::from(count.depth()), plain.depth);
        assert_eq!(count.told_month(), plain.told);
        let stands = plain.posts.last().map(|post| Sheet::read(&post.bytes));
        assert_eq!(count.sheet(), stands.transpose().unwrap().as_ref());
        for which in Which::ALL {
            assert_eq!(self.book.holds(which), count.finds(which));
        }
        let month = plain.posts.last().map(|post| post.month);
        let age = month.map(|month| plain.told - month);
        assert_eq!(self.book.curve_age(), age);
        answer
    }

    fn assert_shown(&self, age_limit: u64) {
        assert_eq!(shown(&self.book), shown(&self.plain.book(age_limit)));
    }
}

/// A post of `flat_of` the month.
fn good(month: u16) -> Step {
    Step::Post(Posted {
        month,
        bytes: flat_of(month),
        own: None,
    })
}

/// Goes on with every list of these steps up to `length` more; how many lists that are.
fn every_list(three: &Three, length: usize, steps: &impl Fn(&Plain) -> Vec<Step>) -> usize {
    if length == 0 {
        return 1;
    }
    let mut lists = 1;
    for step in steps(&three.plain) {
        let mut next = three.clone();
        _ = next.make(&step);
        assert_stands_as_told(&next);
        lists += every_list(&next, length - 1, steps);
    }
    lists
}

/// Asserts that year 1 is that of the sheet that stands: each has a rate of its own.
fn assert_stands_as_told(three: &Three) {
    let found = three.book.look_up(Which::Plain, 1);
    let found = found.map(|found| (found.month, found.amount));
    let post = three.plain.posts.last();
    let expected = post.map(|post| (post.month, year_1(100 * i128::from(post.month))));
    assert_eq!(found, expected.ok_or(Refusal::plain(14)));
}

#[test]
fn every_list_of_11_posts_and_withdrawals() {
    let mut three = Three::new(LARGEST_AGE_LIMIT);
    assert_eq!(three.make(&Step::Turn(2_399)), Ok(()));
    let steps = |plain: &Plain| {
        let latest = plain.posts.last().map_or(0, |post| post.month);
        vec![good(latest + 1), Step::Withdraw]
    };
    assert_eq!(every_list(&three, 11, &steps), (1 << 12) - 1);
}

#[test]
fn every_list_of_5_posts_turns_and_withdrawals() {
    let bad = |month| {
        Step::Post(Posted {
            month,
            bytes: dated(month, flat(-2_000)),
            own: Some(Refusal::at(8, 35)),
        })
    };
    let steps = |plain: &Plain| {
        let told = plain.told;
        vec![
            Step::Turn(told + 1),
            Step::Turn(told.wrapping_sub(1)),
            good(told),
            good(told + 1),
            good(2),
            bad(told),
            Step::Withdraw,
        ]
    };
    let fresh = Three::new(LARGEST_AGE_LIMIT);
    let mut deep = fresh.clone();
    for month in 1..=4 {
        assert_eq!(deep.make(&Step::Turn(month)), Ok(()));
        assert_eq!(deep.make(&good(month)), Ok(()));
    }
    let lists = (0..=5).map(|length| 7_usize.pow(length)).sum::<usize>();
    for three in [fresh, deep] {
        assert_eq!(every_list(&three, 5, &steps), lists);
    }
}

/// One to five of a call, of which most are accepted.
fn steps(random: &mut Random, plain: &Plain) -> Vec<Step> {
    match random.below(8) {
        0 => vec![any_turn(random, plain.told)],
        1..=4 => (0..random.between(1, 4))
            .map(|_| Step::Post(any_post(random, plain.told)))
            .collect(),
        _ => vec![Step::Withdraw; random.between(1, 5) as usize],
    }
}

fn any_turn(random: &mut Random, told: u16) -> Step {
    Step::Turn(match random.below(8) {
        0 => told.wrapping_sub(1),
        1 => random.one_of(&[2_400, u16::MAX]),
        _ => told + random.below(4) as u16,
    })
}

fn any_post(random: &mut Random, told: u16) -> Posted {
    let month = (told + 1).saturating_sub(random.below(5) as u16);
    let mut numbers = flat(random.between(0, 3_000) as i16);
    if random.one_in(2) {
        numbers = numbers.adjusted(random.between(-500, 500) as i16);
    }
    let (numbers, own) = match random.below(8) {
        0 => (flat(-2_000), Some(Refusal::at(8, 35))),
        1 => (numbers.with_x(9_999), Some(Refusal::at(3, 26))),
        _ => (numbers, None),
    };
    let bytes = dated(month, numbers);
    Posted { month, bytes, own }
}

#[test]
fn random_lists_of_calls() {
    let mut random = Random::new(701);
    let mut answers = [0; 19];
    for _ in 0..80 {
        let age_limit = random.one_of(&[0, 1, 2, 5, 2_399, u64::MAX]);
        let mut three = Three::new(age_limit);
        while three.count.told_month() < 30 && !random.one_in(40) {
            for step in steps(&mut random, &three.plain) {
                let answer = three.make(&step);
                answers[answer
                    .err()
                    .map_or(0, |refusal| usize::from(refusal.number))] += 1;
                three.assert_shown(age_limit);
            }
        }
    }
    println!("{answers:?}");
    for number in [0, 3, 5, 6, 8, 11, 12, 18] {
        assert!(answers[number] > 20, "{number}: {answers:?}");
    }
}

#[test]
fn seeded_journals_are_counted_as_their_books_answer() {
    let mut random = Random::new(702);
    for _ in 0..300 {
        let journal = journal(&mut random);
        let mut book = Book::new(LARGEST_AGE_LIMIT);
        let mut count = Count::default();
        for call in calls(&journal) {
            let (answer, counted) = (make(&mut book, &call), count.count(&call));
            let is_look_up = matches!(call, Call::OfDesk(desk::Call::LookUp(_)));
            assert!(is_look_up || answer == counted, "{call:?}");
            assert_eq!(book.depth(), usize::from(count.depth()));
        }
        let all = Count::of(calls(&journal));
        assert_eq!(all.sheet(), count.sheet());
        assert_counted(&book, &all);
    }
}

/// Asserts that the book shows what the count says: 14 exactly where no curve is found, and the
/// sheet's month and age elsewhere.
fn assert_counted(book: &Book, count: &Count) {
    for (which, (looked, paged)) in Which::ALL.into_iter().zip(shown(book)) {
        let found = count.finds(which);
        for looked in looked {
            assert_eq!(looked != Err(Refusal::plain(14)), found);
            if let (Ok(looked), Some(sheet)) = (looked, count.sheet()) {
                let age = count.told_month() - sheet.month;
                assert_eq!((looked.month, looked.age), (sheet.month, age));
            }
        }
        assert_eq!(paged.is_ok(), found);
    }
}

#[test]
fn the_count_of_a_list_by_hand() {
    let month = |list: &[u8]| {
        let calls = list.iter().map(|&month| match month {
            0 => Call::Withdrawal,
            _ => Call::OfDesk(desk::Call::Post(flat_of(u16::from(month)))),
        });
        let told = Call::OfDesk(desk::Call::Turn(TOLD));
        let count = Count::of([told].into_iter().chain(calls));
        assert_eq!(count.told_month(), TOLD);
        (count.sheet().map_or(0, |sheet| sheet.month), count.depth())
    };
    // Months are posted, 0 is a withdrawal.
    assert_eq!(month(&[]), (0, 0));
    assert_eq!(month(&[0, 0]), (0, 0));
    assert_eq!(month(&[1]), (1, 1));
    assert_eq!(month(&[1, 0]), (0, 0));
    assert_eq!(month(&[0, 1]), (1, 1));
    assert_eq!(month(&[1, 2, 3]), (3, 3));
    assert_eq!(month(&[1, 2, 3, 4, 5]), (5, 3));
    assert_eq!(month(&[1, 2, 3, 4, 5, 0]), (4, 2));
    assert_eq!(month(&[1, 2, 3, 4, 5, 0, 0, 0]), (2, 0));
    assert_eq!(month(&[1, 2, 3, 4, 5, 0, 0, 0, 0]), (2, 0));
    assert_eq!(month(&[1, 2, 3, 4, 5, 0, 0, 0, 0, 1]), (2, 0));
    assert_eq!(month(&[1, 2, 3, 4, 5, 0, 0, 0, 2]), (2, 1));
    assert_eq!(month(&[1, 2, 3, 4, 0, 7, 0, 0]), (2, 1));
    assert_eq!(month(&[5, 4, 0]), (0, 0));
    assert_eq!(month(&[5, 11, 6]), (6, 2));
}

// The record

fn desk_lines(input: &[u8]) -> String {
    let mut output = Vec::new();
    run_desk(input, &mut output).unwrap();
    String::from_utf8(output).unwrap()
}

#[test]
fn the_record_is_one_byte() {
    assert_eq!(withdrawal(), [0x57]);
    let posted = post(&zero().bytes());
    assert_eq!(answer_after(0, &[], &[0x57]), 18);
    assert_eq!(answer_after(0, &posted, &[0x57]), 0);
    // What follows is the next record, whatever it is.
    for behind in [0x57, 0x50, 0x4D, 0x4C, 0x00, 0x51, 0xFF] {
        assert_eq!(answer_after(0, &[], &[0x57, behind]), 18);
        assert_eq!(answer_after(0, &posted, &[0x57, behind]), 0);
    }
    for kind in [0x56, 0x58, 0x77, 0xD7] {
        assert_eq!(answer_after(0, &posted, &[kind]), NO_RECORD);
    }
}

#[test]
fn a_journal_goes_on_behind_a_withdrawal() {
    let posted = post(&zero().bytes());
    let taken_back = [&posted[..], &[0x57]].concat();
    assert_eq!(calls(&taken_back).count(), 2);
    assert_eq!(book_after(0, &taken_back), Book::new(0));
    let going_on = [&taken_back[..], &posted, &[0x57, 0x57], &turn(3), &posted].concat();
    assert_eq!(calls(&going_on).count(), 7);
    let book = book_after(LARGEST_AGE_LIMIT, &going_on);
    assert_eq!((book.depth(), book.curve_age()), (1, Some(3)));
    // Junk ends it, and what stood before the junk stays.
    for junk in [&[0x51][..], &[0x00, 0x57], &[0x4C], &[0x50, 0, 9, 0x57]] {
        let broken = [&taken_back[..], junk].concat();
        assert_eq!(calls(&broken).count(), 2);
        assert_eq!(book_after(0, &broken), Book::new(0));
    }
    for junk in [&[0x51][..], &[0x00, 0x57], &[0x50, 0, 9, 0x57]] {
        let broken = [&posted[..], junk, &[0x57]].concat();
        assert_eq!(calls(&broken).count(), 1);
        assert!(book_after(0, &broken).holds(Which::Plain));
    }
    // As a part of a body it is no record.
    let bodies = [&posted[..], &[0x4C, 0x57, 0x4D, 0x00, 0x57]].concat();
    assert_eq!(calls(&bodies).count(), 3);
    assert_eq!(book_after(0, &bodies).curve_age(), Some(0x57));
}

#[test]
fn the_desk_does_not_know_the_record() {
    assert_eq!(desk_lines(&[0x57]), "X 0\n");
    assert_eq!(desk_lines(&[0x57, 0x4C, 0x01]), "X 0\n");
    let records = [turn(5), post(&zero().bytes()), look_up(1), turn(4)];
    let lines = [
        "M 5\n",
        "P 0\n",
        "L 1 1000000000 1000000000 0 5\n",
        "R 12 0\n",
    ];
    for served in 0..=4 {
        let (before, behind) = (records[..served].concat(), records[served..].concat());
        let expected = format!("{}X {}\n", lines[..served].concat(), before.len());
        assert_eq!(
            desk_lines(&[&before[..], &[0x57], &behind].concat()),
            expected
        );
        assert_eq!(desk_lines(&[&before[..], &[0x57, 0x57]].concat()), expected);
    }
    // As a part of a body it is no record.
    assert_eq!(
        desk_lines(&[0x4D, 0x00, 0x57, 0x4C, 0x57]),
        "M 87\nR 14 0\n"
    );
}

// Seeded journals

#[test]
fn seeded_journals_meet_every_sort_of_withdrawal() {
    let mut random = Random::new(703);
    let mut withdrawals = Withdrawals::default();
    for _ in 0..600 {
        withdrawals.count_journal(&journal(&mut random));
    }
    println!("{withdrawals}");
    withdrawals.check().unwrap();
    for meeting in Meeting::ALL {
        assert!(withdrawals.of(meeting) >= 30, "{meeting}");
    }
}

#[test]
fn the_hand_written_journal_meets_every_sort_but_an_adjusted_one() {
    let mut withdrawals = Withdrawals::default();
    let records = reference::every_ground::records().into_iter();
    let journal: Vec<u8> = records.flat_map(|(record, _, _)| record).collect();
    withdrawals.count_journal(&journal);
    let adjusted = [Meeting::AdjustedLost, Meeting::AdjustedBack];
    for meeting in Meeting::ALL {
        let expected = !adjusted.contains(&meeting);
        assert_eq!(withdrawals.of(meeting) > 0, expected, "{meeting}");
    }
}

#[test]
fn seeded_posts_that_are_taken_back_are_accepted() {
    let mut random = Random::new(704);
    for told in [0, 7, 2_398, 2_399] {
        for _ in 0..50 {
            let mut last = told;
            let records = taken_back(&mut random, &mut last);
            let mut book = book_after(LARGEST_AGE_LIMIT, &turn(told));
            let before_withdrawals = calls(&records).take_while(|call| *call != Call::Withdrawal);
            for call in before_withdrawals {
                assert_eq!(make(&mut book, &call), Ok(()));
            }
            assert!((told..=2_399).contains(&last));
            assert_eq!(book.turn(u32::from(last)), Ok(last));
        }
    }
}

#[test]
fn seeded_records_are_withdrawals_at_times_and_streams_have_none() {
    let mut random = Random::new(705);
    let records = (0..400).map(|_| questions::call(&mut random));
    let withdrawals = records.filter(|record| calls(record).next() == Some(Call::Withdrawal));
    assert!(withdrawals.count() > 20);
    for seed in 1..=30 {
        // Before any damage: a byte in the wrong place may be a withdrawal's kind.
        let stream = whole_stream(&mut Random::new(seed), 300);
        assert!(
            calls(&stream).all(|call| call != Call::Withdrawal),
            "{seed}"
        );
    }
}

#[test]
fn every_measured_withdrawal_is_accepted() {
    let journal = posts_and_withdrawals(7, 30, Measured::Adjusted);
    let mut book = Book::new(LARGEST_AGE_LIMIT);
    for call in calls(&journal) {
        assert_eq!(make(&mut book, &call), Ok(()), "{call:?}");
    }
    let withdrawals = calls(&journal).filter(|call| *call == Call::Withdrawal);
    let posts = calls(&journal).filter(|call| call.posted().is_some());
    assert_eq!((posts.count(), withdrawals.count()), (20, 10));
    assert!(book.holds(Which::Adjusted));
}
