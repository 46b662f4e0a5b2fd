//! Withdrawals in journals: the proved library's answers to them and what stands after them,
//! against figures and grounds written by hand, on every short list of posts and withdrawals, and
//! against the second implementation's.

mod asked;

use asked::{band, looked, page, paged, posted, reply, with, PAGE, REPLY};
use interface::compare::{Case, Kind, Met, Question, VALUE_LENGTH};
use interface::{answer_after, ADJUSTED, PLAIN, SUM};
use reference::blocks::numbers;
use reference::book::LARGEST_AGE_LIMIT;
use reference::curve::Which;
use reference::journal::{look_up, post, turn, withdrawal, NO_RECORD};
use reference::questions::{age_limits, kind, page_kind};
use reference::sheet::Sheet;
use reference::streams::{low_rates, sheet_bytes, steep_sheet, zero_sheet, Random};
use reference::sums::Wanted;
use reference::withdrawn::{taken_back, Meeting, Withdrawals};

/// The month that is told in the journals of `posts`.
const TOLD: u16 = 10;

/// The flat sheet of `month` at 100 times that rate.
fn flat_of(month: u16) -> Sheet {
    Sheet {
        rates: [100 * month as i16; 17],
        ..zero_sheet(month)
    }
}

/// Month 10 is told, then sheets of months 1 to `count` are posted and accepted.
fn posts(count: u16) -> Vec<u8> {
    let posts = (1..=count).map(|month| posted(&flat_of(month)));
    [turn(TOLD)].into_iter().chain(posts).flatten().collect()
}

/// The journal with so many withdrawals behind it.
fn withdrawn(journal: &[u8], times: usize) -> Vec<u8> {
    [journal, &withdrawal().repeat(times)].concat()
}

fn answer(journal: &[u8], call: &[u8]) -> u64 {
    answer_after(LARGEST_AGE_LIMIT, journal, call)
}

/// The answer to one more withdrawal.
fn one_more(journal: &[u8]) -> u64 {
    answer(journal, &[0x57])
}

/// Asserts that what stands is `flat_of` the month and nothing else, or no curve for month 0.
fn assert_stands(journal: &[u8], month: u16) {
    if month == 0 {
        return assert_no_curve(journal);
    }
    let found = reply(journal, PLAIN, 1);
    let number = |at: usize| u16::from_be_bytes([found[at], found[at + 1]]);
    assert_eq!((number(16), number(18)), (month, TOLD - month));
    // By par: U × 100,000 / (100,000 + rate), down and up.
    let (whole, parts) = (100_000_000_000_000, 100_000 + 100 * u64::from(month));
    assert_eq!(band(&found), (whole / parts, whole.div_ceil(parts)));
    let alone = [turn(TOLD), posted(&flat_of(month))].concat();
    assert_eq!(page(journal, PLAIN), page(&alone, PLAIN));
    assert_eq!(paged(LARGEST_AGE_LIMIT, journal, ADJUSTED, PAGE), 14);
}

/// Asserts 14 of look-ups and pages of both curves into buffers of every sort.
fn assert_no_curve(journal: &[u8]) {
    for kind in [PLAIN, ADJUSTED, SUM, u64::MAX] {
        for age_limit in [0, LARGEST_AGE_LIMIT] {
            for (year, ground) in [(0, 13), (1, 14), (150, 14), (151, 13)] {
                for length in [0, REPLY - 1, REPLY] {
                    assert_eq!(looked(age_limit, journal, kind, year, length), ground);
                }
            }
            for length in [0, PAGE - 1, PAGE, PAGE + 1] {
                assert_eq!(paged(age_limit, journal, kind, length), 14);
            }
        }
    }
}

// By hand

#[test]
fn three_of_five_posts_are_taken_back() {
    let journal = posts(5);
    for (times, month) in [(0, 5), (1, 4), (2, 3), (3, 2)] {
        let journal = withdrawn(&journal, times);
        assert_stands(&journal, month);
        assert_eq!(one_more(&journal), if times < 3 { 0 } else { 18 });
    }
    let journal = withdrawn(&journal, 3);
    assert_eq!(band(&reply(&journal, PLAIN, 1)), (998_003_992, 998_003_993));
    assert_eq!(answer(&journal, &posted(&flat_of(1))), 6);
    assert_eq!(answer(&journal, &posted(&flat_of(2))), 0);
    assert_eq!(answer(&journal, &posted(&flat_of(11))), 5);
    // The fourth changed nothing.
    for times in 4..=9 {
        let more = withdrawn(&posts(5), times);
        assert_stands(&more, 2);
        assert_eq!(one_more(&more), 18);
    }
}

#[test]
fn one_post_is_taken_back() {
    for told in [1, 7, 2_398] {
        let journal = [turn(told), posted(&with(5, zero_sheet(0)))].concat();
        assert_eq!(one_more(&turn(told)), 18);
        assert_eq!(one_more(&journal), 0);
        let journal = withdrawn(&journal, 1);
        assert_no_curve(&journal);
        assert_eq!(answer(&journal, &look_up(1)), 14);
        assert_eq!(one_more(&journal), 18);
        assert_eq!(answer(&journal, &posted(&zero_sheet(0))), 0);
        // The told month remains.
        assert_eq!(answer(&journal, &turn(told - 1)), 12);
        assert_eq!(answer(&journal, &posted(&zero_sheet(told + 1))), 5);
    }
}

#[test]
fn every_depth() {
    for count in 0..=6 {
        for times in 0..=5 {
            let taken = count.min(3).min(times);
            let journal = withdrawn(&posts(count), usize::from(times));
            assert_stands(&journal, count - taken);
            let left = count.min(3) - taken;
            assert_eq!(one_more(&journal), if left > 0 { 0 } else { 18 });
        }
    }
}

#[test]
fn a_post_behind_a_withdrawal_can_be_taken_back() {
    // Of four posts one is taken back, and another made.
    let journal = [withdrawn(&posts(4), 1), posted(&flat_of(7))].concat();
    for (times, month) in [(0, 7), (1, 3), (2, 2), (3, 1), (4, 1)] {
        assert_stands(&withdrawn(&journal, times), month);
    }
    // A forgotten way back does not come back when the book is less deep.
    let journal = [withdrawn(&posts(5), 2), posted(&flat_of(6))].concat();
    for (times, month) in [(0, 6), (1, 3), (2, 2), (3, 2)] {
        assert_stands(&withdrawn(&journal, times), month);
    }
}

#[test]
fn ground_6_goes_by_what_stands() {
    let journal = [turn(TOLD), posted(&flat_of(3)), posted(&flat_of(8))].concat();
    let answers =
        |journal: &[u8]| [2, 3, 7, 8].map(|month| answer(journal, &posted(&flat_of(month))));
    assert_eq!(answers(&journal), [6, 6, 6, 0]);
    assert_eq!(answers(&withdrawn(&journal, 1)), [6, 0, 0, 0]);
    assert_eq!(answers(&withdrawn(&journal, 2)), [0, 0, 0, 0]);
    let again = [withdrawn(&journal, 1), posted(&flat_of(5))].concat();
    assert_stands(&again, 5);
    assert_stands(&withdrawn(&again, 1), 3);
}

#[test]
fn both_curves_come_back_with_their_sheet() {
    let sheets = [
        with(100, flat_of(1)),
        flat_of(2),
        with(-7, low_rates(3, Some(20_000))),
        with(0, flat_of(3)),
    ];
    let journal: Vec<u8> = [turn(TOLD)]
        .into_iter()
        .chain(sheets.iter().map(posted))
        .flatten()
        .collect();
    for (times, sheet) in sheets.iter().rev().enumerate() {
        let journal = withdrawn(&journal, times);
        let alone = [turn(TOLD), posted(sheet)].concat();
        assert_eq!(page(&journal, PLAIN), page(&alone, PLAIN));
        for year in [1, 20, 21, 150] {
            assert_eq!(reply(&journal, PLAIN, year), reply(&alone, PLAIN, year));
        }
        if sheet.adjustment.is_some() {
            assert_eq!(page(&journal, ADJUSTED), page(&alone, ADJUSTED));
            assert_eq!(reply(&journal, ADJUSTED, 60), reply(&alone, ADJUSTED, 60));
        } else {
            assert_eq!(paged(LARGEST_AGE_LIMIT, &journal, ADJUSTED, PAGE), 14);
            assert_eq!(looked(LARGEST_AGE_LIMIT, &journal, ADJUSTED, 60, REPLY), 14);
        }
    }
}

#[test]
fn an_old_curve_comes_back_closed() {
    // Months 5 to 2 have ages 5 to 8.
    let journal = posts(5);
    for age_limit in (0..=9).chain(age_limits(&mut Random::new(71))) {
        for (times, age) in (5..=8).enumerate() {
            let journal = withdrawn(&journal, times);
            let expected = if age <= age_limit { 0 } else { 16 };
            assert_eq!(looked(age_limit, &journal, PLAIN, 20, REPLY), expected);
            assert_eq!(paged(age_limit, &journal, PLAIN, PAGE), expected);
            assert_eq!(answer_after(age_limit, &journal, &look_up(20)), expected);
            // A missing adjusted curve comes before an old one, and 16 before a short buffer.
            assert_eq!(looked(age_limit, &journal, ADJUSTED, 20, REPLY), 14);
            let short = if expected == 0 { 15 } else { 16 };
            assert_eq!(paged(age_limit, &journal, PLAIN, PAGE - 1), short);
            // Posts and withdrawals do not look at the limit.
            let left = if times < 3 { 0 } else { 18 };
            assert_eq!(answer_after(age_limit, &journal, &[0x57]), left);
            assert_eq!(answer_after(age_limit, &journal, &posted(&flat_of(1))), 6);
        }
    }
}

#[test]
fn what_is_refused_or_only_looks_does_not_change_the_depth() {
    // Its adjusted curve alone fails, in year 142.
    let narrow = Sheet {
        rates: [3_000; 17],
        limit: 636,
        ..zero_sheet(TOLD)
    };
    let refused = [
        post(&[]),
        posted(&flat_of(11)),
        posted(&flat_of(1)),
        posted(&with(100, narrow)),
        turn(9),
        turn(2_400),
        look_up(0),
    ];
    let only_looks = [look_up(1), turn(TOLD)];
    // The month that stands, and how many posts can be withdrawn.
    for (journal, month, left) in [
        (posts(4), 4, 3),
        (posts(2), 2, 2),
        (withdrawn(&posts(4), 2), 2, 1),
        (withdrawn(&posts(5), 3), 2, 0),
    ] {
        assert!(refused.iter().all(|call| answer(&journal, call) > 0));
        let more = [journal, refused.concat(), only_looks.concat()].concat();
        for times in 0..=4 {
            let more = withdrawn(&more, usize::from(times));
            assert_stands(&more, month - times.min(left));
            assert_eq!(one_more(&more), if times < left { 0 } else { 18 });
        }
    }
    // Nor do withdrawals that are refused take a later post's way back.
    let journal = [withdrawn(&turn(TOLD), 9), posted(&flat_of(1))].concat();
    assert_eq!(one_more(&journal), 0);
    assert_no_curve(&withdrawn(&journal, 1));
    assert_eq!(one_more(&withdrawn(&journal, 1)), 18);
}

// The record

#[test]
fn the_record_is_whole_with_its_kind_alone() {
    let journals = [(vec![], 18), (posts(2), 0), (withdrawn(&posts(2), 2), 18)];
    for (journal, expected) in journals {
        assert_eq!(answer(&journal, &[]), NO_RECORD);
        for behind in 0..=255 {
            assert_eq!(answer(&journal, &[0x57, behind]), expected);
            assert_eq!(answer(&journal, &[0x57, behind, 0x57, 0x00]), expected);
        }
        for age_limit in age_limits(&mut Random::new(72)) {
            assert_eq!(answer_after(age_limit, &journal, &[0x57]), expected);
        }
        for kind in [0x56, 0x58, 0x77, 0xD7] {
            assert_eq!(answer(&journal, &[kind, 0x57]), NO_RECORD);
        }
    }
}

#[test]
fn a_journal_goes_on_behind_a_withdrawal_until_it_breaks() {
    let journal = withdrawn(&posts(3), 1);
    let going_on = [&journal[..], &posted(&flat_of(9)), &[0x57, 0x57]].concat();
    assert_stands(&going_on, 1);
    // An unknown kind or a cut body ends it, and what stood before stays.
    let kinds = (0..=255).filter(|kind| ![0x50, 0x4D, 0x4C, 0x57].contains(kind));
    for junk in kinds.map(|kind| vec![kind]).chain([vec![0x50, 0xFF, 0xFF]]) {
        assert_stands(&[&journal[..], &junk].concat(), 2);
        assert_stands(&[&journal[..], &junk, &[0x57, 0x57]].concat(), 2);
        assert_eq!(one_more(&[&journal[..], &junk].concat()), 0);
    }
    for cut in [&[0x4D][..], &[0x4D, 0x57], &[0x4C], &[0x50], &[0x50, 0x57]] {
        assert_stands(&[&journal[..], cut].concat(), 2);
    }
    // As a part of a body it is no record.
    let bodies = [
        0x4C, 0x57, 0x50, 0x00, 0x01, 0x57, 0x50, 0x00, 0x02, 0x57, 0x57,
    ];
    assert_stands(&[&journal[..], &bodies].concat(), 2);
    assert_stands(&[&journal[..], &bodies, &[0x57]].concat(), 1);
}

#[test]
fn nothing_is_kept_between_two_questions() {
    let journal = posts(5);
    let expected = page(&withdrawn(&journal, 2), PLAIN);
    for _ in 0..6 {
        assert_eq!(one_more(&journal), 0);
        assert_stands(&journal, 5);
        assert_eq!(page(&withdrawn(&journal, 2), PLAIN), expected);
        assert_eq!(one_more(&withdrawn(&journal, 3)), 18);
        assert_eq!(one_more(&[]), 18);
    }
}

// Lists

#[test]
fn every_list_of_8_posts_and_withdrawals() {
    for list in 0..1 << 8 {
        // The months that stand, one behind another, and the depth.
        let (mut journal, mut months, mut depth) = (turn(TOLD), vec![0], 0);
        for step in 0..8 {
            let expected = if list >> step & 1 == 1 {
                months.push(step + 1);
                depth = (depth + 1).min(3);
                journal.extend(posted(&flat_of(step + 1)));
                continue;
            } else if depth > 0 {
                months.pop();
                depth -= 1;
                0
            } else {
                18
            };
            assert_eq!(one_more(&journal), expected, "list {list:b}");
            journal.push(0x57);
        }
        assert_stands(&journal, months[months.len() - 1]);
    }
}

// Beside the second implementation

/// A journal with posts and withdrawals behind them, once or twice; one in 4 ends where a steep
/// sheet stands again, in which years have no high rate.
fn any_journal(random: &mut Random) -> Vec<u8> {
    let (mut journal, mut told) = (Vec::new(), 0);
    for _ in 0..random.between(1, 2) {
        journal.extend(taken_back(random, &mut told));
    }
    if random.one_in(4) {
        journal.extend(posted(&with(-3, steep_sheet(random, told))));
        journal.extend(posted(&flat_of(told)));
        journal.extend(withdrawal());
    }
    journal
}

/// Questions of both curves and both amounts, values of lists, and the answers to records that go
/// by what stands.
fn questions(random: &mut Random) -> Vec<Question> {
    let mut questions = Vec::new();
    for which in Which::ALL {
        let named = page_kind(random, which);
        for length in [PAGE - 1, PAGE] {
            questions.push(Question::Page { named, length });
        }
        for wanted in Wanted::ALL {
            let named = kind(random, which, wanted);
            for (first, last) in [(1, 150), (9, 16)] {
                questions.push(Question::LookUp {
                    named,
                    year: random.between(first, last) as u64,
                    length: random.one_of(&[REPLY - 1, REPLY]),
                });
            }
        }
    }
    questions.extend(
        [VALUE_LENGTH - 1, VALUE_LENGTH].map(|length| Question::Value {
            numbers: numbers(random),
            length,
        }),
    );
    let month = random.below(8) as u16;
    let calls = [
        withdrawal(),
        post(&sheet_bytes(&flat_of(month))),
        look_up(10),
    ];
    questions.extend(calls.map(|call| Question::Answer { call }));
    questions
}

#[test]
fn seeded_journals_agree() {
    let mut random = Random::new(73);
    let (mut met, mut withdrawals) = (Met::default(), Withdrawals::default());
    for number in 0..120 {
        let journal = any_journal(&mut random);
        withdrawals.count_journal(&journal);
        let replayed = Case::replayed(LARGEST_AGE_LIMIT, &journal);
        let age = replayed.age().unwrap_or(0);
        for age_limit in [age.saturating_sub(1), age, LARGEST_AGE_LIMIT] {
            let case = replayed.under(age_limit);
            for question in questions(&mut random) {
                let answer = met.ask(&case, &question);
                assert!(answer.is_ok(), "journal {number}: {answer:?}");
            }
        }
    }
    println!("{met}\n{withdrawals}");
    let of_the_book = Kind::ALL.into_iter().filter(|kind| kind.asks_the_book());
    assert_eq!(met.check(&of_the_book.collect::<Vec<_>>()), Ok(()));
    for meeting in Meeting::ALL {
        assert!(withdrawals.of(meeting) > 10, "{meeting}");
    }
}
