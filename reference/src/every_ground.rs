//! A journal that meets every ground a record can meet, on a book with `AGE_LIMIT`. Its
//! answers are written by hand, after the specification's grounds and figures, and not worked.

use crate::journal::{look_up, post, turn, withdrawal};
use crate::market::{Market, MATURITIES};
use crate::profiled::in_market;
use crate::sheet::Sheet;
use crate::streams::{sheet_bytes, zero_sheet};

/// The age limit of the book that gives these answers.
pub const AGE_LIMIT: u64 = 3;

/// A record with the number and the place of its answer: 0 and 0 where it is accepted.
pub type Answered = (Vec<u8>, u8, u8);

/// The records in order.
pub fn records() -> Vec<Answered> {
    [
        taken_back_at_once(),
        desk_records(),
        dropped_records(),
        adjusted_records(),
        market_records(),
        aging_records(),
        withdrawal_records(),
        market_withdrawal_records(),
    ]
    .concat()
}

/// The records that meet every ground a desk's record without a profile can meet: all but 16, 18 and
/// 19. No curve in them gets older than two months, so `AGE_LIMIT` does not show.
pub fn desk_records() -> Vec<Answered> {
    [base_records(), rate_records()].concat()
}

/// The records that meet grounds 1 to 14. They leave month 2 told and the curve of month 1.
pub fn base_records() -> Vec<Answered> {
    let posted = |sheet: Sheet| post(&sheet_bytes(&sheet));
    let followed_by = |bytes: &[u8]| post(&[&sheet_bytes(&zero_sheet(0)), bytes].concat());
    vec![
        (look_up(150), 14, 0),
        (post(&[]), 1, 0),
        (followed_by(&[0x06]), 1, 0),
        (followed_by(&[0x06, 0x4E]), 1, 0),
        (followed_by(&[0x06, 0x4E, 0x20, 0]), 1, 0),
        (post(&[0; 109]), 2, 1),
        (post(&[0; 112]), 2, 1),
        (followed_by(&[0x07, 0x4E, 0x20]), 3, 26),
        (posted(with_rate(zero_sheet(0), 12, 12_001)), 3, 12),
        (posted(with_x(9_999)), 3, 26),
        (posted(with_x(20_001)), 3, 26),
        (posted(untraded()), 4, 0),
        (posted(zero_sheet(1)), 5, 0),
        (posted(fall()), 7, 10),
        (posted(flat(-2_000)), 8, 35),
        (posted(with_rate(flat(3_000), 12, 12_000)), 9, 12),
        // The widest band of flat 3% is 636, in year 150.
        (posted(flat_within(635)), 10, 150),
        (look_up(150), 14, 0),
        (turn(2_400), 11, 0),
        (posted(with_x(20_000)), 0, 0),
        (posted(flat_within(636)), 0, 0),
        // Every year of the zero sheet is U to U.
        (posted(zero_within(1)), 0, 0),
        (look_up(150), 0, 0),
        (turn(2), 0, 0),
        (turn(1), 12, 0),
        (posted(zero_sheet(1)), 0, 0),
        (posted(zero_within(1)), 6, 0),
        (posted(with_x(20_000)), 6, 0),
        (look_up(0), 13, 0),
        (look_up(151), 13, 0),
        (look_up(150), 0, 0),
    ]
}

/// What follows `base_records` and leaves the book as they do: years with rates and, next to
/// them, years without a high rate. Growth at 100,000 doubles each year without a rounding, so
/// that 17 says: the low times 2^year is below U.
fn rate_records() -> Vec<Answered> {
    let posted = |sheet: Sheet| post(&sheet_bytes(&sheet));
    vec![
        (posted(steep(0)), 0, 0),
        // Year 9 is U. Year 10 is U / 111,111, so its low is 9,000, and 1,024 times that is
        // far below U. From there each year is the one before / 1.11111.
        (look_up(1), 0, 0),
        (look_up(9), 0, 0),
        (look_up(10), 17, 0),
        (look_up(0), 13, 0),
        (look_up(151), 13, 0),
        // About 4,304 × 2^17 = 564 million and 3,874 × 2^18 = 1,015 million.
        (look_up(17), 17, 0),
        (look_up(18), 0, 0),
        (look_up(20), 0, 0),
        // From about 3,138 in year 20 not much is lost where forwards go to 0.
        (look_up(150), 0, 0),
        // Where they stay above ln 1.1, year 150 is below 3,139 / 1.1^130: its low is 0.
        (posted(steep(10_000)), 0, 0),
        (look_up(10), 17, 0),
        (look_up(20), 0, 0),
        (look_up(60), 0, 0),
        (look_up(150), 17, 0),
        // 976,562 × 1,024 = 999,999,488.
        (posted(just_too_steep()), 0, 0),
        (look_up(10), 17, 0),
        (look_up(9), 0, 0),
        // 976,563 × 1,024 = 1,000,000,512.
        (posted(just_not_too_steep()), 0, 0),
        (look_up(10), 0, 0),
        (look_up(9), 0, 0),
        // Other calls go on as ever, and another curve has rates again.
        (turn(1), 12, 0),
        (posted(zero_within(1)), 6, 0),
        (posted(steep(10_000)), 0, 0),
        (turn(2), 0, 0),
        (look_up(150), 17, 0),
        (posted(zero_sheet(1)), 0, 0),
        (look_up(10), 0, 0),
        (look_up(150), 0, 0),
    ]
}

/// What follows `base_records` or `desk_records` and leaves the book as they do: sheets on which
/// a volume of 0 drops a quote, and what is still tested of it.
pub fn dropped_records() -> Vec<Answered> {
    let posted = |sheet: Sheet| post(&sheet_bytes(&sheet));
    let steep_at = |maturity, volumes| {
        let sheet = with_rate(flat(3_000), maturity, 12_000);
        posted(with_volumes(sheet, volumes))
    };
    let lowest = |volumes| posted(with_volumes(flat(-2_000), volumes));
    vec![
        // From 3% no gap reaches 12%; a quote without volume need not be reached.
        (steep_at(25, [1, 1, 1, 1, 1]), 9, 25),
        (steep_at(25, [1, 0, 1, 1, 1]), 0, 0),
        (look_up(150), 0, 0),
        (steep_at(30, [1, 0, 1, 0, 0]), 9, 30),
        (steep_at(40, [1, 0, 0, 1, 1]), 9, 40),
        (steep_at(50, [1, 1, 1, 0, 1]), 9, 50),
        (steep_at(50, [0, 0, 0, 0, 1]), 9, 50),
        (steep_at(50, [1, 1, 1, 1, 0]), 0, 0),
        (steep_at(50, [1, 0, 0, 0, 0]), 0, 0),
        // Without volume 20 has no weight, but its quote is used.
        (steep_at(20, [0, 1, 1, 1, 1]), 9, 20),
        (steep_at(20, [0, 0, 0, 0, 1]), 9, 20),
        // 0.98^-35 is above 2, 0.98^-30 is not.
        (lowest([1, 0, 0, 0, 1]), 8, 35),
        (lowest([0, 0, 0, 1, 0]), 8, 35),
        (lowest([1, 0, 1, 0, 0]), 0, 0),
        (lowest([1, 0, 0, 0, 0]), 0, 0),
        (look_up(21), 0, 0),
        (posted(untraded()), 4, 0),
        (posted(with_rate(ends_at_20(), 25, 12_001)), 3, 15),
        (posted(with_rate(ends_at_20(), 50, -2_001)), 3, 18),
        (post(&with_byte(ends_at_20(), 55, 0x03)), 2, 15),
        (post(&with_byte(ends_at_20(), 68, 51)), 2, 18),
        (posted(ends_at_20()), 0, 0),
        (look_up(150), 0, 0),
        (posted(zero_sheet(1)), 0, 0),
    ]
}

/// What follows `base_records` or `dropped_records` and leaves the book as they do: tails of
/// sheets, and sheets that their adjusted curve alone turns down.
pub fn adjusted_records() -> Vec<Answered> {
    [
        tail_records(),
        adjusted_sheet_records(),
        adjusted_curve_records(),
    ]
    .concat()
}

/// Each last record and both, and tails that are wrong.
fn tail_records() -> Vec<Answered> {
    let followed_by = |tail: &[u8]| post(&[&sheet_bytes(&zero_sheet(1)), tail].concat());
    vec![
        (followed_by(&[0x07, 0x00, 0x00]), 0, 0),
        (look_up(150), 0, 0),
        // 500 and -500, 501 and -501.
        (followed_by(&[0x07, 0x01, 0xF4]), 0, 0),
        (followed_by(&[0x07, 0xFE, 0x0C]), 0, 0),
        (followed_by(&[0x07, 0x01, 0xF5]), 3, 26),
        (followed_by(&[0x07, 0xFE, 0x0B]), 3, 26),
        (followed_by(&[0x06, 0x27, 0x10, 0x07, 0x00, 0x00]), 0, 0),
        (followed_by(&[0x06, 0x27, 0x10, 0x07, 0x01, 0xF5]), 3, 27),
        (followed_by(&[0x06, 0x27, 0x0F, 0x07, 0x01, 0xF5]), 3, 26),
        (followed_by(&[0x06, 0x27, 0x0F, 0x07, 0x00, 0x00]), 3, 26),
        (followed_by(&[0x05, 0x00, 0x00]), 2, 26),
        (followed_by(&[0x08, 0x00, 0x00]), 2, 26),
        (followed_by(&[0x07, 0x00, 0x00, 0x06, 0x27, 0x10]), 2, 26),
        (followed_by(&[0x07, 0x00, 0x00, 0x07, 0x00, 0x00]), 2, 26),
        (followed_by(&[0x06, 0x27, 0x10, 0x06, 0x27, 0x10]), 2, 27),
        (followed_by(&[0x06, 0x00, 0x00, 0x08, 0x00, 0x00]), 2, 27),
        (followed_by(&[0x07]), 1, 0),
        (followed_by(&[0x07, 0x00]), 1, 0),
        (followed_by(&[0x07, 0x00, 0x00, 0x06]), 1, 0),
        (followed_by(&[0x06, 0x27, 0x10, 0x07, 0x00]), 1, 0),
        (
            followed_by(&[0x06, 0x27, 0x10, 0x07, 0x00, 0x00, 0x00]),
            1,
            0,
        ),
        (post(&[0; 115]), 2, 1),
        (look_up(150), 0, 0),
    ]
}

/// Grounds 4 to 9 with an adjustment, whatever it is.
fn adjusted_sheet_records() -> Vec<Answered> {
    let posted = |sheet: Sheet| post(&sheet_bytes(&adjusted(sheet, 500)));
    let of_month_1 = |sheet: Sheet| posted(with_volumes(sheet, [1; 5]));
    vec![
        (posted(untraded()), 4, 0),
        (posted(zero_sheet(3)), 5, 0),
        (posted(zero_sheet(0)), 6, 0),
        (of_month_1(fall()), 7, 10),
        (of_month_1(flat(-2_000)), 8, 35),
        (of_month_1(with_rate(flat(3_000), 12, 12_000)), 9, 12),
    ]
}

/// Grounds 8 and 10 on either curve. The widest band of flat 3% is 636, in year 150. The steps of an
/// adjustment of 100 widen the bands: then it is 672, in year 150, and year 142 is the first above
/// 636. Those of 0 round nothing, so that the adjusted curve is the plain one.
fn adjusted_curve_records() -> Vec<Answered> {
    let posted = |sheet: Sheet| post(&sheet_bytes(&sheet));
    let within = |limit, adjustment| {
        let sheet = with_volumes(flat_within(limit), [1; 5]);
        posted(adjusted(sheet, adjustment))
    };
    let exact = Sheet {
        limit: 1,
        ..adjusted(zero_sheet(1), 0)
    };
    let near_2_u = |adjustment| adjusted(rising_beyond_20(), adjustment);
    let narrow = Sheet {
        limit: 1,
        ..near_2_u(-500)
    };
    vec![
        (within(635, 100), 10, 150),
        (within(636, 100), 10, 142),
        (within(671, 100), 10, 150),
        (within(672, 100), 0, 0),
        (within(635, 0), 10, 150),
        (within(636, 0), 0, 0),
        (posted(exact), 0, 0),
        (look_up(150), 0, 0),
        // Year 20 is 0.981^-20 U, about 1.4676 U, the forward of 15-20 about -0.01918. With -500
        // that is 1.4676 U × e^0.1, and 21 years on × e^(0.02418 × 10 × (1 - e^-2.1)): 2.0054 U.
        (posted(rising_beyond_20()), 0, 0),
        (look_up(41), 0, 0),
        (posted(near_2_u(-500)), 8, 41),
        (posted(near_2_u(500)), 0, 0),
        // The plain curve comes first.
        (posted(narrow), 10, 11),
        (look_up(41), 0, 0),
        (posted(zero_sheet(1)), 0, 0),
    ]
}

/// What follows `base_records` or `adjusted_records` and leaves the book as they do: sheets with a
/// profile record, and what is refused of them.
pub fn market_records() -> Vec<Answered> {
    [
        profile_records(),
        market_tail_records(),
        market_sheet_records(),
        market_curve_records(),
        vec![(post(&sheet_bytes(&zero_sheet(1))), 0, 0)],
    ]
    .concat()
}

/// The profile record itself: each profile, unknown ones, and the length that each one has.
fn profile_records() -> Vec<Answered> {
    let zero = |market| sheet_bytes(&in_market(&zero_sheet(1), market));
    let behind = |start: &[u8], market| post(&[start, &zero(market)[2..]].concat());
    vec![
        (post(&zero(Market::EURO)), 0, 0),
        (look_up(150), 0, 0),
        (post(&zero(Market::TO_10)), 0, 0),
        (look_up(150), 0, 0),
        (post(&zero(Market::TO_15)), 0, 0),
        (look_up(150), 0, 0),
        // A lone kind byte names nothing.
        (post(&[0x08]), 1, 0),
        (post(&[0x08, 0x00]), 19, 0),
        (post(&[0x08, 0x04]), 19, 0),
        (post(&[0x08, 0x01]), 1, 0),
        (post(&[0x08, 0x02]), 1, 0),
        (post(&[0x08, 0x03]), 1, 0),
        (behind(&[0x08, 0x00], Market::EURO), 19, 0),
        (behind(&[0x08, 0x04], Market::TO_10), 19, 0),
        (behind(&[0x08, 0xFF], Market::TO_15), 19, 0),
        // Whatever the length, and whatever else is wrong.
        (behind(&[0x08, 0x00, 0x00], Market::TO_15), 19, 0),
        (post(&with_byte(zero_sheet(1), 0, 0x08)), 19, 0),
        // Another profile's sheet has another length.
        (behind(&[0x08, 0x03], Market::TO_10), 1, 0),
        (behind(&[0x08, 0x02], Market::TO_15), 1, 0),
        (behind(&[0x08, 0x01], Market::TO_15), 1, 0),
        (behind(&[0x08, 0x02], Market::EURO), 1, 0),
        // The smaller markets need their record, and none has it twice.
        (behind(&[], Market::TO_10), 1, 0),
        (behind(&[], Market::TO_15), 1, 0),
        (behind(&[0x08, 0x02, 0x08, 0x02], Market::TO_10), 1, 0),
        (behind(&[0x08, 0x01, 0x08, 0x01], Market::EURO), 1, 0),
        (look_up(150), 0, 0),
    ]
}

/// Last records. An adjustment goes with the euro alone: elsewhere an X is due in its place.
fn market_tail_records() -> Vec<Answered> {
    let zero = |market| sheet_bytes(&in_market(&zero_sheet(1), market));
    let followed_by = |market, tail: &[u8]| post(&[&zero(market), tail].concat());
    let (euro, to_10, to_15) = (Market::EURO, Market::TO_10, Market::TO_15);
    let (x, adjustment) = ([0x06, 0x4E, 0x20], [0x07, 0x00, 0x00]);
    let both = [x, adjustment].concat();
    vec![
        (followed_by(euro, &x), 0, 0),
        (followed_by(euro, &adjustment), 0, 0),
        (followed_by(euro, &both), 0, 0),
        (followed_by(to_10, &x), 0, 0),
        (followed_by(to_15, &x), 0, 0),
        (followed_by(to_10, &adjustment), 2, 16),
        (followed_by(to_15, &adjustment), 2, 18),
        (followed_by(to_10, &both), 1, 0),
        (followed_by(to_15, &both), 1, 0),
        // Places count the profile record.
        (followed_by(euro, &[0x05, 0x4E, 0x20]), 2, 27),
        (followed_by(to_10, &[0x05, 0x4E, 0x20]), 2, 16),
        (followed_by(to_15, &[0x08, 0x4E, 0x20]), 2, 18),
        (followed_by(euro, &[x, x].concat()), 2, 28),
        (followed_by(euro, &[0x06, 0x4E, 0x21]), 3, 27),
        (followed_by(euro, &[0x07, 0x01, 0xF5]), 3, 27),
        (followed_by(to_10, &[0x06, 0x4E, 0x21]), 3, 16),
        (followed_by(to_15, &[0x06, 0x27, 0x0F]), 3, 18),
        (
            followed_by(euro, &[&x[..], &[0x07, 0xFE, 0x0B]].concat()),
            3,
            28,
        ),
        (followed_by(euro, &[0x07]), 1, 0),
        (followed_by(to_10, &[0x06, 0x4E]), 1, 0),
        (followed_by(to_15, &[0x06, 0x4E, 0x20, 0x00]), 1, 0),
        (look_up(150), 0, 0),
    ]
}

/// Grounds 2 to 6 with a profile record.
fn market_sheet_records() -> Vec<Answered> {
    let posted = |sheet: Sheet, market| post(&sheet_bytes(&in_market(&sheet, market)));
    let wrong = |market, at| post(&with_byte(in_market(&zero_sheet(1), market), at, 0x2A));
    let with_volume = |volume| with_volumes(zero_sheet(1), [volume; 5]);
    let (euro, to_10, to_15) = (Market::EURO, Market::TO_10, Market::TO_15);
    vec![
        // The month's kind; the last quote's maturity; the volume's, the rate's and the limit's kind.
        (wrong(euro, 2), 2, 2),
        (wrong(to_10, 2), 2, 2),
        (wrong(to_10, 42), 2, 12),
        (wrong(to_15, 50), 2, 14),
        (wrong(to_10, 45), 2, 13),
        (wrong(to_15, 53), 2, 15),
        (wrong(to_10, 51), 2, 14),
        (wrong(to_15, 62), 2, 17),
        (posted(zero_sheet(2_400), to_10), 3, 2),
        (posted(with_rate(zero_sheet(1), 10, 12_001), to_10), 3, 12),
        (posted(with_rate(zero_sheet(1), 15, -2_001), to_15), 3, 14),
        (posted(with_rate(zero_sheet(1), 50, -2_001), euro), 3, 19),
        (posted(with_volume(1_000_001), to_10), 3, 13),
        (posted(with_volume(1_000_001), to_15), 3, 15),
        (posted(with_volume(1_000_001), euro), 3, 20),
        (posted(with_volume(0), to_10), 4, 0),
        (posted(with_volume(0), to_15), 4, 0),
        (posted(with_volume(0), euro), 4, 0),
        (posted(zero_sheet(3), to_10), 5, 0),
        (posted(zero_sheet(3), to_15), 5, 0),
        (posted(zero_sheet(0), to_10), 6, 0),
        (posted(zero_sheet(0), to_15), 6, 0),
        (look_up(150), 0, 0),
    ]
}

/// Grounds 7 to 10 in the smaller markets.
fn market_curve_records() -> Vec<Answered> {
    let of_month_1 = |sheet: Sheet, market| {
        let sheet = with_volumes(sheet, [1; 5]);
        post(&sheet_bytes(&in_market(&sheet, market)))
    };
    let tenth = |rate| of_month_1(with_rate(flat(3_000), 10, rate), Market::TO_10);
    let (to_10, to_15) = (Market::TO_10, Market::TO_15);
    vec![
        (of_month_1(fall(), to_10), 7, 10),
        (of_month_1(fall(), to_15), 7, 10),
        // Year 10 is U and year 9 about 0.9143 U: the forward is about -0.0896, and factors pass 2 U
        // where 0.896 × (1 - e^(-h/10)) passes ln 2, past h = 14.
        (of_month_1(with_rate(flat(1_000), 10, 0), to_10), 8, 25),
        // Year 12 is about 0.8874 U and year 15 about 1.1115 U, three years of a forward of -0.0750,
        // and ln (2 / 1.1115) is 0.5874: past h = 15.
        (of_month_1(with_rate(flat(1_000), 15, -770), to_15), 8, 31),
        // x is about 1.0800, 1.1021 and 0.7589.
        (tenth(2_000), 0, 0),
        (look_up(11), 0, 0),
        (tenth(1_800), 9, 10),
        (tenth(5_000), 9, 10),
        (of_month_1(with_rate(flat(3_000), 12, 12_000), to_15), 9, 12),
        (of_month_1(with_rate(flat(3_000), 15, 12_000), to_15), 9, 15),
        // What they do not quote is not missed.
        (of_month_1(with_rate(flat(3_000), 15, 12_000), to_10), 0, 0),
        (of_month_1(with_rate(flat(3_000), 20, 12_000), to_15), 0, 0),
        (of_month_1(flat(-2_000), to_10), 0, 0),
        (of_month_1(flat(-2_000), to_15), 0, 0),
        // Every year of these is U to U.
        (of_month_1(zero_within(1), to_10), 0, 0),
        (look_up(150), 0, 0),
        (of_month_1(zero_within(1), to_15), 0, 0),
        (look_up(150), 0, 0),
        // Year 10 of flat 3% is 744,093,914 to 744,093,916.
        (of_month_1(flat_within(1), to_10), 10, 10),
        (of_month_1(flat_within(1), to_15), 10, 10),
        // The widest bands of flat 3% are 854 and 722, in year 150.
        (of_month_1(flat_within(853), to_10), 10, 150),
        (of_month_1(flat_within(854), to_10), 0, 0),
        (of_month_1(flat_within(721), to_15), 10, 150),
        (of_month_1(flat_within(722), to_15), 0, 0),
    ]
}

/// What follows `withdrawal_records`, which leave month 10 told and a curve of it: from one market
/// back to another.
fn market_withdrawal_records() -> Vec<Answered> {
    let posted = |market| post(&sheet_bytes(&in_market(&zero_sheet(10), market)));
    vec![
        (posted(Market::TO_10), 0, 0),
        (posted(Market::TO_15), 0, 0),
        (withdrawal(), 0, 0),
        (look_up(150), 0, 0),
        (withdrawal(), 0, 0),
        (look_up(150), 0, 0),
    ]
}

/// What follows `desk_records`, which leave month 2 told and the curve of month 1: curves at
/// the limit and one month past it, and what closes and opens the book.
fn aging_records() -> Vec<Answered> {
    let posted = |sheet: Sheet| post(&sheet_bytes(&sheet));
    vec![
        (turn(4), 0, 0),
        (look_up(150), 0, 0),
        (turn(5), 0, 0),
        (look_up(150), 16, 0),
        (look_up(1), 16, 0),
        (look_up(0), 13, 0),
        (look_up(151), 13, 0),
        // The book still holds that curve. Neither refused calls nor a sheet as old open it.
        (posted(zero_within(1)), 6, 0),
        (turn(4), 12, 0),
        (look_up(150), 16, 0),
        (posted(zero_sheet(1)), 0, 0),
        (look_up(150), 16, 0),
        (posted(zero_sheet(2)), 0, 0),
        (look_up(150), 0, 0),
        (turn(6), 0, 0),
        (look_up(150), 16, 0),
        (posted(zero_sheet(1)), 6, 0),
        (posted(zero_sheet(6)), 0, 0),
        (look_up(150), 0, 0),
        // Age comes before rates: a year without a high rate is 17 only while it is shown.
        (posted(steep_of_month(6)), 0, 0),
        (look_up(10), 17, 0),
        (turn(9), 0, 0),
        (look_up(10), 17, 0),
        (look_up(9), 0, 0),
        (turn(10), 0, 0),
        (look_up(10), 16, 0),
        (look_up(9), 16, 0),
        (look_up(151), 13, 0),
        (posted(zero_sheet(10)), 0, 0),
        (look_up(150), 0, 0),
    ]
}

/// What leaves a fresh book as it is: a post is withdrawn, and nothing is left to withdraw.
fn taken_back_at_once() -> Vec<Answered> {
    vec![
        (withdrawal(), 18, 0),
        (post(&sheet_bytes(&zero_sheet(0))), 0, 0),
        (look_up(150), 0, 0),
        (withdrawal(), 0, 0),
        (look_up(150), 14, 0),
        (withdrawal(), 18, 0),
    ]
}

/// What follows `aging_records`, which leave month 10 told. Their last four accepted posts are of
/// months 2, 6, 6 and 10, the second of month 6 a steep one, and only three can be withdrawn.
fn withdrawal_records() -> Vec<Answered> {
    let posted = |sheet: Sheet| post(&sheet_bytes(&sheet));
    vec![
        (withdrawal(), 0, 0),
        (look_up(150), 16, 0),
        (look_up(151), 13, 0),
        // What stands is of month 6, so that a month before the withdrawn one is accepted, and the
        // book is three deep again.
        (posted(zero_sheet(5)), 6, 0),
        (posted(steep_of_month(9)), 0, 0),
        (look_up(150), 0, 0),
        (look_up(10), 17, 0),
        (withdrawal(), 0, 0),
        (withdrawal(), 0, 0),
        (look_up(10), 16, 0),
        (withdrawal(), 0, 0),
        (look_up(10), 16, 0),
        // The sheet of month 2 stands, and the way back from it is forgotten.
        (withdrawal(), 18, 0),
        (posted(zero_sheet(1)), 6, 0),
        (withdrawal(), 18, 0),
        (posted(zero_sheet(2)), 0, 0),
        (withdrawal(), 0, 0),
        (withdrawal(), 18, 0),
        // The told month remains.
        (turn(9), 12, 0),
        (posted(zero_sheet(11)), 5, 0),
        (posted(zero_sheet(10)), 0, 0),
        (look_up(10), 0, 0),
    ]
}

fn zero_within(limit: u32) -> Sheet {
    Sheet {
        limit,
        ..zero_sheet(0)
    }
}

fn flat_within(limit: u32) -> Sheet {
    Sheet {
        limit,
        ..flat(3_000)
    }
}

fn with_x(x: u16) -> Sheet {
    Sheet {
        phase_in: Some(x),
        ..zero_sheet(0)
    }
}

fn adjusted(sheet: Sheet, adjustment: i16) -> Sheet {
    Sheet {
        adjustment: Some(adjustment),
        ..sheet
    }
}

fn untraded() -> Sheet {
    Sheet {
        volumes: [0; 5],
        ..zero_sheet(0)
    }
}

fn flat(rate: i16) -> Sheet {
    Sheet {
        rates: [rate; 17],
        ..zero_sheet(0)
    }
}

/// The sheet with these volumes, of month 1.
fn with_volumes(sheet: Sheet, volumes: [u32; 5]) -> Sheet {
    Sheet {
        month: 1,
        volumes,
        ..sheet
    }
}

/// A sheet of month 1 with rates of -1.9% to 20 years and rising ones beyond, in which the forward
/// of 15-20 has nearly all of the weight: its plain curve stays below 1.8 U.
fn rising_beyond_20() -> Sheet {
    let later = [(25, -1_750), (30, -1_600), (40, -1_400), (50, -1_300)];
    let sheet = later
        .into_iter()
        .fold(flat(-1_900), |sheet, (maturity, rate)| {
            with_rate(sheet, maturity, rate)
        });
    with_volumes(sheet, [1_000_000, 1, 1, 1, 1])
}

/// A sheet of month 1 whose quotes past 20 are all dropped.
fn ends_at_20() -> Sheet {
    with_volumes(zero_sheet(0), [1, 0, 0, 0, 0])
}

/// The sheet's bytes with another one in one place. The quote of maturity 25 has its kind at
/// 55, that of 50 its maturity at 68.
fn with_byte(sheet: Sheet, at: usize, byte: u8) -> Vec<u8> {
    let mut bytes = sheet_bytes(&sheet);
    bytes[at] = byte;
    bytes
}

/// Factors that rise for nine years and fall below 0 in the tenth.
fn fall() -> Sheet {
    let mut sheet = with_rate(zero_sheet(0), 10, 12_000);
    sheet.rates[..9].fill(-2_000);
    sheet
}

/// The sheet of month 1 that has 11,111 from maturity 10 on. Year 10 by par is
/// (100,000 × U - 11,111 × 9 × U) / 111,111.
fn steep(ufr: u16) -> Sheet {
    let sheet = with_rates_from(zero_sheet(1), 10, 11_111);
    Sheet { ufr, ..sheet }
}

fn steep_of_month(month: u16) -> Sheet {
    Sheet { month, ..steep(0) }
}

/// Years 1 to 7 are U, year 8 has the low 1,001,040,135, year 9 the low 867,154,445 and year
/// 10 the low 976,562, each with a high one above.
fn just_too_steep() -> Sheet {
    let sheet = with_rate(with_rate(zero_sheet(1), 8, -13), 9, 1_498);
    with_rates_from(sheet, 10, 11_264)
}

/// Years 1 to 7 are U, year 8 is 999,840,003 to 999,840,004, year 9 is 903,135,625 to
/// 903,135,626, year 10 is 976,563 to 976,565.
fn just_not_too_steep() -> Sheet {
    let sheet = with_rate(with_rate(zero_sheet(1), 8, 2), 9, 1_088);
    with_rates_from(sheet, 10, 11_220)
}

/// The sheet with this rate for `maturity` and all later ones.
fn with_rates_from(sheet: Sheet, maturity: u8, rate: i16) -> Sheet {
    let later = MATURITIES.into_iter().filter(|&m| m >= maturity);
    later.fold(sheet, |sheet, maturity| with_rate(sheet, maturity, rate))
}

fn with_rate(mut sheet: Sheet, maturity: u8, rate: i16) -> Sheet {
    let quoted = MATURITIES.iter().position(|&m| m == maturity);
    sheet.rates[quoted.expect("a quoted maturity")] = rate;
    sheet
}
