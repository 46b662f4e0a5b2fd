//! Quotes of maturities that nobody trades: a volume of 0 at 25, 30, 40 or 50 drops the quote,
//! the gap runs on, and nothing past the last used quote is worked. At 20 it drops the weight.

mod common;
mod model;

use common::{flat, zero, Numbers};
use model::Model;
use reference::counts::answered_posts;
use reference::curve::{Curve, Which};
use reference::dropped::{dropped_sheet, typed_dropped_sheet, DroppedPosts, MERGED_GAPS};
use reference::enclosure::{Enclosure, U};
use reference::extrapolation::last_liquid_forward;
use reference::forwards::YearForwards;
use reference::market::Market;
use reference::questions::journal;
use reference::refusal::Refusal;
use reference::sheet::Sheet;
use reference::streams::{sheet, steep_sheet, stream, worked, Random};
use reference::true_curve::check;

/// The maturities that a volume of 0 drops, with the index of their quote and of their volume.
const DROPPABLE: [(u8, usize, usize); 4] = [(25, 13, 1), (30, 14, 2), (40, 15, 3), (50, 16, 4)];

/// Rates of every maturity that rise to 2.59%.
const RISING: [i16; 17] = [
    500, 700, 900, 1_100, 1_300, 1_500, 1_700, 1_850, 2_000, 2_100, 2_250, 2_400, 2_500, 2_550,
    2_580, 2_590, 2_580,
];

fn with_volumes(rates: [i16; 17], volumes: [u32; 5]) -> Numbers {
    Numbers {
        rates,
        volumes,
        ufr: 345,
        ..zero()
    }
}

fn all_at(rate: i16, volumes: [u32; 5]) -> Numbers {
    with_volumes([rate; 17], volumes)
}

fn answer(numbers: &Numbers) -> Result<Curve, (u8, u16)> {
    let ground = |refusal: Refusal| (refusal.number, refusal.place);
    let sheet = Sheet::read(&numbers.bytes()).map_err(ground)?;
    Curve::plain(&sheet).map_err(ground)
}

fn refused(numbers: &Numbers, number: u8, place: u16) {
    assert_eq!(answer(numbers).unwrap_err(), (number, place));
}

fn accepted(numbers: &Numbers) -> Curve {
    answer(numbers).expect("an accepted sheet")
}

fn has_factor(numbers: &Numbers, year: usize, low: i128, high: i128) {
    assert_eq!(accepted(numbers).factor(year), Enclosure::new(low, high));
}

/// Volumes of 1 where the pattern has a bit, 20's the lowest.
fn pattern(bits: usize) -> [u32; 5] {
    std::array::from_fn(|i| (bits >> i & 1) as u32)
}

/// The maturities beyond 20 that have volume.
fn traded(volumes: &[u32; 5]) -> Vec<u8> {
    let traded = |(maturity, _, i): (u8, usize, usize)| (volumes[i] > 0).then_some(maturity);
    DROPPABLE.into_iter().filter_map(traded).collect()
}

// Figures

#[test]
fn figures_of_rising_rates() {
    let of = |volumes| with_volumes(RISING, volumes);
    has_factor(&of([1, 0, 0, 0, 1]), 21, 584_050_196, 584_050_213);
    has_factor(&of([1, 0, 1, 0, 0]), 21, 583_661_829, 583_661_847);
    has_factor(&of([1, 0, 0, 0, 0]), 21, 583_457_516, 583_457_533);
    has_factor(&of([1, 0, 0, 0, 1]), 150, 301_117_935, 301_118_796);
}

#[test]
fn figures_of_rates_below_zero() {
    let sheet = all_at(-500, [1, 0, 0, 0, 1]);
    has_factor(&sheet, 20, 1_105_448_169, 1_105_448_171);
    has_factor(&sheet, 150, 768_808_537, 768_810_555);
}

#[test]
fn figures_of_a_quote_that_cannot_be_used() {
    let sheet = |volumes| all_at(3_000, volumes).with_rate(25, 12_000);
    refused(&sheet([1; 5]), 9, 25);
    has_factor(&sheet([1, 0, 1, 1, 1]), 150, 272_517_314, 272_518_113);
}

// The rule from before

/// A sheet with volumes above 0 beyond 20, any volume at 20, and rates of every sort.
fn all_used(random: &mut Random) -> Sheet {
    let mut sheet = match random.below(3) {
        0 => dropped_sheet(random, 0),
        1 => steep_sheet(random, 0),
        _ => sheet(random, 0),
    };
    for volume in &mut sheet.volumes[1..] {
        *volume = random.between(1, 1_000_000) as u32;
    }
    sheet.volumes[0] = random.between(0, 2) as u32;
    sheet
}

/// Whether both say the same, in all 150 years where they accept.
fn assert_same(sheet: &Sheet, model: Result<Model, model::Ground>) -> bool {
    let found = Curve::plain(sheet).map_err(|refusal| (refusal.number, refusal.place));
    let found = found.map(|curve| {
        let factors = (1..=150).map(|year| curve.factor(year));
        let (lows, highs) = factors.map(|factor| (factor.low, factor.high)).unzip();
        Model { lows, highs }
    });
    assert_eq!(found, model, "{sheet:?}");
    found.is_ok()
}

#[test]
fn without_zeros_beyond_20_the_curve_is_that_of_the_earlier_rule() {
    let mut random = Random::new(501);
    let mut counts = [[0; 2]; 2];
    for _ in 0..1_500 {
        let sheet = all_used(&mut random);
        let accepted = assert_same(&sheet, Model::of_all_quotes(&sheet));
        counts[usize::from(sheet.volumes[0] == 0)][usize::from(accepted)] += 1;
    }
    assert!(counts.as_flattened().iter().all(|&n| n > 50), "{counts:?}");
}

#[test]
fn with_zeros_it_is_the_earlier_formula_on_the_gaps_that_run_on() {
    let mut random = Random::new(502);
    let mut counts = [0; 11];
    for _ in 0..3_000 {
        let sheet = dropped_sheet(&mut random, 0);
        let model = Model::over(&sheet, &traded(&sheet.volumes));
        let number = model.as_ref().err().map_or(0, |ground| ground.0);
        assert_same(&sheet, model);
        counts[usize::from(number)] += 1;
    }
    assert!(counts[0] > 1_000, "{counts:?}");
    assert!(counts[7..].iter().all(|&n| n > 10), "{counts:?}");
}

#[test]
fn a_volume_of_0_at_20_drops_its_weight_alone() {
    // The quote's factor stays, whatever the volume, and so does the gap from 15 to it.
    let sheet = |volumes| with_volumes(RISING, volumes);
    let (with, without) = (sheet([1; 5]), sheet([0, 1, 1, 1, 1]));
    for year in 1..=20 {
        assert_eq!(
            accepted(&with).factor(year),
            accepted(&without).factor(year)
        );
    }
    assert_ne!(accepted(&with).factor(21), accepted(&without).factor(21));
    for volume in [0, 1] {
        let rates = all_at(3_000, [volume, 0, 0, 0, 1]).with_rate(20, 12_000);
        refused(&rates, 9, 20);
    }
}

#[test]
fn each_year_of_a_merged_gap_has_its_forward() {
    let forwards = |gaps: &[(usize, i128)]| {
        let mut years = YearForwards::new(Market::EURO);
        for &(gap_years, forward) in gaps {
            years.push_years(gap_years, Enclosure::new(forward, forward + 1));
        }
        years
    };
    let mean = |volumes: [u32; 5], gaps: &[(usize, i128)]| {
        last_liquid_forward(Market::EURO, &volumes, &forwards(gaps))
    };
    let (g1, g, h) = ((5, 1_000), (20, 60), (10, 900));
    assert_eq!(
        mean([0, 0, 0, 0, 7], &[g1, (30, 61)]),
        Enclosure::new(61, 62)
    );
    assert_eq!(mean([3, 0, 0, 0, 0], &[g1]), Enclosure::new(1_000, 1_001));
    assert_eq!(mean([0, 0, 0, 5, 0], &[g1, g]), Enclosure::new(60, 61));
    // (20 × 60 + 10 × 900) / 30 = 340
    assert_eq!(mean([0, 0, 0, 0, 1], &[g1, g, h]), Enclosure::new(340, 341));
    // (1,000 + 60 + 340) / 3 = 466.7, and one more for the highs
    assert_eq!(mean([1, 0, 0, 1, 1], &[g1, g, h]), Enclosure::new(466, 468));
}

// The dropped quote itself

#[test]
fn the_rate_of_a_dropped_quote_changes_nothing() {
    let mut random = Random::new(503);
    let mut counts = [0; 2];
    for _ in 0..200 {
        let sheet = dropped_sheet(&mut random, 0);
        let found = Curve::plain(&sheet);
        counts[usize::from(found.is_ok())] += 1;
        for (_, quote, volume) in DROPPABLE {
            if sheet.volumes[volume] > 0 {
                continue;
            }
            for rate in [-2_000, -1, 0, 12_000, random.between(-2_000, 12_000) as i16] {
                let mut other = sheet.clone();
                other.rates[quote] = rate;
                assert_eq!(Curve::plain(&other), found, "{other:?}");
            }
        }
    }
    assert!(counts.iter().all(|&n| n > 30), "{counts:?}");
}

#[test]
fn the_rate_of_a_used_quote_changes_the_curve() {
    for (maturity, _, volume) in DROPPABLE {
        let mut volumes = [1, 0, 0, 0, 0];
        volumes[volume] = 1;
        let (one, other) = (all_at(3_000, volumes), all_at(3_000, volumes));
        let other = accepted(&other.with_rate(maturity, 3_010));
        assert_ne!(accepted(&one).factor(21), other.factor(21));
    }
}

#[test]
fn a_dropped_quote_is_tested_under_2_and_3() {
    for bits in 1..32 {
        let sheet = with_volumes(RISING, pattern(bits));
        for (maturity, quote, volume) in DROPPABLE {
            let (record, offset) = (2 + quote as u16, 3 + 4 * quote);
            for rate in [-2_001, 12_001, i16::MIN, i16::MAX] {
                refused(&sheet.clone().with_rate(maturity, rate), 3, record);
            }
            let altered = |offset: usize, byte| {
                let mut bytes = sheet.bytes();
                bytes[offset] = byte;
                Sheet::read(&bytes).map_err(|r| (r.number, r.place))
            };
            for byte in [0, 20, maturity - 1, maturity + 1, 255] {
                assert_eq!(altered(offset + 1, byte), Err((2, record)));
            }
            for byte in [0, 1, 3, 4, 255] {
                assert_eq!(altered(offset, byte), Err((2, record)));
            }
            assert_eq!(
                altered(71 + 6 * volume + 1, 20),
                Err((2, 19 + volume as u16))
            );
        }
    }
}

#[test]
fn all_five_at_0_is_4_whatever_the_rates() {
    for rates in [RISING, [-2_000; 17], [12_000; 17], [0; 17]] {
        refused(&with_volumes(rates, [0; 5]), 4, 0);
    }
    refused(&all_at(0, [0; 5]).with_rate(50, 12_001), 3, 18);
    for bits in 1..32 {
        accepted(&with_volumes(RISING, pattern(bits)));
    }
}

// Grounds 7 to 9

#[test]
fn ground_9_names_the_used_maturity_at_which_the_gap_ends() {
    refused(&all_at(3_000, [1, 1, 1, 0, 1]).with_rate(50, 12_000), 9, 50);
    for bits in 1..32 {
        let volumes = pattern(bits);
        for (maturity, _, volume) in DROPPABLE {
            // From 3% no gap of any length reaches a quote of 12%.
            let sheet = all_at(3_000, volumes).with_rate(maturity, 12_000);
            if volumes[volume] > 0 {
                refused(&sheet, 9, maturity.into());
            } else {
                accepted(&sheet);
            }
        }
    }
}

#[test]
fn ground_9_at_the_upper_end_of_the_halving() {
    // In ten years a factor cannot rise from 0.31 to 1.3, in twenty it can.
    let sheet = |volumes| all_at(6_000, volumes);
    refused(&sheet([1, 0, 1, 0, 0]).with_rate(30, -2_000), 9, 30);
    refused(&sheet([1, 0, 1, 0, 1]).with_rate(30, -2_000), 9, 30);
    accepted(&sheet([1, 0, 0, 1, 0]).with_rate(40, -2_000));
    accepted(&sheet([1, 0, 0, 0, 1]).with_rate(50, -2_000));
}

#[test]
fn ground_8_ends_with_the_last_used_quote() {
    // Year 34 is the last below 2 U.
    for bits in 1..32 {
        let volumes = pattern(bits);
        let sheet = all_at(-2_000, volumes);
        if volumes[3] + volumes[4] > 0 {
            refused(&sheet, 8, 35);
        } else {
            accepted(&sheet);
        }
    }
}

/// The sheet without volume at the maturities from `maturity` on.
fn ended_before(sheet: &Sheet, maturity: u8) -> Sheet {
    let mut ended = sheet.clone();
    for (_, _, volume) in DROPPABLE.into_iter().filter(|&(m, _, _)| m >= maturity) {
        ended.volumes[volume] = 0;
    }
    ended.volumes[0] = ended.volumes[0].max(1);
    ended
}

#[test]
fn grounds_7_and_9_end_with_the_last_used_quote() {
    let mut random = Random::new(504);
    let mut counts = [0; 10];
    for _ in 0..3_000 {
        let sheet = dropped_sheet(&mut random, 0);
        let Err(
            refusal @ Refusal {
                number: 7 | 9,
                place: 21..,
            },
        ) = Curve::plain(&sheet)
        else {
            continue;
        };
        counts[usize::from(refusal.number)] += 1;
        // The quote that ends the gap of this year; a gap's 9 names the quote itself.
        let used = traded(&sheet.volumes);
        let end = *used
            .iter()
            .find(|&&m| u16::from(m) >= refusal.place)
            .unwrap();
        assert!(
            refusal.number == 7 || refusal.place == end.into(),
            "{sheet:?}"
        );
        // Later quotes do not matter; without this one, nothing is wrong with the quotes.
        assert_eq!(Curve::plain(&ended_before(&sheet, end + 1)), Err(refusal));
        if let Err(other) = Curve::plain(&ended_before(&sheet, end)) {
            assert!([8, 10].contains(&other.number), "{other:?}, {sheet:?}");
        }
    }
    assert!(counts[7] > 10 && counts[9] > 100, "{counts:?}");
}

// The true curve

/// Sheets of a pattern whose dropped quotes are far from the others.
fn sheets_of(bits: usize) -> [Numbers; 2] {
    let volumes = pattern(bits).map(|v| v * (1 + bits as u32 * 7 % 11));
    let shapes = [RISING, [-600; 17], [4_000; 17], RISING.map(|r| 2_000 - r)];
    [0, 1].map(|i| {
        let mut sheet = with_volumes(shapes[(bits + i) % 4], volumes);
        for (j, (_, quote, volume)) in DROPPABLE.into_iter().enumerate() {
            if volumes[volume] == 0 {
                sheet.rates[quote] = [12_000, -2_000][(bits + j) % 2];
            } else {
                sheet.rates[quote] += 40 * j as i16;
            }
        }
        sheet
    })
}

fn assert_holds(numbers: &Numbers, order: usize) {
    let sheet = Sheet::read(&numbers.bytes()).unwrap();
    let years = check(&sheet, Which::Plain, &accepted(numbers), order).unwrap();
    assert_eq!(years.len(), 150);
    for year in years {
        assert!(year.holds(), "order {order}, {year:?}, {sheet:?}");
    }
}

fn hold_in_all_patterns(order: usize) {
    for bits in 1..32 {
        for sheet in sheets_of(bits) {
            assert_holds(&sheet, order);
        }
    }
}

#[test]
fn bands_of_all_patterns_hold_the_true_curve_of_order_0() {
    hold_in_all_patterns(0);
}

#[test]
fn bands_of_all_patterns_hold_the_true_curve_of_order_1() {
    hold_in_all_patterns(1);
}

#[test]
fn bands_of_all_patterns_hold_the_true_curve_of_order_2() {
    hold_in_all_patterns(2);
}

#[test]
fn bands_of_other_gaps_are_found_outside() {
    let mut tried = 0;
    for bits in 2..31 {
        let volumes = pattern(bits).map(|v| 1_000_000 * v);
        let mut sheet = Sheet::read(&with_volumes(RISING, volumes).bytes()).unwrap();
        for (maturity, quote, volume) in DROPPABLE {
            let runs_on = traded(&volumes).iter().any(|&m| m > maturity);
            if volumes[volume] == 0 && runs_on {
                sheet.rates[quote] += 500;
                // A volume of one in a million is hardly a weight, but the quote is used.
                let mut used = sheet.clone();
                used.volumes[volume] = 1;
                let years = check(&sheet, Which::Plain, &Curve::plain(&used).unwrap(), 0).unwrap();
                assert!(years[..20].iter().all(|year| year.inside));
                assert!(years[20..].iter().all(|year| !year.inside), "{used:?}");
                sheet.rates[quote] -= 500;
                tried += 1;
            }
        }
    }
    assert_eq!(tried, 34);
}

// Trials past 64 bits

/// The largest product in the trials of a gap: highs at the upper end of the halving.
fn largest_product(start: i128, years: usize) -> i128 {
    let x = 1_100_000_000;
    let next = |high: i128, _| -(-high * x).div_euclid(U);
    (1..years).fold(start, next) * x
}

const TWO_TO_63: i128 = 1 << 63;
const TWO_TO_64: i128 = 1 << 64;

#[test]
fn trials_of_thirty_years_pass_64_bits() {
    for rate in [-300, -500, -900, -1_300] {
        for volumes in [[1, 0, 0, 0, 1], [0, 0, 0, 0, 9]] {
            let numbers = all_at(rate, volumes);
            let start = accepted(&numbers).factor(20).high;
            assert!(largest_product(start, 30) > TWO_TO_64, "start {start}");
            let sheet = Sheet::read(&numbers.bytes()).unwrap();
            assert!(assert_same(&sheet, Model::over(&sheet, &[50])));
            assert_holds(&numbers, 0);
        }
    }
}

#[test]
fn trials_of_twenty_and_twenty_five_years_pass_63_bits() {
    // No factor of year 25 or 30 is above those of the lowest rates, so 64 bits are not passed.
    let lowest = accepted(&all_at(-2_000, [1, 1, 1, 0, 0]));
    assert_eq!(lowest.factor(20).high, 1_497_885_051);
    for (start, years) in [(25, 25), (30, 20)] {
        let quoted = 1_000_000_000_f64 / 0.98_f64.powi(start);
        let product = largest_product(quoted as i128 + 10, years);
        assert!(TWO_TO_63 < product && product < TWO_TO_64, "{product}");
    }
    for volumes in [[1, 1, 0, 0, 1], [1, 0, 1, 0, 1], [1, 1, 1, 0, 1]] {
        let numbers = all_at(-1_300, volumes);
        let sheet = Sheet::read(&numbers.bytes()).unwrap();
        assert!(assert_same(&sheet, Model::over(&sheet, &traded(&volumes))));
    }
}

#[test]
fn the_highest_trial_that_is_refused() {
    // The upper end is tried before anything else of the gap, also where a year is refused.
    let sheet = all_at(-2_000, [1, 0, 0, 0, 1]);
    let start = accepted(&all_at(-2_000, [1, 0, 0, 0, 0])).factor(20).high;
    assert!(largest_product(start, 30) > TWO_TO_64);
    refused(&sheet, 8, 35);
}

// Seeded streams

#[test]
fn seeded_streams_accept_every_pattern_and_every_merged_gap() {
    let mut patterns = [0; 32];
    let mut dropped = DroppedPosts::default();
    for (sheet, number) in (0..5).flat_map(|seed| answered_posts(&stream(seed, 1_000))) {
        let accepted = number == 0;
        dropped.count(&sheet, accepted);
        if let (Ok(sheet), true) = (Sheet::read(&sheet), accepted) {
            let bit = |i: usize| usize::from(sheet.volumes[i] > 0) << i;
            patterns[(0..5).map(bit).sum::<usize>()] += 1;
        }
    }
    assert_eq!(patterns[0], 0);
    assert!(patterns[1..].iter().all(|&n| n >= 5), "{patterns:?}");
    dropped.check().unwrap();
    for gap in MERGED_GAPS {
        let tally = dropped.of_gap(gap);
        assert!(
            tally.accepted >= 20 && tally.posted > tally.accepted,
            "{gap:?}: {tally}"
        );
    }
}

#[test]
fn seeded_sheets_have_rates_that_could_not_be_used() {
    let mut random = Random::new(505);
    let (mut extreme, mut beyond_64_bits, mut would_be_refused) = (0, 0, 0);
    for _ in 0..1_500 {
        let sheet = dropped_sheet(&mut random, 0);
        let Some(curves) = worked(&sheet) else {
            continue;
        };
        let dropped = |&(_, _, volume): &(u8, usize, usize)| sheet.volumes[volume] == 0;
        let mut dropped = DROPPABLE.into_iter().filter(dropped);
        extreme += usize::from(dropped.any(|(_, i, _)| [-2_000, 12_000].contains(&sheet.rates[i])));
        let start = curves.plain.factor(20).high;
        let only_50 = traded(&sheet.volumes) == [50];
        beyond_64_bits += usize::from(only_50 && largest_product(start, 30) > TWO_TO_64);
        would_be_refused += usize::from(Model::of_all_quotes(&sheet).is_err());
    }
    assert!(extreme > 400, "{extreme}");
    assert!(beyond_64_bits > 10, "{beyond_64_bits}");
    assert!(would_be_refused > 300, "{would_be_refused}");
}

#[test]
fn seeded_sheets_have_dropped_quotes_that_are_refused() {
    let mut random = Random::new(506);
    let mut counts = [0; 4];
    for _ in 0..1_500 {
        let bytes = typed_dropped_sheet(&mut random, 0);
        if let Err(Refusal { number, place }) = Sheet::read(&bytes) {
            assert!([2, 3].contains(&number) && (15..=18).contains(&place));
            counts[usize::from(number)] += 1;
        }
    }
    assert!(counts[2] > 20 && counts[3] > 20, "{counts:?}");
}

#[test]
fn seeded_journals_leave_curves_with_dropped_quotes() {
    let mut random = Random::new(507);
    let mut dropped = DroppedPosts::default();
    for _ in 0..300 {
        for (sheet, number) in answered_posts(&journal(&mut random)) {
            dropped.count(&sheet, number == 0);
        }
    }
    dropped.check().unwrap();
}

#[test]
fn a_flat_curve_does_not_show_what_was_dropped() {
    // Every quote lies on the curve of the others, so that only roundings tell patterns apart.
    let all = accepted(&flat(2_400));
    for bits in 1..32 {
        let sheet = Numbers {
            volumes: pattern(bits),
            ..flat(2_400)
        };
        let curve = accepted(&sheet);
        for year in 1..=150 {
            let (one, other) = (all.factor(year), curve.factor(year));
            assert!(
                one.low <= other.high && other.low <= one.high,
                "year {year}"
            );
        }
    }
}
