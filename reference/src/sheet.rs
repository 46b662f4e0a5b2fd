//! A sheet: its records in their turn, and grounds 19 and 1 to 4.

use std::ops::RangeInclusive;

use crate::market::{Market, MATURITIES, MOST_VOLUMES};
use crate::refusal::Refusal;

/// The last month a sheet or a turn may name.
pub const LAST_MONTH: u32 = 2_399;

/// The numbers of a sheet on which none of grounds 19 and 1 to 4 applies.
#[derive(Clone, Debug, PartialEq, Eq)]
pub struct Sheet {
    /// The market that the profile record names, on a sheet that has it.
    pub profile: Option<Market>,
    /// Months since January 2000.
    pub month: u16,
    /// Par rates in hundred-thousandths, in the order of `MATURITIES`; 0 past those that the market
    /// quotes.
    pub rates: [i16; MATURITIES.len()],
    /// Traded volumes in the order of the market's; 0 past those that its sheets carry.
    pub volumes: [u32; MOST_VOLUMES],
    /// Ultimate forward rate in hundred-thousandths.
    pub ufr: u16,
    /// Largest allowed high less low, in billionths.
    pub limit: u32,
    /// X of the phase-in in hundred-thousandths, on a sheet that has its record.
    pub phase_in: Option<u16>,
    /// Volatility adjustment in hundred-thousandths, on a sheet that has its record. One of 0 is
    /// not the same as none.
    pub adjustment: Option<i16>,
}

impl Sheet {
    /// The sheet held by `bytes`, or the first of grounds 19 and 1 to 4 that applies.
    pub fn read(bytes: &[u8]) -> Result<Sheet, Refusal> {
        let profile = profile(bytes)?;
        let dues = dues(profile, bytes).ok_or(Refusal::plain(1))?;
        let records = split(bytes, dues);
        check(2, &records, Record::is_due)?;
        check(3, &records, Record::in_range)?;
        let sheet = decode(&records);
        if sheet.carried_volumes().iter().all(|&volume| volume == 0) {
            return Err(Refusal::plain(4));
        }
        Ok(sheet)
    }

    /// The market, which is the euro where no record names one.
    pub fn market(&self) -> Market {
        self.profile.unwrap_or(Market::EURO)
    }

    /// The rates that the market quotes.
    pub fn quoted_rates(&self) -> &[i16] {
        &self.rates[..self.market().maturities.len()]
    }

    /// The sheet with `shift` added to every quote, be it used or dropped, or none where ground 3
    /// is then against one. No other of grounds 19 and 1 to 4 depends on a rate.
    pub fn shifted(&self, shift: i16) -> Option<Sheet> {
        let mut shifted = self.clone();
        let quotes = self.quoted_rates().len();
        for rate in &mut shifted.rates[..quotes] {
            *rate += shift;
        }
        let range = Kind::Rate.range();
        let in_range = |&rate: &i16| range.contains(&i64::from(rate));
        let passes = shifted.quoted_rates().iter().all(in_range);
        passes.then_some(shifted)
    }

    /// The volumes that the market's sheets carry.
    pub fn carried_volumes(&self) -> &[u32] {
        &self.volumes[..self.market().volume_maturities.len()]
    }
}

/// The market that the sheet's first record names, none where another record is the first, or
/// ground 19. A lone kind byte names none: its sheet is too short for any.
fn profile(bytes: &[u8]) -> Result<Option<Market>, Refusal> {
    const PROFILE: u8 = Kind::Profile as u8;
    match *bytes {
        [PROFILE, byte, ..] => {
            let market = Market::of_profile(byte).ok_or(Refusal::plain(19))?;
            Ok(Some(market))
        }
        _ => Ok(None),
    }
}

/// What a record tells, with its kind byte.
#[derive(Clone, Copy, PartialEq, Eq)]
enum Kind {
    Month = 0x01,
    Rate = 0x02,
    Volume = 0x03,
    Ufr = 0x04,
    Limit = 0x05,
    PhaseIn = 0x06,
    Adjustment = 0x07,
    Profile = 0x08,
}

impl Kind {
    /// Bytes of the number that ends the record.
    fn number_length(self) -> usize {
        match self {
            Kind::Profile => 1,
            Kind::Volume | Kind::Limit => 4,
            _ => 2,
        }
    }

    /// The numbers that ground 3 lets pass.
    fn range(self) -> RangeInclusive<i64> {
        match self {
            Kind::Month => 0..=i64::from(LAST_MONTH),
            Kind::Rate => -2_000..=12_000,
            Kind::Volume => 0..=1_000_000,
            Kind::Ufr => 0..=10_000,
            Kind::Limit => 1..=100_000,
            Kind::PhaseIn => 10_000..=20_000,
            Kind::Adjustment => -500..=500,
            Kind::Profile => 1..=3,
        }
    }

    /// Whether the number is in two's complement.
    fn is_signed(self) -> bool {
        matches!(self, Kind::Rate | Kind::Adjustment)
    }
}

/// What is due in a record's turn: its kind and, where it has one, its maturity.
#[derive(Clone, Copy)]
struct Due {
    kind: Kind,
    maturity: Option<u8>,
}

impl Due {
    fn plain(kind: Kind) -> Self {
        let maturity = None;
        Due { kind, maturity }
    }

    fn of_each(kind: Kind, maturities: &'static [u8]) -> impl Iterator<Item = Due> {
        let due = move |&maturity| Due {
            kind,
            maturity: Some(maturity),
        };
        maturities.iter().map(due)
    }

    /// Bytes of the whole record.
    fn length(self) -> usize {
        1 + usize::from(self.maturity.is_some()) + self.kind.number_length()
    }
}

/// The dues of the sheet in `bytes`, or none if no sheet of its profile is that long.
fn dues(profile: Option<Market>, bytes: &[u8]) -> Option<Vec<Due>> {
    let market = profile.unwrap_or(Market::EURO);
    let mut dues: Vec<Due> = profile.iter().map(|_| Due::plain(Kind::Profile)).collect();
    dues.extend(required(market));
    let length = dues.iter().map(|due| due.length()).sum();
    let tail = tail(market, bytes.get(length..)?)?;
    dues.extend(tail.iter().copied().map(Due::plain));
    Some(dues)
}

/// What is due in the bytes past the required records. Each record there has three bytes, so
/// the kind byte must tell which one a sheet has that has one alone; where it is of neither
/// kind, or the market takes no adjustment, the phase-in is due.
fn tail(market: Market, bytes: &[u8]) -> Option<&'static [Kind]> {
    const ADJUSTMENT: u8 = Kind::Adjustment as u8;
    match (bytes, market.takes_adjustment) {
        ([], _) => Some(&[]),
        ([ADJUSTMENT, _, _], true) => Some(&[Kind::Adjustment]),
        ([_, _, _], _) => Some(&[Kind::PhaseIn]),
        ([_, _, _, _, _, _], true) => Some(&[Kind::PhaseIn, Kind::Adjustment]),
        _ => None,
    }
}

/// The dues that every sheet of the market has.
fn required(market: Market) -> impl Iterator<Item = Due> {
    [Due::plain(Kind::Month)]
        .into_iter()
        .chain(Due::of_each(Kind::Rate, market.maturities))
        .chain(Due::of_each(Kind::Volume, market.volume_maturities))
        .chain([Due::plain(Kind::Ufr), Due::plain(Kind::Limit)])
}

/// A part of the sheet and what is due there.
struct Record<'a> {
    due: Due,
    bytes: &'a [u8],
}

/// The sheet's records. Their bounds follow from the dues alone, whatever the bytes.
fn split(mut bytes: &[u8], dues: Vec<Due>) -> Vec<Record<'_>> {
    let mut records = Vec::new();
    for due in dues {
        let (record, rest) = bytes.split_at(due.length());
        records.push(Record { due, bytes: record });
        bytes = rest;
    }
    records
}

impl Record<'_> {
    /// Whether kind and maturity are those due.
    fn is_due(&self) -> bool {
        let maturity_is_due = self.due.maturity.is_none_or(|due| self.bytes[1] == due);
        self.bytes[0] == self.due.kind as u8 && maturity_is_due
    }

    /// The number that ends the record.
    fn number(&self) -> i64 {
        let kind = self.due.kind;
        let bytes = &self.bytes[self.bytes.len() - kind.number_length()..];
        match bytes {
            &[high, low] if kind.is_signed() => i64::from(i16::from_be_bytes([high, low])),
            _ => bytes
                .iter()
                .fold(0, |sum, &byte| 256 * sum + i64::from(byte)),
        }
    }

    fn in_range(&self) -> bool {
        self.due.kind.range().contains(&self.number())
    }
}

/// The refusal on `ground` at the first record that does not pass.
fn check<'a>(
    ground: u8,
    records: &[Record<'a>],
    passes: fn(&Record<'a>) -> bool,
) -> Result<(), Refusal> {
    match records.iter().position(|record| !passes(record)) {
        Some(index) => Err(Refusal::at(ground, index + 1)),
        None => Ok(()),
    }
}

/// The numbers of records that passed grounds 2 and 3.
fn decode(records: &[Record]) -> Sheet {
    let profile = numbers(records, Kind::Profile).next();
    Sheet {
        profile: profile.and_then(Market::of_profile),
        month: single(records, Kind::Month),
        rates: first(records, Kind::Rate),
        volumes: first(records, Kind::Volume),
        ufr: single(records, Kind::Ufr),
        limit: single(records, Kind::Limit),
        phase_in: numbers(records, Kind::PhaseIn).next(),
        adjustment: numbers(records, Kind::Adjustment).next(),
    }
}

/// The numbers of the records of `kind`, in order.
fn numbers<'a, T: TryFrom<i64>>(records: &'a [Record], kind: Kind) -> impl Iterator<Item = T> + 'a {
    let of_kind = records.iter().filter(move |record| record.due.kind == kind);
    of_kind.map(|record| {
        T::try_from(record.number())
            .ok()
            .expect("a number in range")
    })
}

/// The numbers of the records of `kind`, and 0 past them.
fn first<T: TryFrom<i64> + Default, const COUNT: usize>(
    records: &[Record],
    kind: Kind,
) -> [T; COUNT] {
    let mut numbers = numbers(records, kind);
    std::array::from_fn(|_| numbers.next().unwrap_or_default())
}

/// The number of a record that every sheet has.
fn single<T: TryFrom<i64>>(records: &[Record], kind: Kind) -> T {
    numbers(records, kind).next().expect("a record that is due")
}
