//! Sheets for the tests, written byte by byte as the sheet's layout says, and books that took one.

use reference::book::Book;
use reference::sheet::Sheet;

/// Quoted maturities in their order.
pub const MATURITIES: [u8; 17] = [1, 2, 3, 4, 5, 6, 7, 8, 9, 10, 12, 15, 20, 25, 30, 40, 50];

/// The numbers of a sheet, not checked in any way.
#[derive(Clone)]
pub struct Numbers {
    /// The byte of the profile record, where the sheet has it.
    pub profile: Option<u8>,
    pub month: u16,
    pub rates: [i16; 17],
    pub volumes: [u32; 5],
    pub ufr: u16,
    pub limit: u32,
    /// X of the phase-in, where the sheet has its record.
    pub phase_in: Option<u16>,
    /// The adjustment, where the sheet has its record.
    pub adjustment: Option<i16>,
}

/// The zero sheet: month, rates and UFR 0, volumes 1, limit 100,000.
pub fn zero() -> Numbers {
    Numbers {
        profile: None,
        month: 0,
        rates: [0; 17],
        volumes: [1; 5],
        ufr: 0,
        limit: 100_000,
        phase_in: None,
        adjustment: None,
    }
}

/// The zero sheet with all rates at `rate`.
#[allow(dead_code)]
pub fn flat(rate: i16) -> Numbers {
    Numbers {
        rates: [rate; 17],
        ..zero()
    }
}

/// The flat sheet whose ultimate forward rate is the quotes' own, so that every year's is.
#[allow(dead_code)]
pub fn level() -> Numbers {
    Numbers {
        ufr: 3_000,
        ..flat(3_000)
    }
}

/// Year 9 is U, year 10 is U / 111,111: years 10 to 17 have no high rate. With the ultimate
/// forward rate at its highest the last lows are 0, and their years have none either.
#[allow(dead_code)]
pub fn steep(ufr: u16) -> Numbers {
    let mut numbers = Numbers { ufr, ..zero() };
    numbers.rates[9..].fill(11_111);
    numbers
}

/// A sheet of low rates, in the shape of the end of November 2020: the 20-year rate is 14.
#[allow(dead_code)]
pub fn november() -> Numbers {
    Numbers {
        rates: [
            -52, -53, -51, -48, -44, -39, -33, -27, -21, -15, -4, 5, 14, 12, 8, -2, -9,
        ],
        volumes: [14, 5, 40, 6, 8],
        ufr: 360,
        ..zero()
    }
}

impl Numbers {
    /// The sheet with the profile's record, and without an adjustment under a smaller profile. Only
    /// the first of its quotes and volumes then count.
    #[allow(dead_code)]
    pub fn of_profile(self, profile: u8) -> Self {
        Numbers {
            profile: Some(profile),
            adjustment: self.adjustment.filter(|_| ![2, 3].contains(&profile)),
            ..self
        }
    }

    /// The quoted maturities and those with a volume: of the euro, unless the profile is 2 or 3.
    fn maturities(&self) -> (&'static [u8], &'static [u8]) {
        match self.profile {
            Some(2) => (&[1, 2, 3, 4, 5, 6, 7, 8, 9, 10], &[10]),
            Some(3) => (&[1, 2, 3, 4, 5, 6, 7, 8, 9, 10, 12, 15], &[15]),
            _ => (&MATURITIES, &[20, 25, 30, 40, 50]),
        }
    }

    /// The sheet with the phase-in's record.
    #[allow(dead_code)]
    pub fn with_x(self, x: u16) -> Self {
        Numbers {
            phase_in: Some(x),
            ..self
        }
    }

    /// The sheet with the adjustment's record.
    #[allow(dead_code)]
    pub fn adjusted(self, adjustment: i16) -> Self {
        Numbers {
            adjustment: Some(adjustment),
            ..self
        }
    }

    /// The sheet with the rate of `maturity` replaced.
    #[allow(dead_code)]
    pub fn with_rate(mut self, maturity: u8, rate: i16) -> Self {
        let index = MATURITIES
            .iter()
            .position(|&m| m == maturity)
            .expect("a quoted maturity");
        self.rates[index] = rate;
        self
    }

    /// The sheet's bytes.
    pub fn bytes(&self) -> Vec<u8> {
        let (quoted, traded) = self.maturities();
        let mut bytes = Vec::new();
        if let Some(profile) = self.profile {
            bytes.extend([0x08, profile]);
        }
        bytes.push(0x01);
        bytes.extend(self.month.to_be_bytes());
        for (maturity, rate) in quoted.iter().zip(self.rates) {
            bytes.extend([0x02, *maturity]);
            bytes.extend(rate.to_be_bytes());
        }
        for (maturity, volume) in traded.iter().zip(self.volumes) {
            bytes.extend([0x03, *maturity]);
            bytes.extend(volume.to_be_bytes());
        }
        bytes.push(0x04);
        bytes.extend(self.ufr.to_be_bytes());
        bytes.push(0x05);
        bytes.extend(self.limit.to_be_bytes());
        if let Some(x) = self.phase_in {
            bytes.push(0x06);
            bytes.extend(x.to_be_bytes());
        }
        if let Some(adjustment) = self.adjustment {
            bytes.push(0x07);
            bytes.extend(adjustment.to_be_bytes());
        }
        bytes
    }
}

/// The sheet as it is read.
#[allow(dead_code)]
pub fn read(numbers: &Numbers) -> Sheet {
    Sheet::read(&numbers.bytes()).expect("a sheet")
}

/// A book with this age limit whose one call is the sheet's post.
#[allow(dead_code)]
pub fn book_of(age_limit: u64, numbers: &Numbers) -> Book {
    let mut book = Book::new(age_limit);
    assert_eq!(book.post(&numbers.bytes()), Ok(numbers.month));
    book
}
