//! Terms of the papers that C has as numbers, and a contract.

use crate::lent;
use crate::refused::{answered, Refused};

/// The form of a grid's or a book's file.
#[derive(Clone, Copy, Debug, PartialEq, Eq)]
pub enum Form {
    /// Node numbers of one byte.
    Narrow = 0,
    /// Up to 4,000 nodes.
    Wide = 1,
}

impl Form {
    /// The form that a reader told by its number.
    pub(crate) fn told(number: u64) -> Form {
        if number == 0 {
            Form::Narrow
        } else {
            Form::Wide
        }
    }
}

/// The hours that a contract covers.
#[derive(Clone, Copy, Debug, PartialEq, Eq)]
pub enum Period {
    /// Off-peak hours.
    OffPeak = 0,
    /// On-peak hours.
    OnPeak = 1,
}

impl Period {
    pub(crate) fn told(number: u64) -> Period {
        if number == 0 {
            Period::OffPeak
        } else {
            Period::OnPeak
        }
    }
}

/// The process that a book is tested for: what it releases of each limit.
#[derive(Clone, Copy, Debug, PartialEq, Eq)]
pub enum Process {
    /// 65 percent.
    Annual = 0,
    /// 60 percent.
    TierLt = 1,
    /// 100 percent.
    Monthly = 2,
}

/// Whether a contract may be charged.
#[derive(Clone, Copy, Debug, PartialEq, Eq)]
pub enum Kind {
    /// Paid and charged.
    Obligation = 0,
    /// Never charged.
    Option = 1,
}

/// A tier that can be marked in a running test.
#[derive(Clone, Copy, Debug, PartialEq, Eq)]
pub enum Tier {
    /// Tier 1.
    One = 1,
    /// Tier 2.
    Two = 2,
    /// Tier 3.
    Three = 3,
    /// Tier LT.
    Lt = 4,
}

/// A contract, as a row of a book.
#[derive(Clone, Copy, Debug, PartialEq, Eq)]
pub struct Contract {
    /// Obligation or option.
    pub kind: Kind,
    /// Its hours.
    pub period: Period,
    /// Its holder, 0 to 1,023.
    pub holder: u64,
    /// The number of its source.
    pub source: u64,
    /// The number of its sink, which may be the source.
    pub sink: u64,
    /// Thousandths of a MW, 1 to 1,000,000.
    pub quantity: u64,
}

impl Contract {
    /// Its six cells of a book.
    pub fn row(self) -> [u64; 6] {
        [self.kind as u64, self.period as u64, self.holder, self.source, self.sink, self.quantity]
    }

    pub(crate) fn from_row(row: &[u64]) -> Contract {
        let kind = if row[0] == 0 { Kind::Obligation } else { Kind::Option };
        Contract { kind, period: Period::told(row[1]), holder: row[2], source: row[3], sink: row[4], quantity: row[5] }
    }
}

/// The share of each limit that a process releases, in percent.
pub fn released_percent(process: Process) -> Result<u64, Refused> {
    let mut percent = 0;
    answered(|| lent::released_percent(process as u64, &mut percent))?;
    Ok(percent)
}
