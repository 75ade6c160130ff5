//! Refusals.

use crate::interface::check_interface;
use crate::lent;
use crate::sizes::REFUSAL_TEXT_BYTES;
use std::error::Error;
use std::fmt;

/// Input was turned down by a check of include/crr.h, which has a number for each.
#[derive(Clone, Copy, Debug, PartialEq, Eq, Hash)]
pub struct Refused {
    number: u64,
}

macro_rules! refusals {
    ($($name:ident = $number:literal;)*) => {
        /// Each refusal by the header's name.
        #[allow(missing_docs)]
        impl Refused {
            $(pub const $name: Refused = Refused { number: $number };)*
            /// All of them, by rising numbers.
            pub const ALL: &'static [(&'static str, Refused)] = &[$((stringify!($name), Refused::$name)),*];
        }
    };
}

refusals! {
    SHORT_FILE = 1;
    NODE_COUNT = 2;
    CONSTRAINT_COUNT = 3;
    SPARE_BITS = 4;
    FILE_LENGTH = 5;
    LIMIT_RANGE = 6;
    FACTOR_RANGE = 7;
    PADDING = 8;
    SHORT_TABLE = 9;
    CONTRACT_COUNT = 10;
    NODE_NUMBER = 11;
    QUANTITY_RANGE = 13;
    PRICE_COUNT = 14;
    PRICE_RANGE = 15;
    PROCESS_NUMBER = 16;
    PERIOD_OR_KIND = 17;
    HOLDER_RANGE = 18;
    NO_SUCH_DATE = 19;
    TIER_MARK = 20;
    AWARD_OVERLOAD = 21;
    MIGRATION_RANGE = 22;
    LOAD_EXCEEDED = 23;
    HUB_SHAPE = 24;
    HUB_NODE_TWICE = 25;
    SHARE_RANGE = 26;
    NO_DEMAND = 27;
}

impl Refused {
    /// The header's number.
    pub fn number(self) -> u64 {
        self.number
    }

    /// What it means, in the library's words.
    pub fn text(self) -> String {
        let text = written(REFUSAL_TEXT_BYTES, |text, bytes| lent::refusal_text(self.number, text, bytes));
        String::from_utf8(text.unwrap_or_default()).expect("the library's texts are ASCII")
    }
}

impl fmt::Display for Refused {
    fn fmt(&self, out: &mut fmt::Formatter) -> fmt::Result {
        write!(out, "refused {}: {}", self.number, self.text())
    }
}

impl Error for Refused {}

/// What a call of the library answered.
pub(crate) fn answered(call: impl FnOnce() -> u64) -> Result<(), Refused> {
    check_interface();
    match call() {
        0 => Ok(()),
        number => Err(Refused { number }),
    }
}

/// The first bytes of a place that the library wrote to.
pub(crate) fn written(room: usize, write: impl FnOnce(&mut [u8], &mut usize) -> u64) -> Result<Vec<u8>, Refused> {
    let (mut file, mut bytes) = (vec![0; room], 0);
    answered(|| write(&mut file, &mut bytes))?;
    file.truncate(bytes);
    Ok(file)
}
