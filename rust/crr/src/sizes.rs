//! The sizes of include/crr.h: the most that is accepted, and the longest files and texts. A test holds them to the header.

macro_rules! sizes {
    ($($name:ident = $size:literal;)*) => {
        $(
            #[allow(missing_docs)]
            pub const $name: usize = $size;
        )*
        /// All of them, by the header's names.
        pub const ALL: &[(&str, usize)] = &[$((stringify!($name), $size)),*];
    };
}

sizes! {
    TEXT_STACK_BYTES = 200_000;
    STACK_BYTES = 50_000;
    MAX_NODES = 4_000;
    MAX_NARROW_NODES = 200;
    MAX_CONSTRAINTS = 64;
    MAX_CONTRACTS = 1_000;
    MAX_SUMMED = 20_000_000;
    MAX_COORDINATORS = 256;
    MAX_HUB_NODES = 32;
    MAX_LSES = 16;
    MAX_MIGRATION_ROWS = 1_000;
    RUNNING_AWARDS = 6_000;
    RUNNING_NUMBERS = 14;
    RUNNING_FLOWS = 320;
    HUB_WEIGHT = 100_000;
    MAX_CUSTOMERS = 1_000_000;
    MAX_CUSTOMER_LOAD = 10_000;
    MAX_LOAD = 1_000_000_000_000;
    MAX_GRID_BYTES = 576_220;
    MAX_BOOK_BYTES = 7_002;
    MAX_HOLDER_VIEW_BYTES = 9_000;
    MAX_PRICE_BYTES = 153;
    MAX_TEXT_GRID_BYTES = 32_768;
    STATEMENT_BYTES = 29_085;
    REPORT_BYTES = 2_048;
    REFUSAL_TEXT_BYTES = 128;
    FIRST_YEAR = 2_010;
    LAST_YEAR = 2_037;
}
