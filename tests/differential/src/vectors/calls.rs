//! Calls of the library by name: every argument is a word, as crr.h's types all are.

use super::header::{Cell, Form};
use super::Slot;

const MARGIN: usize = 5;

macro_rules! entries {
    ($($name:ident)*) => {
        mod c {
            // src/library.rs declares them with their types.
            #![allow(clashing_extern_declarations)]
            extern "C" {
                $(pub fn $name();)*
            }
        }

        /// The functions that the runner links.
        pub const ENTRIES: &[(&str, unsafe extern "C" fn())] = &[$((stringify!($name), c::$name)),*];
    };
}

entries! {
    crr_read_grid crr_write_grid crr_read_book crr_write_book crr_remap_book crr_write_market_view crr_write_holder_view crr_write_canonical_book
    crr_add_hub_contract crr_read_prices crr_write_prices crr_test_book crr_find_flows crr_add_flows crr_judge_flows crr_find_cuts
    crr_find_shortfall crr_find_exposure crr_open_running crr_add_award crr_mark_tier crr_return_to_tier crr_released_percent crr_find_mcc
    crr_find_hub_mcc crr_settle_hour crr_share_balance crr_migrate_load crr_write_report
    crr_write_statement crr_month_hours crr_hour_period crr_weekday crr_month_later crr_net_transfers crr_refusal_text crr_interface
}

macro_rules! word {
    ($i:literal) => {
        usize
    };
}

macro_rules! by_count {
    ($function:expr, $words:expr; $($count:literal: [$($i:literal)*])*) => {
        match $words.len() {
            // SAFETY: the header declares the function with so many words, pointers among them to live buffers of the lengths beside them.
            $($count => unsafe { std::mem::transmute::<unsafe extern "C" fn(), unsafe extern "C" fn($(word!($i)),*) -> u64>($function)($($words[$i]),*) },)*
            count => panic!("no call of {count} arguments"),
        }
    };
}

fn call(function: unsafe extern "C" fn(), words: &[usize]) -> u64 {
    by_count!(function, words;
        0: []
        1: [0]
        2: [0 1]
        3: [0 1 2]
        4: [0 1 2 3]
        5: [0 1 2 3 4]
        6: [0 1 2 3 4 5]
        7: [0 1 2 3 4 5 6]
        8: [0 1 2 3 4 5 6 7]
        9: [0 1 2 3 4 5 6 7 8]
        10: [0 1 2 3 4 5 6 7 8 9]
        11: [0 1 2 3 4 5 6 7 8 9 10]
        12: [0 1 2 3 4 5 6 7 8 9 10 11]
        13: [0 1 2 3 4 5 6 7 8 9 10 11 12]
        14: [0 1 2 3 4 5 6 7 8 9 10 11 12 13]
        15: [0 1 2 3 4 5 6 7 8 9 10 11 12 13 14]
        16: [0 1 2 3 4 5 6 7 8 9 10 11 12 13 14 15]
        17: [0 1 2 3 4 5 6 7 8 9 10 11 12 13 14 15 16]
        18: [0 1 2 3 4 5 6 7 8 9 10 11 12 13 14 15 16 17]
        19: [0 1 2 3 4 5 6 7 8 9 10 11 12 13 14 15 16 17 18]
        20: [0 1 2 3 4 5 6 7 8 9 10 11 12 13 14 15 16 17 18 19]
    )
}

/// A buffer in memory, with margins of other bytes.
enum Memory {
    Bytes(Vec<u8>),
    Words(Vec<u64>),
}

impl Memory {
    fn new(slot: &Slot) -> Self {
        let margin = [slot.mark, !slot.mark, slot.mark.rotate_left(17), 0, u64::MAX];
        let cells = slot.before.iter().map(|&cell| cell as u64);
        let all = margin.into_iter().chain(cells).chain(margin);
        match slot.parameter.cell {
            Cell::Byte => Memory::Bytes(all.map(|cell| cell as u8).collect()),
            _ => Memory::Words(all.collect()),
        }
    }

    fn address(&mut self) -> usize {
        match self {
            Memory::Bytes(all) => all[MARGIN..].as_mut_ptr() as usize,
            Memory::Words(all) => all[MARGIN..].as_mut_ptr() as usize,
        }
    }

    /// The cells between the margins; none where a margin changed.
    fn cells(self, slot: &Slot) -> Option<Vec<i128>> {
        let untouched = Memory::new(slot);
        let all: Vec<u64> = match (&self, &untouched) {
            (Memory::Bytes(now), Memory::Bytes(then)) if edges(now) == edges(then) => now.iter().map(|&cell| cell.into()).collect(),
            (Memory::Words(now), Memory::Words(then)) if edges(now) == edges(then) => now.clone(),
            _ => return None,
        };
        let signed = slot.parameter.cell == Cell::Signed;
        let cell = |&cell: &u64| if signed { i128::from(cell as i64) } else { i128::from(cell) };
        Some(all[MARGIN..all.len() - MARGIN].iter().map(cell).collect())
    }
}

fn edges<T>(all: &[T]) -> (&[T], &[T]) {
    (&all[..MARGIN], &all[all.len() - MARGIN..])
}

/// The answer, and the cells of each buffer and figure afterwards: none where a margin changed.
pub fn answered(name: &str, slots: &[Slot]) -> (u64, Vec<Option<Vec<i128>>>) {
    let function = ENTRIES.iter().find(|(own, _)| own.strip_prefix("crr_") == Some(name)).expect("a function that is linked").1;
    let mut memory: Vec<Memory> = slots.iter().map(Memory::new).collect();
    let mut words = Vec::new();
    for (slot, own) in slots.iter().zip(&mut memory) {
        match slot.parameter.form {
            Form::Number => words.push(slot.before[0] as usize),
            Form::Buffer => words.extend([own.address(), slot.before.len()]),
            Form::Figure => words.push(own.address()),
        }
    }
    let answer = call(function, &words);
    (answer, memory.into_iter().zip(slots).map(|(own, slot)| own.cells(slot)).collect())
}
