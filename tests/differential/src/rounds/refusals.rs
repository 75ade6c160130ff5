//! The sentence of a refusal's number.

use super::written;
use crate::lent::Lent;
use crate::library;
use crate::second::refusals::{sentence, text};
use crate::tally::Round;

pub const CASES: [&str; 5] =
    ["no refusal", "a number no longer given", "a number above the last", "a place of exactly its bytes", "a place of one byte less"];

/// The numbers around the refusals' come first, each in a round of its own.
pub const FIRST_ROUNDS: u64 = 40;

fn call(round: &mut Round, number: u64, room: usize) {
    let mut place = Lent::<u8>::new(&mut round.draw, "text", room);
    let mut bytes = Lent::<usize>::new(&mut round.draw, "bytes", 1);
    let proved = library::refusal_text(number, place.slice(), bytes.figure());
    let second = text(number, room);
    let (answer, cells) = written(&second);
    let length: Vec<i128> = second.iter().map(|text| text.len() as i128).collect();
    round.compare(proved, answer, &[place.difference(&cells), bytes.difference(&length)]);
}

pub fn round(round: &mut Round) {
    let drawn = round.draw.next();
    let number = if round.number < FIRST_ROUNDS { round.number } else { round.draw.pick(&[drawn, drawn % 28, drawn % 300]) };
    let long = sentence(number).len();
    for room in [0, long.saturating_sub(1), long, long + 1, 128, 200] {
        call(round, number, room);
    }
    let shown = [number == 0, number == 12, number > 27, long > 0, long > 0];
    let cases: Vec<&'static str> = CASES.into_iter().zip(shown).filter(|(_, shown)| *shown).map(|(case, _)| case).collect();
    round.shown(&cases);
}
