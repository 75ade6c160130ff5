//! What a refusal's number means: the comment beside it in the header.

use super::Answer;

const HEADER: &str = include_str!("../../../../include/crr.h");

/// The sentence of a number; none for a number that no refusal has.
pub fn sentence(number: u64) -> &'static str {
    let refusals = HEADER.split("Refusals, by number.").nth(1).expect("the header lists the refusals");
    let defined = refusals.lines().filter_map(|line| line.strip_prefix("#define CRR_")?.split_once("/*"));
    let mut meant = defined.filter(|(left, _)| left.split_whitespace().nth(1) == Some(&number.to_string()));
    meant.next().map_or("", |(_, comment)| comment.trim_end_matches("*/").trim())
}

pub fn text(number: u64, room: usize) -> Answer<Vec<u8>> {
    let sentence = sentence(number);
    if room < sentence.len() {
        Err(9)
    } else {
        Ok(sentence.as_bytes().to_vec())
    }
}

/// The number that the header gives the interface.
pub fn interface() -> u64 {
    let defined = HEADER.lines().find_map(|line| line.strip_prefix("#define CRR_INTERFACE ")).expect("the header has its number");
    defined.trim().parse().expect("a number")
}
