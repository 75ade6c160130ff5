//! Times each public entry of the proved library beside plain Rust, on the largest inputs of both forms, and how the cost grows with each count. Called by
//! `bench/run`: `bench list` names every row; without a word it reads the numbers of rows, one a line, and answers each with a line of figures.

mod calendar;
mod entries;
mod exposure;
mod inputs;
mod limits;
mod migration;
mod plain;
mod rows;
mod running;
mod shares;
#[path = "../../tests/differential/src/splitmix.rs"]
mod splitmix;
mod timing;
mod totals;
mod views;

use crr::lent as library;
use limits::Limit;
use rows::{Figures, Row};
use std::io::{self, BufRead, Write};
use std::process::ExitCode;

fn form_name(row: &Row) -> &'static str {
    match row.form {
        plain::Form::Narrow => "narrow",
        plain::Form::Wide => "wide",
    }
}

/// A row's names, in JSON. None has a character that would have to be escaped.
fn listed(row: &Row) -> String {
    let Row { group, entry, by, at, .. } = row;
    let same = if let Figures::Same(group) = row.figures { group } else { "" };
    format!(r#"{{"group": "{group}", "form": "{}", "entry": "{entry}", "by": "{by}", "at": {at}, "same": "{same}"}}"#, form_name(row))
}

/// A row's figures, in JSON.
fn figures(row: &Row) -> Result<String, String> {
    match &row.figures {
        Figures::Timed(run) => {
            let times = run()?;
            Ok(format!(r#"{{"proved": {}, "plain": {}, "rounds": {}}}"#, times.proved, times.plain, times.rounds))
        }
        Figures::Limit(run) => {
            let Limit { amount, unit, way, micros } = run()?;
            Ok(format!(r#"{{"amount": {amount}, "unit": "{unit}", "way": "{way}", "micros": {micros}}}"#))
        }
        Figures::Same(group) => Err(format!("it is the row of {group}")),
    }
}

fn answered(rows: &[Row], asked: &str) -> Result<String, String> {
    let row = asked.parse().ok().and_then(|number: usize| rows.get(number)).ok_or(format!("no row {asked}"))?;
    figures(row).map_err(|why| format!("{}, {}, {} {}: {why}", row.entry, form_name(row), row.at, row.by))
}

fn main() -> ExitCode {
    let rows = rows::all();
    if std::env::args().nth(1).as_deref() == Some("list") {
        rows.iter().for_each(|row| println!("{}", listed(row)));
        return ExitCode::SUCCESS;
    }
    for asked in io::stdin().lock().lines().map_while(Result::ok) {
        match answered(&rows, &asked) {
            Ok(line) => println!("{line}"),
            Err(why) => {
                eprintln!("bench: {why}");
                return ExitCode::FAILURE;
            }
        }
        let _ = io::stdout().flush();
    }
    ExitCode::SUCCESS
}
