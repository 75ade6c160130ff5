//! Paper 14 in the running tiers, "said of the awards held": another order of adding, limits raised, an option more. Every call is compared as in any run, and
//! what the paper says is held against the library's own cells and answers.

use super::*;

/// What was shown.
pub const CASES: [&str; 9] = [
    "the awards held in another order",
    "one award twice in another order",
    "an award of the other period in another order",
    "another order draws 21 on the way",
    "21 for the next award in either order",
    "limits raised",
    "an award held once limits are raised",
    "21 with an option more as without",
    "21 only with the option",
];

type Row = [u64; 6];

/// The awards added in this order; none where one draws 21 on the way.
fn held(round: &mut Round, own: &Own, rows: &[Row]) -> Option<Run> {
    let mut run = Run::open(round, own.clone())?;
    for &row in rows {
        run.add(round, row).ok()?;
    }
    Some(run)
}

/// What one award more is answered, and back again.
fn tried(round: &mut Round, run: &mut Run, row: Row) -> Answer<()> {
    run.mark(round, 4);
    let answer = run.add(round, row);
    run.return_to(round, 4);
    answer
}

/// The flows on all constraints, and how many awards are held and counted, by the library's cells.
fn figures(run: &mut Run) -> (Vec<i64>, Vec<u64>) {
    let state = run.kept.proved.state(run.kept.rooms);
    (state.flows[..64].to_vec(), state.numbers[..2].to_vec())
}

fn show(round: &mut Round, shown: &[(usize, bool)]) {
    for &(case, shows) in shown {
        round.shown(if shows { &CASES[case..=case] } else { &[] });
    }
}

fn shuffled(draw: &mut Draw, rows: &[Row]) -> Vec<Row> {
    let mut rows = rows.to_vec();
    for last in (1..rows.len()).rev() {
        rows.swap(last, draw.below(last as u64 + 1) as usize);
    }
    rows
}

/// Two running tests of one opening that hold the same awards have the same flows and count, and the next award is answered alike.
fn reordered(round: &mut Round, run: &mut Run, rows: &[Row], next: Row) {
    let other = shuffled(&mut round.draw, rows);
    let own = run.own.clone();
    let Some(mut second) = held(round, &own, &other) else {
        show(round, &[(3, true)]);
        return;
    };
    round.holds(figures(run) == figures(&mut second), "in another order the awards held have other flows or another count");
    let answers = (tried(round, run, next), tried(round, &mut second, next));
    round.holds(answers.0 == answers.1, "in another order the next award is answered otherwise");
    let another = other != rows;
    show(
        round,
        &[
            (0, another),
            (1, another && rows.iter().enumerate().any(|(i, row)| rows[..i].contains(row))),
            (2, another && rows.iter().any(|row| row[1] != own.period)),
            (4, another && answers.0 == Err(21)),
        ],
    );
}

/// With limits raised the same awards are held, and none draws 21 that did not before.
fn raised(round: &mut Round, run: &mut Run, rows: &[Row], next: Row) {
    let mut own = run.own.clone();
    for limit in &mut own.limits[..own.constraints] {
        if round.draw.once_in(2) {
            *limit = (*limit + round.draw.pick(&[1, 2, 1_000, 10_000_000])).min(100_000_000);
        }
    }
    let higher = own.limits != run.own.limits;
    let Some(mut second) = held(round, &own, rows) else {
        round.holds(false, "with limits raised an award is turned away");
        return;
    };
    let answers = (tried(round, run, next), tried(round, &mut second, next));
    round.holds(answers.0 == Err(21) || answers.1 != Err(21), "with limits raised the next award draws 21");
    show(round, &[(5, higher), (6, answers == (Err(21), Ok(())))]);
}

/// An award that draws 21 draws it too where an option more is held.
fn with_option(round: &mut Round, run: &mut Run, rows: &[Row], next: Row) {
    let mut more = rows.to_vec();
    let mut option = award(&mut round.draw, &run.own, &run.running);
    option[0] = 1;
    more.insert(round.draw.below(rows.len() as u64 + 1) as usize, option);
    let own = run.own.clone();
    let Some(mut second) = held(round, &own, &more) else { return };
    let flows = (figures(run).0, figures(&mut second).0);
    round.holds(flows.0.iter().zip(&flows.1).all(|(own, more)| own <= more), "with an option more a flow is smaller");
    let answers = (tried(round, run, next), tried(round, &mut second, next));
    round.holds(answers.0 != Err(21) || answers.1 == Err(21), "with an option more held, an award no longer draws 21");
    show(round, &[(7, answers == (Err(21), Err(21))), (8, answers == (Ok(()), Err(21)))]);
}

pub fn round(round: &mut Round) {
    let size = draw::size(&mut round.draw, round.number);
    let size = Size { constraints: if size.nodes > 300 { size.constraints.min(2) } else { size.constraints }, ..size };
    let own = Own::new(&mut round.draw, size);
    let Some(mut run) = Run::open(round, own) else { return };
    for _ in 0..round.draw.within(2, 12) {
        let mut row = award(&mut round.draw, &run.own, &run.running);
        if round.draw.once_in(6) && !run.running.awards.is_empty() {
            row = run.running.awards[0].row().map(|value| value as u64);
        }
        let _ = run.add(round, row);
    }
    let rows: Vec<Row> = run.running.awards.iter().map(|award| award.row().map(|value| value as u64)).collect();
    for _ in 0..3 {
        let next = award(&mut round.draw, &run.own, &run.running);
        reordered(round, &mut run, &rows, next);
        raised(round, &mut run, &rows, next);
        with_option(round, &mut run, &rows, next);
    }
}
