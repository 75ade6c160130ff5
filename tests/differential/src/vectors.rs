//! The conformance vectors of tests/vectors, played on the library and on the second implementation: every answer and every lent cell. Each file is played
//! twice: the second time what is lent holds the opposite bits beforehand, so that no cell is right by chance, and places are longer, so that what is behind
//! the cells written shows.

mod calls;
mod format;
mod header;
mod second;

use crate::splitmix::Draw;
use format::{cells, Line};
use header::{Cell, Form, Function, Parameter};
use std::collections::{BTreeSet, HashMap};
use std::path::{Path, PathBuf};
use std::{env, fs};

const SHOWN: usize = 20;
/// So many cells more are lent the second time where the call succeeds.
const LONGER: usize = 3;
/// `state=NAME` stands for these, as CRR_RUNNING(state) does in C.
const STATE: [(&str, usize); 3] = [("awards", 6000), ("numbers", 14), ("flows", 320)];

/// A parameter of a call and its cells beforehand; `mark` fills the margins.
pub struct Slot<'a> {
    parameter: &'a Parameter,
    before: Vec<i128>,
    mark: u64,
}

/// What is carried from line to line of a file.
#[derive(Default)]
struct Carried {
    states: HashMap<(String, String), Vec<i128>>,
    runs: second::Runs,
}

/// Other bytes: so many cells.
fn filled(cell: Cell, length: usize, draw: &mut Draw, flip: u64) -> Vec<i128> {
    let mut one = || draw.next() ^ flip;
    let value = |bits: u64| match cell {
        Cell::Byte => i128::from(bits as u8),
        Cell::Unsigned => bits.into(),
        Cell::Signed => i128::from(bits as i64),
    };
    (0..length).map(|_| value(one())).collect()
}

fn in_range(cell: Cell, value: i128) -> bool {
    match cell {
        Cell::Byte => u8::try_from(value).is_ok(),
        Cell::Unsigned => u64::try_from(value).is_ok(),
        Cell::Signed => i64::try_from(value).is_ok(),
    }
}

/// A call's parameters as the line gives them.
fn slots<'a>(function: &'a Function, line: &Line, carried: &Carried, flip: u64) -> Result<Vec<Slot<'a>>, String> {
    let mut draw = Draw::new(line.number as u64);
    let mut given: BTreeSet<&str> = line.given.keys().map(String::as_str).collect();
    let state = line.given.get("state").filter(|_| function.parameters.iter().any(|own| own.name == "numbers"));
    given.remove(if state.is_some() { "state" } else { "" });
    let longer = if flip != 0 && line.answer == 0 { LONGER } else { 0 };
    let mut all = Vec::new();
    for parameter in &function.parameters {
        let name = parameter.name.as_str();
        let held = state.and_then(|state| STATE.iter().find(|(own, _)| *own == name).map(|(_, length)| (state, *length)));
        given.remove(name);
        let text = line.given.get(name).map(String::as_str);
        let before = match (parameter.form, held, text) {
            (Form::Figure, _, None) => filled(parameter.cell, 1, &mut draw, flip),
            (_, Some((state, length)), None) => match carried.states.get(&(state.clone(), name.to_string())) {
                Some(cells) if function.name != "open_running" => cells.clone(),
                _ => filled(parameter.cell, length, &mut draw, flip),
            },
            (_, None, None) => return Err(format!("{name} is not given")),
            (Form::Buffer, _, Some(text)) if parameter.written && text.bytes().all(|c| c.is_ascii_digit()) => {
                let length: usize = text.parse().map_err(|_| format!("no length: {text}"))?;
                filled(parameter.cell, length + longer, &mut draw, flip)
            }
            (_, _, Some(text)) => cells(text)?,
        };
        if !before.iter().all(|&cell| in_range(parameter.cell, cell)) || parameter.form != Form::Buffer && before.len() != 1 {
            return Err(format!("{name} is out of its type's range"));
        }
        all.push(Slot { parameter, before, mark: draw.next() ^ flip });
    }
    match given.into_iter().next() {
        Some(name) => Err(format!("{} has no parameter {name}", function.name)),
        None => Ok(all),
    }
}

/// The cells afterwards, as the line says.
fn expected(line: &Line, slots: &[Slot]) -> Result<Vec<Vec<i128>>, String> {
    let mut all: Vec<Vec<i128>> = slots.iter().map(|slot| slot.before.clone()).collect();
    let mut named = BTreeSet::new();
    for (name, at, text) in &line.written {
        let place = slots.iter().position(|slot| slot.parameter.name == *name && slot.parameter.written);
        let place = place.ok_or_else(|| format!("{} writes no {name}", line.function))?;
        let new = cells(text)?;
        let fits = all[place].get_mut(*at..at + new.len()).ok_or_else(|| format!("{name}: more cells than are lent"))?;
        fits.copy_from_slice(&new);
        named.insert(name.as_str());
    }
    let figures = slots.iter().filter(|slot| slot.parameter.form == Form::Figure).map(|slot| slot.parameter.name.as_str());
    match (line.answer, figures.clone().find(|name| !named.contains(name))) {
        (0, Some(name)) => Err(format!("{name} is not said")),
        (0, None) => Ok(all),
        _ if named.is_empty() => Ok(all),
        _ => Err("a refusal writes nothing".to_string()),
    }
}

fn difference(who: &str, name: &str, got: &[i128], said: &[i128]) -> Option<String> {
    let at = (0..said.len().max(got.len())).find(|&at| got.get(at) != said.get(at))?;
    let show = |cells: &[i128]| cells.get(at).map_or("nothing".to_string(), i128::to_string);
    Some(format!("{who} has {name}[{at}] {}, the line {}", show(got), show(said)))
}

/// What is wrong with a line: nothing where both do as it says.
fn play(function: &Function, line: &Line, carried: &mut Carried, flip: u64) -> Result<Vec<String>, String> {
    let slots = slots(function, line, carried, flip)?;
    let said = expected(line, &slots)?;
    let mut wrong = Vec::new();
    let (answer, after) = calls::answered(&function.name, &slots);
    if answer != line.answer {
        wrong.push(format!("the library answers {answer}, the line {}", line.answer));
    }
    for ((slot, got), said) in slots.iter().zip(&after).zip(&said) {
        let name = &slot.parameter.name;
        match got {
            Some(got) => wrong.extend(difference("the library", name, got, said)),
            None => wrong.push(format!("the library wrote outside {name}")),
        }
    }
    let state = line.given.get("state");
    let second = second::answered(&function.name, &slots, state.map(String::as_str), &mut carried.runs);
    let (answer, written) = second.map_or_else(|number| (number, Vec::new()), |written| (0, written));
    if answer != line.answer {
        wrong.push(format!("the second implementation answers {answer}, the line {}", line.answer));
    }
    for (slot, said) in slots.iter().zip(&said) {
        let mut own = slot.before.clone();
        if let Some((_, new)) = written.iter().find(|(name, _)| slot.parameter.name == *name && slot.parameter.written) {
            own.splice(..new.len().min(own.len()), new.iter().copied());
        }
        wrong.extend(difference("the second implementation", &slot.parameter.name, &own, said));
    }
    if let Some(state) = state {
        for (slot, said) in slots.iter().zip(said).filter(|(slot, _)| STATE.iter().any(|(name, _)| slot.parameter.name == *name)) {
            carried.states.insert((state.clone(), slot.parameter.name.clone()), said);
        }
    }
    Ok(wrong)
}

/// What the lines have shown.
#[derive(Default)]
struct Tally {
    calls: usize,
    wrong: Vec<String>,
    answers: BTreeSet<(String, u64)>,
}

fn play_file(path: &Path, functions: &[Function], tally: &mut Tally) {
    let name = path.file_name().unwrap_or_default().to_string_lossy();
    let text = fs::read_to_string(path).unwrap_or_default();
    let lines = match format::lines(&text) {
        Ok(lines) => lines,
        Err((at, why)) => return tally.wrong.push(format!("{name}:{at}: {why}")),
    };
    let mut found = Vec::new();
    for flip in [0, u64::MAX] {
        let mut carried = Carried::default();
        let mut differ = Vec::new();
        for line in &lines {
            let function = functions.iter().find(|own| own.name == line.function).ok_or(format!("crr.h has no {}", line.function));
            let wrong = function.and_then(|own| play(own, line, &mut carried, flip)).unwrap_or_else(|why| vec![why]);
            if !wrong.is_empty() {
                differ.push(format!("{name}:{}: {}", line.number, wrong.join("; ")));
            }
            tally.answers.insert((line.function.clone(), line.answer));
        }
        // The second time only what the first did not show.
        if found.is_empty() {
            found = differ;
        }
    }
    tally.wrong.append(&mut found);
    tally.calls += lines.len();
}

/// What crr.h has and no line shows, and what lines show and crr.h does not have.
fn lacking(functions: &[Function], answers: &BTreeSet<(String, u64)>) -> Vec<String> {
    let mut all = Vec::new();
    for own in functions {
        let name = &own.name;
        if !calls::ENTRIES.iter().any(|(linked, _)| linked.strip_prefix("crr_") == Some(name)) {
            all.push(format!("{name}: not linked here"));
        }
        let drawn: BTreeSet<u64> = answers.iter().filter(|(function, _)| function == name).map(|(_, number)| *number).collect();
        let listed = own.refusals.as_ref().map_or(drawn.clone(), |listed| listed.iter().copied().chain([0]).collect());
        if listed.is_empty() {
            all.push(format!("{name}: no line"));
        }
        all.extend(listed.difference(&drawn).map(|number| format!("{name}: no line answers {number}")));
        all.extend(drawn.difference(&listed).map(|number| format!("{name}: a line answers {number}, which crr.h does not list")));
    }
    all
}

/// Plays tests/vectors, or the folder in CRR_VECTORS; how much is wrong.
pub fn check() -> usize {
    let root = Path::new(env!("CARGO_MANIFEST_DIR")).join("../..");
    let header = fs::read_to_string(root.join("include/crr.h")).expect("include/crr.h");
    let functions = header::functions(&header);
    let folder = env::var_os("CRR_VECTORS").map_or(root.join("tests/vectors"), PathBuf::from);
    let files = fs::read_dir(&folder).map_or(Vec::new(), |all| all.flatten().map(|file| file.path()).collect());
    let mut files: Vec<PathBuf> = files.into_iter().filter(|path| path.extension().is_some_and(|end| end == "txt")).collect();
    files.sort();
    let mut tally = Tally::default();
    for path in &files {
        let (calls, wrong) = (tally.calls, tally.wrong.len());
        play_file(path, &functions, &mut tally);
        println!(
            "vectors {}: {} calls, {} differ",
            path.file_name().unwrap_or_default().to_string_lossy(),
            tally.calls - calls,
            tally.wrong.len() - wrong
        );
    }
    for wrong in tally.wrong.iter().take(SHOWN) {
        println!("WRONG {wrong}");
    }
    let lacking = lacking(&functions, &tally.answers);
    for what in &lacking {
        println!("LACKING {what}");
    }
    println!("vectors: {} functions, {} calls, {} differ, {} lacking", functions.len(), tally.calls, tally.wrong.len(), lacking.len());
    tally.wrong.len() + lacking.len()
}
