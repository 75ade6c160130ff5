//! The lines of tests/vectors (README.md there), by hand and without other crates.

use std::collections::HashMap;

/// One call: what is handed in by name, the answer, and what is written: name, first cell, cells.
pub struct Line {
    pub number: usize,
    pub function: String,
    pub given: HashMap<String, String>,
    pub answer: u64,
    pub written: Vec<(String, usize, String)>,
}

type Read<T> = Result<T, String>;

fn number<T: std::str::FromStr>(text: &str) -> Read<T> {
    text.parse().map_err(|_| format!("no number: {text}"))
}

/// `#` as the number of the repetition: `6#` six times it, `#+1` one more.
fn counted(text: &str, i: usize) -> Read<String> {
    let Some(at) = text.find('#') else { return Ok(text.to_string()) };
    let digits = |part: &str| part.len() - part.trim_start_matches(|c: char| c.is_ascii_digit()).len();
    let factor = text[..at].len() - text[..at].trim_end_matches(|c: char| c.is_ascii_digit()).len();
    let times: usize = if factor == 0 { 1 } else { number(&text[at - factor..at])? };
    let rest = &text[at + 1..];
    let (more, rest) = match rest.strip_prefix('+') {
        Some(term) => (number::<usize>(&term[..digits(term)])?, &term[digits(term)..]),
        None => (0, rest),
    };
    Ok(format!("{}{}{}", &text[..at - factor], times * i + more, counted(rest, i)?))
}

/// A run of `#` in hex digits: the number of the repetition in as many digits.
fn counted_hex(text: &str, i: usize) -> String {
    let Some(at) = text.find('#') else { return text.to_string() };
    let width = text[at..].len() - text[at..].trim_start_matches('#').len();
    format!("{}{i:0width$x}{}", &text[..at], counted_hex(&text[at + width..], i))
}

/// Groups `(..)*n`, each repetition made by `unit` and followed by `between`.
fn grouped(text: &str, between: &str, unit: impl Fn(&str, usize) -> Read<String>) -> Read<String> {
    let mut whole = String::new();
    let mut rest = text;
    while let Some((before, inside)) = rest.split_once('(') {
        let (group, behind) = inside.split_once(")*").ok_or("a group without its count")?;
        let digits = behind.find(',').unwrap_or(behind.len());
        let units = (0..number(&behind[..digits])?).map(|i| unit(group, i)).collect::<Read<Vec<String>>>()?;
        whole += before;
        whole += &units.join(between);
        rest = &behind[digits..];
    }
    Ok(whole + rest)
}

fn hex(text: &str) -> Read<Vec<i128>> {
    let whole = grouped(text, "", |group, i| Ok(counted_hex(group, i)))?.replace(',', "");
    let pair = |at: usize| whole.get(at..at + 2).and_then(|two| u8::from_str_radix(two, 16).ok());
    let bytes = (0..whole.len()).step_by(2).map(pair).collect::<Option<Vec<u8>>>();
    Ok(bytes.ok_or("hex digits in pairs are needed")?.into_iter().map(i128::from).collect())
}

/// Cells, or bytes: `-`, `x:`, `t:`, or numbers with runs and groups.
pub fn cells(text: &str) -> Read<Vec<i128>> {
    if text == "-" {
        return Ok(Vec::new());
    }
    if let Some(digits) = text.strip_prefix("x:") {
        return hex(digits);
    }
    if let Some(plain) = text.strip_prefix("t:") {
        return Ok(plain.replace("\\n", "\n").replace("\\s", " ").bytes().map(i128::from).collect());
    }
    let mut all = Vec::new();
    for item in grouped(text, ",", counted)?.split(',') {
        let (value, times) = item.split_once('*').unwrap_or((item, "1"));
        all.resize(all.len() + number::<usize>(times)?, number::<i128>(value)?);
    }
    Ok(all)
}

/// Names replaced by what they stand for.
fn named(text: &str, names: &HashMap<String, String>) -> Read<String> {
    let Some((before, behind)) = text.split_once('@') else { return Ok(text.to_string()) };
    let end = behind.find(|c: char| !c.is_ascii_alphanumeric() && c != '-').unwrap_or(behind.len());
    let meant = names.get(&behind[..end]).ok_or_else(|| format!("@{} is not defined above", &behind[..end]))?;
    Ok(format!("{before}{meant}{}", named(&behind[end..], names)?))
}

fn fields(text: &str) -> Read<Vec<(String, String)>> {
    let field = |word: &str| word.split_once('=').map(|(name, value)| (name.to_string(), value.to_string()));
    text.split_whitespace().map(|word| field(word).ok_or_else(|| format!("no field: {word}"))).collect()
}

fn call(number_of: usize, text: &str) -> Read<Line> {
    let (left, right) = text.split_once(" -> ").ok_or("no answer")?;
    let (function, given) = left.split_once(' ').unwrap_or((left, ""));
    let (answer, written) = right.split_once(' ').unwrap_or((right, ""));
    let place = |(name, value): (String, String)| match name.strip_suffix(']').and_then(|name| name.split_once('[')) {
        Some((name, at)) => Ok((name.to_string(), number(at)?, value)),
        None => Ok((name, 0, value)),
    };
    let written = fields(written)?.into_iter().map(place).collect::<Read<Vec<_>>>()?;
    let given = fields(given)?.into_iter().collect();
    Ok(Line { number: number_of, function: function.to_string(), given, answer: number(answer)?, written })
}

/// All calls of a file, repeated ones as often as they say; or the line that cannot be read, and why.
pub fn lines(text: &str) -> Result<Vec<Line>, (usize, String)> {
    let (mut names, mut all, mut whole, mut quoted) = (HashMap::new(), Vec::new(), String::new(), false);
    for (at, line) in (1..).zip(text.lines()) {
        whole += if whole.is_empty() { line } else { line.trim_start() };
        if whole.ends_with('\\') {
            whole.pop();
            continue;
        }
        let line = std::mem::take(&mut whole);
        quoted = line.starts_with("# ") || quoted && !line.is_empty();
        if line.starts_with('#') || line.is_empty() {
            continue;
        }
        let line = line.split(" # ").next().unwrap_or_default();
        let mut read = || -> Read<()> {
            if let Some((name, value)) = line.strip_prefix('@').and_then(|line| line.split_once(" = ")) {
                names.insert(name.to_string(), named(value, &names)?);
                return Ok(());
            }
            if !quoted {
                return Err("no `#` line above says what it answers".to_string());
            }
            let line = named(line, &names)?;
            match line.split_once(": ").filter(|(times, _)| times.bytes().all(|c| c.is_ascii_digit())) {
                Some((times, line)) => {
                    for i in 0..number(times)? {
                        all.push(call(at, &counted(line, i)?)?);
                    }
                }
                None => all.push(call(at, &line)?),
            }
            Ok(())
        };
        read().map_err(|why| (at, why))?;
    }
    Ok(all)
}
