use super::bits::{fields, padding_is_zero, Writer};
use super::*;

/// The limits begin at this bit.
fn limits_at(form: Form) -> usize {
    match form {
        Form::Narrow => 16,
        Form::Wide => 32,
    }
}

fn used_bits(form: Form, nodes: usize, constraints: usize) -> usize {
    limits_at(form) + 27 * constraints + 18 * nodes * constraints
}

/// 2, by the form.
fn check_form_nodes(form: Form, nodes: usize) -> Result<(), Refusal> {
    check_nodes(nodes)?;
    demand(form == Form::Wide || nodes <= MAX_NARROW_NODES, NODE_COUNT)
}

/// Two's complement of 18 bits.
fn signed(bits: u64) -> i64 {
    (bits as i64) << 46 >> 46
}

/// A grid's form and counts, as its header has them.
#[derive(Clone, Copy, Debug, PartialEq, Eq)]
pub struct Header {
    pub form: Form,
    pub nodes: usize,
    pub constraints: usize,
}

/// 1 to 4.
fn read_header(file: &[u8]) -> Result<Header, Refusal> {
    let (form, nodes, low) = match *file {
        [0, low, high_count, low_count, ..] if low & 1 == 1 => (Form::Wide, usize::from(high_count) << 8 | usize::from(low_count), low),
        [0, low, ..] if low & 1 == 1 => return Err(SHORT_FILE),
        [nodes, low, ..] => (Form::Narrow, usize::from(nodes), low),
        _ => return Err(SHORT_FILE),
    };
    let constraints = usize::from(low >> 1);
    check_form_nodes(form, nodes)?;
    check_constraints(constraints)?;
    demand(form == Form::Wide || low & 1 == 0, SPARE_BITS)?;
    Ok(Header { form, nodes, constraints })
}

/// Reads a grid of at most so many bytes.
#[inline(always)]
pub fn read_up_to(most: usize, file: &[u8], limits: &mut [u64], factors: &mut [i64]) -> Result<Header, Refusal> {
    let header = read_header(file)?;
    let Header { form, nodes, constraints } = header;
    let used = used_bits(form, nodes, constraints);
    demand(file.len() == used.div_ceil(8) && file.len() <= most, FILE_LENGTH)?;
    let limits_at = limits_at(form);
    let factors_at = limits_at + 27 * constraints;
    let count = nodes * constraints;
    demand(fields(file, limits_at, 27, constraints).all(|limit| limit <= 100_000_000), LIMIT_RANGE)?;
    demand(!fields(file, factors_at, 18, count).any(|bits| factor_bad(signed(bits))), FACTOR_RANGE)?;
    demand(padding_is_zero(file, used), PADDING)?;
    demand(limits.len() >= constraints && factors.len() >= count, SHORT_TABLE)?;
    for (limit, value) in limits.iter_mut().zip(fields(file, limits_at, 27, constraints)) {
        *limit = value;
    }
    for (factor, bits) in factors.iter_mut().zip(fields(file, factors_at, 18, count)) {
        *factor = signed(bits);
    }
    Ok(header)
}

#[inline(never)]
pub fn read_grid(file: &[u8], limits: &mut [u64], factors: &mut [i64]) -> Result<Header, Refusal> {
    read_up_to(usize::MAX, file, limits, factors)
}

#[inline(never)]
pub fn write_grid(
    form: Form,
    nodes: usize,
    constraints: usize,
    limits: &[u64],
    factors: &[i64],
    file: &mut [u8],
) -> Result<usize, Refusal> {
    check_form_nodes(form, nodes)?;
    check_constraints(constraints)?;
    let limits = limits.get(..constraints).ok_or(SHORT_TABLE)?;
    let factors = factors.get(..nodes * constraints).ok_or(SHORT_TABLE)?;
    check_limits(limits)?;
    check_factors(factors)?;
    let size = used_bits(form, nodes, constraints).div_ceil(8);
    let mut writer = Writer::new(file.get_mut(..size).ok_or(SHORT_TABLE)?);
    let wide = form == Form::Wide;
    writer.put(if wide { 0 } else { nodes as u64 }, 8);
    writer.put(constraints as u64, 7);
    writer.put(u64::from(wide), 1);
    if wide {
        writer.put(nodes as u64, 16);
    }
    for &limit in limits {
        writer.put(limit, 27);
    }
    for &factor in factors {
        writer.put(factor as u64 & 0x3_ffff, 18);
    }
    writer.finish();
    Ok(size)
}
