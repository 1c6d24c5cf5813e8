//! Stored cases: those of a series that differ, one after the other, and fields of a fixed width.

use crate::answers::Checked;
use crate::records::Bytes;
use std::collections::HashSet;

pub fn one_byte(field: usize) -> u8 {
    u8::try_from(field).expect("a field of one byte")
}

pub fn two_bytes(field: usize) -> [u8; 2] {
    u16::try_from(field).expect("a field of two bytes").to_be_bytes()
}

pub fn four_bytes(field: u64) -> [u8; 4] {
    u32::try_from(field).expect("a field of four bytes").to_be_bytes()
}

/// So many cases of a series that differ, with what `stored` gives of each.
pub fn different<Case>(
    series: impl Iterator<Item = Case>,
    count: usize,
    stored: impl Fn(&Case) -> Checked<Bytes>,
) -> Checked<Vec<(Case, Bytes)>> {
    let mut seen = HashSet::new();
    let mut all = Vec::new();
    for case in series {
        let bytes = stored(&case)?;
        if seen.insert(bytes.clone()) {
            all.push((case, bytes));
        }
        if seen.len() >= count {
            break;
        }
    }
    Ok(all)
}

/// The same as they are stored, one after the other.
pub fn distinct<Case>(
    series: impl Iterator<Item = Case>,
    count: usize,
    stored: impl Fn(&Case) -> Checked<Bytes>,
) -> Checked<Bytes> {
    Ok(different(series, count, stored)?.into_iter().flat_map(|(_, bytes)| bytes).collect())
}
