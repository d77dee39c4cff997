//! Slips in how the plain program reads ids, as if the port had slipped the other way. Before a line is read, its
//! first field is made what the slip takes it for. An opening need not show each of them.
use crate::model::log::{self, Reading};

/// What a first field is taken for, in a line of so many fields.
type Slip = fn(&[u8], usize) -> Vec<u8>;

pub const SLIPS: &[(&str, Slip)] = &[
    ("an id may have a plus sign", |field, _| without_plus(field).to_vec()),
    ("an id may have zeros in front", |field, _| without_zeros(field).to_vec()),
    ("zeros alone are the id 0", |field, _| if zeros(field) { b"0".to_vec() } else { field.to_vec() }),
    ("0 is no id", |field, _| if field == b"0" { Vec::new() } else { field.to_vec() }),
    ("the leading zero is looked for at the end", |field, _| zero_at_the_end(field).to_vec()),
    ("a record may have any spelling", |field, fields| any_spelling(field, fields == 3)),
    ("a done line may have any spelling", |field, fields| any_spelling(field, fields == 1)),
];

/// Reads a file with a slip.
pub fn read(file: &[u8], slip: Slip) -> Result<Reading, u8> {
    let mut changed = Vec::new();
    for (a, b) in log::whole_lines(file) {
        let mut fields = log::fields(&file[a..b]);
        let first = slip(fields[0], fields.len());
        fields[0] = &first;
        changed.extend(fields.join(&b'\t'));
        changed.push(b'\n');
    }
    log::readable(&changed)
}

fn without_plus(field: &[u8]) -> &[u8] {
    field.strip_prefix(b"+").unwrap_or(field)
}

/// The last sign stays, also where it is a zero.
fn without_zeros(field: &[u8]) -> &[u8] {
    match field {
        [b'0', rest @ ..] if !rest.is_empty() => without_zeros(rest),
        _ => field,
    }
}

fn zeros(field: &[u8]) -> bool {
    without_zeros(field) == b"0"
}

/// A field of two or more signs is no id where the last is a zero; before another last sign zeros are taken off.
fn zero_at_the_end(field: &[u8]) -> &[u8] {
    match field {
        [_, .., b'0'] => b"",
        _ => without_zeros(field),
    }
}

/// The id that is meant, where the slip is made in lines of this kind.
fn any_spelling(field: &[u8], this_kind: bool) -> Vec<u8> {
    if this_kind { without_zeros(without_plus(field)).to_vec() } else { field.to_vec() }
}
