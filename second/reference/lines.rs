//! How lines are spelled, the same in the network file, in the program's input and in everything written: fields
//! parted by one tab, numbers in plain decimal, every line ended by one LF.

use std::fmt::{Display, Write};

/// The lines of a text, counted from 1; only the last can lack its LF.
pub fn lines(text: &[u8]) -> impl Iterator<Item = (u32, &[u8])> {
    (1..).zip(text.split_inclusive(|&byte| byte == b'\n'))
}

/// The fields of a line, or nothing where its LF is missing.
pub fn fields(line: &[u8]) -> Option<Vec<&[u8]>> {
    Some(line.strip_suffix(b"\n")?.split(|&byte| byte == b'\t').collect())
}

/// The value of a well-spelled number; one too large for 64 bits stays at their greatest value, beyond every range.
pub fn number(field: &[u8]) -> Option<u64> {
    let well_spelled =
        !field.is_empty() && field.iter().all(u8::is_ascii_digit) && (field[0] != b'0' || field.len() == 1);
    well_spelled.then(|| {
        field.iter().fold(0u64, |value, digit| value.saturating_mul(10).saturating_add(u64::from(digit - b'0')))
    })
}

/// Adds one line to a text.
pub fn write_line(text: &mut String, fields: &[&dyn Display]) {
    for (index, field) in fields.iter().enumerate() {
        let mark = if index == 0 { "" } else { "\t" };
        write!(text, "{mark}{field}").expect("writing to a string succeeds");
    }
    text.push('\n');
}
