//! Job lines: one frame in, one answer out, both in hexadecimal.

use crate::run::format;

/// "At most 65,535 characters before the newline".
const MOST_CHARACTERS: usize = 65_535;
/// "room 16,384 bytes"
const ROOM: usize = 16_384;

/// The answer to one line, both without newline. "A line that isn't such a
/// frame (empty, too long, odd or other digits, format cut short) answers
/// `ff`".
pub fn job_line(line: &[u8]) -> Vec<u8> {
    answer(line).unwrap_or_else(|| b"ff".to_vec())
}

fn answer(line: &[u8]) -> Option<Vec<u8>> {
    if line.len() > MOST_CHARACTERS {
        return None;
    }
    let frame = unhex(line)?;
    let length = usize::from(u16::from_be_bytes([*frame.first()?, *frame.get(1)?]));
    let text = frame.get(2..2 + length)?;
    let answer = format(text, &frame[2 + length..], ROOM);
    let mut bytes = vec![answer.code as u8];
    for number in [answer.position, answer.steps, answer.text.len()] {
        bytes.extend_from_slice(&(number as u32).to_be_bytes());
    }
    bytes.extend_from_slice(&answer.text);
    Some(hex(&bytes).into_bytes())
}

fn unhex(line: &[u8]) -> Option<Vec<u8>> {
    if !line.len().is_multiple_of(2) {
        return None;
    }
    let digit = |c: u8| char::from(c).to_digit(16).map(|d| d as u8);
    line.chunks(2)
        .map(|two| Some(digit(two[0])? << 4 | digit(two[1])?))
        .collect()
}

/// Bytes in hexadecimal, lower case.
pub fn hex(bytes: &[u8]) -> String {
    let digit = |d: u8| char::from(b"0123456789abcdef"[usize::from(d)]);
    bytes
        .iter()
        .flat_map(|&b| [digit(b >> 4), digit(b & 15)])
        .collect()
}
