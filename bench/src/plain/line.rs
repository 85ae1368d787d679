//! What a line says, or its fault.

use crate::terms::{Fault, Wrong, FIELDS, MAX_DIGITS, MAX_LINE};

/// A line without a fault: its letters and numbers, 0 where a field is blank.
#[derive(Default)]
pub struct Said {
    pub call: u8,
    pub who: u32,
    pub side: u8,
    pub kind: u8,
    pub price: u32,
    pub offset: Option<u32>,
    pub shares: u32,
    pub reference: u32,
}

/// How a call uses a field.
#[derive(Clone, Copy)]
enum Use {
    Blank,
    Letter(&'static [u8]),
    Number,
    NumberOrBlank,
}

/// How a call uses the seven fields after its letter; none for a letter that no call has.
fn uses(call: &[u8]) -> Option<[Use; 7]> {
    use Use::{Blank, Letter, Number, NumberOrBlank};
    Some(match call {
        b"E" => [Number, Letter(b"BS"), Letter(b"RHD"), Number, NumberOrBlank, Number, Blank],
        b"C" => [Number, Blank, Blank, Blank, Blank, Blank, Number],
        b"R" => [Number, Letter(b"BS"), Letter(b"123"), Number, Blank, Number, Blank],
        b"T" => [Number, Letter(b"BS"), Blank, NumberOrBlank, Blank, Number, Blank],
        b"P" => [Blank, Blank, Letter(b"OHC"), Blank, Blank, Blank, Blank],
        b"A" | b"W" | b"X" | b"L" => [Number, Blank, Blank, Blank, Blank, Blank, Blank],
        b"S" => [Blank, Blank, Blank, Blank, Blank, Number, Number],
        b"I" => [Blank; 7],
        _ => return None,
    })
}

/// Reads a line, which has no byte 10.
pub fn read(line: &[u8]) -> Result<Said, Fault> {
    let fields: Vec<&[u8]> = line.split(|byte| *byte == b',').collect();
    if line.len() > MAX_LINE || fields.len() != FIELDS {
        return Err(Fault { wrong: Wrong::NotALine, place: 0 });
    }
    if fields[0].is_empty() {
        return Err(Fault { wrong: Wrong::BlankOrFilled, place: 1 });
    }
    let Some(uses) = uses(fields[0]) else {
        return Err(Fault { wrong: Wrong::NotALetter, place: 1 });
    };
    let mut place = 1 + fields[0].len() + 1;
    for (field, used) in fields[1..].iter().zip(uses) {
        if let Some(wrong) = wrong_with(field, used) {
            return Err(Fault { wrong, place });
        }
        place += field.len() + 1;
    }
    Ok(Said {
        call: fields[0][0],
        who: number(fields[1]).unwrap_or(0),
        side: letter(fields[2]),
        kind: letter(fields[3]),
        price: number(fields[4]).unwrap_or(0),
        offset: number(fields[5]),
        shares: number(fields[6]).unwrap_or(0),
        reference: number(fields[7]).unwrap_or(0),
    })
}

/// What is wrong with a field that is used so.
fn wrong_with(field: &[u8], used: Use) -> Option<Wrong> {
    match used {
        Use::Blank => (!field.is_empty()).then_some(Wrong::BlankOrFilled),
        Use::NumberOrBlank if field.is_empty() => None,
        _ if field.is_empty() => Some(Wrong::BlankOrFilled),
        Use::Letter(known) => (field.len() != 1 || !known.contains(&field[0])).then_some(Wrong::NotALetter),
        Use::Number | Use::NumberOrBlank => number(field).is_none().then_some(Wrong::NotANumber),
    }
}

/// The number of one to nine decimal digits.
fn number(field: &[u8]) -> Option<u32> {
    if field.is_empty() || field.len() > MAX_DIGITS || !field.iter().all(u8::is_ascii_digit) {
        return None;
    }
    Some(field.iter().fold(0, |number, digit| number * 10 + u32::from(digit - b'0')))
}

fn letter(field: &[u8]) -> u8 {
    field.first().copied().unwrap_or(0)
}
