//! Reads a line: its commas in one pass, then its fields from the left.

use super::book::{Change, Entry, RetailOrder, Side};
use crate::terms::{Fault, Wrong, MAX_DIGITS, MAX_LINE};

/// A call, as a line spells it.
pub enum Call {
    Enter(Entry),
    Cancel { member: u32, number: u32 },
    Retail(RetailOrder),
    Tell { centre: u32, side: Side, price: u32, size: u32 },
    Phase(Change),
    Approve(u32),
    Withdraw(u32),
    Declare(u32),
    Lift(u32),
    Slip { number: u32, away: u32 },
    Identifier,
}

const CALL: usize = 0;
const WHO: usize = 1;
const SIDE: usize = 2;
const KIND: usize = 3;
const PRICE: usize = 4;
const OFFSET: usize = 5;
const SHARES: usize = 6;
const REF: usize = 7;

/// A line of eight fields, and where each begins; the last entry is where a ninth would.
struct Fields<'a> {
    line: &'a [u8],
    starts: [u8; 9],
}

/// Reads a line, which has no byte 10.
pub fn read(line: &[u8]) -> Result<Call, Fault> {
    let fields = split(line).ok_or(Fault { wrong: Wrong::NotALine, place: 0 })?;
    match fields.letter(CALL)? {
        b'E' => fields.entry(),
        b'C' => fields.cancel(),
        b'R' => fields.retail(),
        b'T' => fields.tell(),
        b'P' => fields.phase(),
        b'A' => fields.who_alone().map(Call::Approve),
        b'W' => fields.who_alone().map(Call::Withdraw),
        b'X' => fields.who_alone().map(Call::Declare),
        b'L' => fields.who_alone().map(Call::Lift),
        b'S' => fields.slip(),
        b'I' => fields.blanks(WHO..=REF).map(|()| Call::Identifier),
        _ => Err(fields.fault(CALL, Wrong::NotALetter)),
    }
}

/// The fields of a line that is not too long and has eight.
fn split(line: &[u8]) -> Option<Fields<'_>> {
    if line.len() > MAX_LINE {
        return None;
    }
    let mut starts = [0u8; 9];
    let mut commas = 0;
    for (place, byte) in line.iter().enumerate() {
        if *byte == b',' {
            commas += 1;
            if commas == 8 {
                return None;
            }
            starts[commas] = place as u8 + 1;
        }
    }
    starts[8] = line.len() as u8 + 1;
    (commas == 7).then_some(Fields { line, starts })
}

impl Fields<'_> {
    fn entry(&self) -> Result<Call, Fault> {
        let member = self.number(WHO)?;
        let side = self.side()?;
        let kind = self.letter(KIND)?;
        if !matches!(kind, b'R' | b'H' | b'D') {
            return Err(self.fault(KIND, Wrong::NotALetter));
        }
        let limit = self.number(PRICE)?;
        let offset = if self.field(OFFSET).is_empty() { None } else { Some(self.number(OFFSET)?) };
        let shares = self.number(SHARES)?;
        self.blank(REF)?;
        let (rpi, displayed) = (kind == b'R', kind == b'D');
        Ok(Call::Enter(Entry { member, side, rpi, displayed, limit, offset, shares }))
    }

    fn cancel(&self) -> Result<Call, Fault> {
        let member = self.number(WHO)?;
        self.blanks(SIDE..=SHARES)?;
        Ok(Call::Cancel { member, number: self.number(REF)? })
    }

    fn retail(&self) -> Result<Call, Fault> {
        let member = self.number(WHO)?;
        let side = self.side()?;
        let kind = self.letter(KIND)?;
        if !matches!(kind, b'1'..=b'3') {
            return Err(self.fault(KIND, Wrong::NotALetter));
        }
        let limit = self.number(PRICE)?;
        self.blank(OFFSET)?;
        let shares = self.number(SHARES)?;
        self.blank(REF)?;
        let (type_1, routable) = (kind == b'1', kind == b'3');
        Ok(Call::Retail(RetailOrder { member, side, type_1, routable, limit, shares }))
    }

    fn tell(&self) -> Result<Call, Fault> {
        let centre = self.number(WHO)?;
        let side = self.side()?;
        self.blank(KIND)?;
        let price = if self.field(PRICE).is_empty() { 0 } else { self.number(PRICE)? };
        self.blank(OFFSET)?;
        let size = self.number(SHARES)?;
        self.blank(REF)?;
        Ok(Call::Tell { centre, side, price, size })
    }

    fn phase(&self) -> Result<Call, Fault> {
        self.blanks(WHO..=SIDE)?;
        let change = match self.letter(KIND)? {
            b'O' => Change::Opening,
            b'H' => Change::Halting,
            b'C' => Change::Closing,
            _ => return Err(self.fault(KIND, Wrong::NotALetter)),
        };
        self.blanks(PRICE..=REF)?;
        Ok(Call::Phase(change))
    }

    fn slip(&self) -> Result<Call, Fault> {
        self.blanks(WHO..=OFFSET)?;
        let away = self.number(SHARES)?;
        Ok(Call::Slip { number: self.number(REF)?, away })
    }

    fn who_alone(&self) -> Result<u32, Fault> {
        let who = self.number(WHO)?;
        self.blanks(SIDE..=REF)?;
        Ok(who)
    }

    fn field(&self, index: usize) -> &[u8] {
        &self.line[self.starts[index] as usize..self.starts[index + 1] as usize - 1]
    }

    #[cold]
    fn fault(&self, index: usize, wrong: Wrong) -> Fault {
        Fault { wrong, place: self.starts[index] as usize + 1 }
    }

    fn blank(&self, index: usize) -> Result<(), Fault> {
        if self.field(index).is_empty() {
            Ok(())
        } else {
            Err(self.fault(index, Wrong::BlankOrFilled))
        }
    }

    fn blanks(&self, mut indices: std::ops::RangeInclusive<usize>) -> Result<(), Fault> {
        indices.try_for_each(|index| self.blank(index))
    }

    fn letter(&self, index: usize) -> Result<u8, Fault> {
        match self.field(index) {
            [letter] => Ok(*letter),
            [] => Err(self.fault(index, Wrong::BlankOrFilled)),
            _ => Err(self.fault(index, Wrong::NotALetter)),
        }
    }

    fn side(&self) -> Result<Side, Fault> {
        match self.letter(SIDE)? {
            b'B' => Ok(Side::Buy),
            b'S' => Ok(Side::Sell),
            _ => Err(self.fault(SIDE, Wrong::NotALetter)),
        }
    }

    fn number(&self, index: usize) -> Result<u32, Fault> {
        let field = self.field(index);
        if field.is_empty() {
            return Err(self.fault(index, Wrong::BlankOrFilled));
        }
        let mut number = 0u32;
        let mut wrong = field.len() > MAX_DIGITS;
        for byte in field {
            let digit = byte.wrapping_sub(b'0');
            wrong |= digit > 9;
            number = number.wrapping_mul(10).wrapping_add(u32::from(digit));
        }
        if wrong {
            Err(self.fault(index, Wrong::NotANumber))
        } else {
            Ok(number)
        }
    }
}
