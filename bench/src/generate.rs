//! Day files made by seed. Each seed makes one kind of file, and always the same file.

use crate::random::Random;
use crate::terms::*;

/// What a file is made to try.
#[derive(Clone, Copy, PartialEq, Eq, Debug)]
pub enum Kind {
    Matching,
    NearADollar,
    ManyQuotes,
    Refusals,
    Ends,
    FullBook,
    ManySlips,
    Faults,
    LongLines,
    LongFiles,
    FileFaults,
    Noise,
}

/// Kinds in turn, seed by seed; what matches comes more often.
pub const KINDS: [Kind; 16] = [
    Kind::Matching,
    Kind::NearADollar,
    Kind::ManyQuotes,
    Kind::Refusals,
    Kind::Matching,
    Kind::Ends,
    Kind::FullBook,
    Kind::ManySlips,
    Kind::Matching,
    Kind::Faults,
    Kind::LongLines,
    Kind::NearADollar,
    Kind::LongFiles,
    Kind::FileFaults,
    Kind::Noise,
    Kind::Faults,
];

/// The kind of file that a seed makes.
pub fn kind_of(seed: u64) -> Kind {
    KINDS[(seed % KINDS.len() as u64) as usize]
}

/// The day file of a seed.
pub fn day_of(seed: u64) -> Vec<u8> {
    let mut day = Day::new(seed);
    match kind_of(seed) {
        Kind::Matching => {
            let base = day.random.pick(&[10_000, 10_000, 25_370, 5_000, 9_999_970]);
            day.market(base, 40)
        }
        Kind::NearADollar => day.market(1_000, 30),
        Kind::ManyQuotes => day.many_quotes(),
        Kind::Refusals => day.refusals(),
        Kind::Ends => day.ends(),
        Kind::FullBook => day.full_book(),
        Kind::ManySlips => day.many_slips(),
        Kind::Faults => day.faults(),
        Kind::LongLines => day.long_lines(),
        Kind::LongFiles => return day.long_file(),
        Kind::FileFaults => return day.file_faults(),
        Kind::Noise => day.noise(),
    }
    let end = day.random.once_in(8);
    day.finish(end)
}

/// A day in the making.
struct Day {
    random: Random,
    bytes: Vec<u8>,
    /// The price that quotes and limits lie around, and how far.
    base: u32,
    around: u32,
    /// Members that send orders, from 1.
    members: u32,
    /// Numbers given if nothing was refused, and some of the orders and slips that may be there.
    numbers: u32,
    orders: Vec<(u32, u32)>,
    slips: Vec<(u32, u32)>,
}

/// Eight fields as text, separated by commas, with byte 10.
macro_rules! line {
    ($day:expr, $($field:tt)*) => {{
        let text = format!($($field)*);
        $day.bytes.extend_from_slice(text.as_bytes());
        $day.bytes.push(b'\n');
    }};
}

impl Day {
    fn new(seed: u64) -> Day {
        let mut bytes = NAMES_LINE.to_vec();
        bytes.push(b'\n');
        let random = Random::new(seed);
        Day { random, bytes, base: 10_000, around: 40, members: 5, numbers: 0, orders: vec![], slips: vec![] }
    }

    /// The bytes, without the last byte 10 if so asked; never too long.
    fn finish(mut self, without_end: bool) -> Vec<u8> {
        while self.bytes.len() > MAX_FILE {
            self.bytes.pop();
        }
        if without_end && self.bytes.last() == Some(&b'\n') {
            self.bytes.pop();
        }
        self.bytes
    }

    /// The approvals and the opening.
    fn open(&mut self) {
        for member in 1..=self.members {
            line!(self, "A,{member},,,,,,");
        }
        line!(self, "P,,,O,,,,");
    }

    /// A price around the base.
    fn near(&mut self) -> u32 {
        let around = self.around;
        let price = self.base + self.random.of(0..=2 * around);
        price.saturating_sub(around).clamp(MIN_PRICE, MAX_PRICE)
    }

    fn side(&mut self) -> char {
        self.random.pick(&['B', 'S'])
    }

    fn member(&mut self) -> u32 {
        let members = self.members;
        self.random.of(1..=members)
    }

    fn entry(&mut self) {
        let (member, side) = (self.member(), self.side());
        let mut price = self.near();
        let mut shares = self.random.of(1..=900);
        if self.random.once_in(40) {
            shares = self.random.of(900_000..=MAX_SHARES);
        }
        let kind = self.random.pick(&['R', 'R', 'R', 'R', 'H', 'D']);
        let mut offset = String::new();
        if kind != 'R' && price >= DOLLAR {
            price -= price % CENT;
        }
        if kind == 'R' && self.random.once_in(2) {
            let widest = 2 * self.around;
            offset = self.random.of(1..=widest).to_string();
            if self.random.once_in(20) {
                offset = self.random.of(1..=MAX_OFFSET).to_string();
            }
        }
        line!(self, "E,{member},{side},{kind},{price},{offset},{shares},");
        self.numbers += 1;
        self.orders.push((self.numbers, member));
    }

    fn retail(&mut self) {
        let (member, side) = (self.member(), self.side());
        let kind = self.random.pick(&['1', '2', '3']);
        let mut limit = self.near();
        if self.random.once_in(3) {
            limit = if side == 'B' { self.base + 3 * self.around } else { self.base.saturating_sub(3 * self.around) };
            limit = limit.clamp(MIN_PRICE, MAX_PRICE);
        }
        let mut shares = self.random.of(1..=2_500);
        if self.random.once_in(6) {
            shares = self.random.of(1..=MAX_SHARES);
        }
        line!(self, "R,{member},{side},{kind},{limit},,{shares},");
        self.numbers += 1;
        if kind == '3' {
            self.slips.push((self.numbers, shares));
        }
    }

    fn cancel(&mut self) {
        if self.orders.is_empty() || self.random.once_in(6) {
            let (member, last) = (self.member(), self.numbers + 2);
            let number = self.random.of(0..=last);
            line!(self, "C,{member},,,,,,{number}");
        } else {
            let index = self.random.below(self.orders.len());
            let (number, member) = self.orders.swap_remove(index);
            line!(self, "C,{member},,,,,,{number}");
        }
    }

    fn slip(&mut self) {
        if self.slips.is_empty() || self.random.once_in(6) {
            let last = self.numbers + 2;
            let number = self.random.of(0..=last);
            let away = self.random.of(0..=50);
            line!(self, "S,,,,,,{away},{number}");
        } else {
            let index = self.random.below(self.slips.len());
            let (number, shares) = self.slips[index];
            let away = match self.random.of(0..=4) {
                0 => 0,
                1 => shares,
                2 => shares + 1,
                _ => self.random.of(0..=shares),
            };
            if away <= shares {
                self.slips.swap_remove(index);
            }
            line!(self, "S,,,,,,{away},{number}");
        }
    }

    /// A quote of some centre on its own side of the base, or now and then across it.
    fn tell(&mut self, centres: u32) {
        let centre = self.random.of(0..=centres - 1);
        let side = self.side();
        let away = self.around;
        let mut price = self.base.saturating_sub(self.random.of(0..=away) / 2);
        if side == 'S' {
            price = self.base + self.random.of(0..=away) / 2;
        }
        if self.random.once_in(8) {
            price = self.near();
        }
        let price = price.clamp(MIN_PRICE, MAX_PRICE);
        let size = self.random.pick(&[0, 1, 99, 100, 100, 101, 300, 500, 1_000_000]);
        if size == 0 && self.random.once_in(2) {
            line!(self, "T,{centre},{side},,,,0,");
        } else {
            line!(self, "T,{centre},{side},,{price},,{size},");
        }
    }

    fn exception(&mut self, centres: u32) {
        let centre = self.random.of(0..=centres - 1);
        let call = self.random.pick(&['X', 'L', 'L']);
        line!(self, "{call},{centre},,,,,,");
    }

    fn register(&mut self) {
        let call = self.random.pick(&['A', 'A', 'A', 'W']);
        let member = self.member();
        line!(self, "{call},{member},,,,,,");
    }

    fn phase(&mut self, kinds: &[char]) {
        let kind = self.random.pick(kinds);
        line!(self, "P,,,{kind},,,,");
    }

    /// One call of a market as it goes.
    fn step(&mut self, centres: u32) {
        match self.random.of(0..=99) {
            0..=34 => self.entry(),
            35..=59 => self.retail(),
            60..=71 => self.tell(centres),
            72..=77 => self.cancel(),
            78..=83 => self.slip(),
            84..=87 => self.exception(centres),
            88..=95 => line!(self, "I,,,,,,,"),
            96 | 97 => self.register(),
            98 if self.random.once_in(8) => self.phase(&['H']),
            _ => self.phase(&['O']),
        }
    }

    /// A market that matches a lot.
    fn market(&mut self, base: u32, around: u32) {
        (self.base, self.around) = (base, around);
        let centres = self.random.pick(&[2, 3, 6]);
        self.open();
        for _ in 0..3 {
            self.tell(centres);
        }
        let steps = self.random.pick(&[30, 120, 400, 1_500, 3_200]);
        for _ in 0..steps {
            self.step(centres);
        }
        if self.random.once_in(3) {
            self.phase(&['C', 'H']);
            for _ in 0..10 {
                self.step(centres);
            }
        }
    }

    /// All centres quote, and exceptions come and go; some orders show what the protected quotes are.
    fn many_quotes(&mut self) {
        self.open();
        let steps = self.random.of(50..=900);
        for _ in 0..steps {
            match self.random.of(0..=9) {
                0..=4 => self.tell(CENTRES),
                5 | 6 => self.exception(CENTRES),
                7 => self.entry(),
                8 => self.retail(),
                _ => line!(self, "I,,,,,,,"),
            }
        }
    }

    /// A number at an end of its range, beyond it, or within.
    fn odd(&mut self, first: u32, last: u32, within: u32) -> String {
        let number = match self.random.of(0..=13) {
            0 => first.saturating_sub(1),
            1 => first,
            2 => last,
            3 => last + 1,
            4 => self.random.pick(&[0, 999_999_999, 65_536, 500_001]),
            _ => within,
        };
        number.to_string()
    }

    /// Calls that are refused for many reasons, and others between.
    fn refusals(&mut self) {
        self.members = 3;
        if self.random.once_in(2) {
            self.open();
        }
        let steps = self.random.of(40..=700);
        for _ in 0..steps {
            let (near, member, side) = (self.near(), self.member(), self.side());
            let who = self.odd(FIRST_MEMBER, LAST_MEMBER, member);
            let centre = self.odd(0, CENTRES - 1, member);
            let price = self.odd(MIN_PRICE, MAX_PRICE, near);
            let within = self.random.of(1..=500);
            let shares = self.odd(MIN_SHARES, MAX_SHARES, within);
            let size = self.odd(0, MAX_QUOTE_SIZE, within);
            let last = self.numbers + 1;
            let number = self.random.of(0..=last);
            match self.random.of(0..=15) {
                0..=4 => {
                    let kind = self.random.pick(&['R', 'R', 'H', 'D']);
                    let given = self.odd(MIN_OFFSET, MAX_OFFSET, within);
                    let offset = if self.random.once_in(2) { given } else { String::new() };
                    line!(self, "E,{who},{side},{kind},{price},{offset},{shares},");
                    self.numbers += 1;
                }
                5..=8 => {
                    let kind = self.random.pick(&['1', '2', '3']);
                    line!(self, "R,{who},{side},{kind},{price},,{shares},");
                    self.numbers += 1;
                }
                9 => line!(self, "C,{who},,,,,,{number}"),
                10 => line!(self, "T,{centre},{side},,{price},,{size},"),
                11 => line!(self, "S,,,,,,{within},{number}"),
                12 => self.register(),
                13 => {
                    let call = self.random.pick(&['A', 'W']);
                    line!(self, "{call},{who},,,,,,");
                }
                14 => {
                    let call = self.random.pick(&['X', 'L']);
                    line!(self, "{call},{centre},,,,,,");
                }
                _ => match self.random.of(0..=40) {
                    0 => self.phase(&['C']),
                    _ => self.phase(&['O', 'O', 'O', 'H']),
                },
            }
        }
    }

    /// A number at an end of its range, written with zeros before it or with too many digits now and then.
    fn end(&mut self, first: u32, last: u32) -> String {
        let number = self.random.pick(&[first.saturating_sub(1), first, first + 1, last - 1, last, last + 1, last]);
        match self.random.of(0..=19) {
            0 => format!("{number:09}"),
            1 => format!("{number:010}"),
            2 => format!("{number:05}"),
            3 => "999999999".to_string(),
            4 => "1000000000".to_string(),
            5 => "000000000".to_string(),
            6 => "4294967296".to_string(),
            _ => number.to_string(),
        }
    }

    /// Orders, quotes and Retail Orders at the ends of all ranges.
    fn ends(&mut self) {
        self.members = 64;
        self.open();
        let steps = self.random.of(50..=700);
        for _ in 0..steps {
            let (side, member) = (self.side(), self.end(FIRST_MEMBER, LAST_MEMBER));
            let (price, shares) = (self.end(MIN_PRICE, MAX_PRICE), self.end(MIN_SHARES, MAX_SHARES));
            let tight = self.random.pick(&["1000", "999", "1001", "9999990", "10", "990", "1010"]);
            let price = if self.random.once_in(3) { tight.to_string() } else { price };
            match self.random.of(0..=9) {
                0..=3 => {
                    let kind = self.random.pick(&['R', 'R', 'H', 'D']);
                    let given = self.end(MIN_OFFSET, MAX_OFFSET);
                    let offset = if kind == 'R' && self.random.once_in(2) { given } else { String::new() };
                    line!(self, "E,{member},{side},{kind},{price},{offset},{shares},");
                }
                4..=6 => {
                    let kind = self.random.pick(&['1', '2', '3']);
                    line!(self, "R,{member},{side},{kind},{price},,{shares},");
                }
                7 | 8 => {
                    let (centre, size) = (self.end(0, CENTRES - 1), self.end(LOT, MAX_QUOTE_SIZE));
                    line!(self, "T,{centre},{side},,{price},,{size},");
                }
                _ => line!(self, "I,,,,,,,"),
            }
        }
    }

    /// 256 orders rest, more are refused, and Retail Orders fill many of them at once.
    fn full_book(&mut self) {
        self.open();
        self.around = self.random.pick(&[3, 10, 40]);
        let around = self.around;
        let (bid, offer) = (self.base - around - 1, self.base + around + 1);
        line!(self, "T,1,B,,{bid},,300,");
        line!(self, "T,2,S,,{offer},,300,");
        let rounds = self.random.of(1..=5);
        for _ in 0..rounds {
            let entries = self.random.pick(&[254, 255, 256, 257, 258, 270]);
            for _ in 0..entries {
                self.entry();
            }
            for _ in 0..self.random.of(0..=12) {
                match self.random.of(0..=3) {
                    0 => self.cancel(),
                    1 => self.retail(),
                    2 => self.tell(3),
                    _ => self.entry(),
                }
            }
            for side in ['B', 'S'] {
                let kind = self.random.pick(&['1', '2', '3']);
                let limit = if side == 'B' { MAX_PRICE } else { MIN_PRICE };
                let shares = self.random.pick(&[1, 5_000, 100_000, MAX_SHARES]);
                line!(self, "R,1,{side},{kind},{limit},,{shares},");
                self.numbers += 1;
            }
        }
    }

    /// Up to 32 slips wait, more Retail Orders are refused, and slips come back.
    fn many_slips(&mut self) {
        self.open();
        let rounds = self.random.of(1..=4);
        for _ in 0..rounds {
            for _ in 0..self.random.of(28..=36) {
                let shares = self.random.of(1..=1_000);
                let side = self.side();
                let limit = if side == 'B' { 9_000 } else { 11_000 };
                line!(self, "R,1,{side},3,{limit},,{shares},");
                self.numbers += 1;
                self.slips.push((self.numbers, shares));
            }
            for _ in 0..self.random.of(1..=60) {
                match self.random.of(0..=9) {
                    0..=6 => self.slip(),
                    7 => self.entry(),
                    8 => self.phase(&['O', 'H']),
                    _ => self.retail(),
                }
            }
        }
    }

    /// A market in which many lines are spoilt.
    fn faults(&mut self) {
        self.open();
        let steps = self.random.of(30..=900);
        for _ in 0..steps {
            if self.random.once_in(4) {
                self.nearly();
                continue;
            }
            let start = self.bytes.len();
            self.step(4);
            if self.random.once_in(2) {
                let mut line = self.bytes.split_off(start);
                line.pop();
                for _ in 0..self.random.pick(&[1, 1, 1, 2, 4]) {
                    line = self.spoil(line);
                }
                self.bytes.extend_from_slice(&line);
                if !self.random.once_in(20) {
                    self.bytes.push(b'\n');
                }
            }
        }
    }

    /// A line of any call with one field changed: every call and every letter come.
    fn nearly(&mut self) {
        let good = self.random.pick(&[
            "E,1,B,R,10010,10,5,",
            "E,1,S,D,10010,,5,",
            "C,1,,,,,,1",
            "R,1,B,1,10010,,5,",
            "T,1,S,,10010,,100,",
            "P,,,O,,,,",
            "A,1,,,,,,",
            "W,1,,,,,,",
            "X,1,,,,,,",
            "L,1,,,,,,",
            "S,,,,,,1,1",
            "I,,,,,,,",
        ]);
        let letters = b"ABCDEFGHIJKLMNOPQRSTUVWXYZ0123456789";
        let mut fields: Vec<Vec<u8>> = good.split(',').map(|field| field.as_bytes().to_vec()).collect();
        for _ in 0..self.random.pick(&[1, 1, 1, 2]) {
            let place = self.random.below(fields.len());
            fields[place] = match self.random.of(0..=5) {
                0 => vec![],
                1 => self.random.of(0..=200).to_string().into_bytes(),
                2 => vec![self.byte()],
                _ => vec![self.random.pick(letters)],
            };
        }
        self.bytes.extend_from_slice(&fields.join(&b','));
        self.bytes.push(b'\n');
    }

    /// A byte that may stand, or hardly ever stands, in a day file.
    fn byte(&mut self) -> u8 {
        if self.random.once_in(4) {
            return self.random.of(0..=255) as u8;
        }
        self.random.pick(b",,,0123456789ECRTPAWXLSIBSRHD123OHCebsoO \r\t-+.\"/:")
    }

    /// A line with one thing changed.
    fn spoil(&mut self, mut line: Vec<u8>) -> Vec<u8> {
        let place = self.random.below(line.len() + 1);
        let inside = place.min(line.len().saturating_sub(1));
        match self.random.of(0..=9) {
            0 => line.truncate(place),
            1 => drop(line.drain(..place)),
            2 if !line.is_empty() => drop(line.remove(inside)),
            3 if !line.is_empty() => line[inside] = self.byte(),
            4 | 5 => {
                let byte = self.byte();
                line.insert(place, byte);
            }
            6 => line.push(b'\r'),
            _ => return self.spoil_field(line),
        }
        line
    }

    /// A line with one field changed, or two swapped.
    fn spoil_field(&mut self, line: Vec<u8>) -> Vec<u8> {
        let mut fields: Vec<Vec<u8>> = line.split(|byte| *byte == b',').map(<[u8]>::to_vec).collect();
        let (one, other) = (self.random.below(fields.len()), self.random.below(fields.len()));
        match self.random.of(0..=7) {
            0 => fields.swap(one, other),
            1 => fields[one].clear(),
            2 => fields[one] = fields[other].clone(),
            3 => fields[one] = vec![self.byte()],
            4 => fields[one].make_ascii_lowercase(),
            5 => {
                let zeros = self.random.below(11);
                fields[one].splice(0..0, vec![b'0'; zeros]);
            }
            6 => {
                let doubled = fields[one].clone();
                fields[one].extend_from_slice(&doubled);
            }
            _ => {
                let digits = self.random.of(1..=12);
                fields[one] = (0..digits).map(|_| b'0' + self.random.of(0..=9) as u8).collect();
            }
        }
        fields.join(&b',')
    }

    /// Lines of 118 to 123 bytes, of eight fields and of others.
    fn long_lines(&mut self) {
        self.open();
        let steps = self.random.of(20..=300);
        for _ in 0..steps {
            if self.random.once_in(3) {
                self.step(4);
                continue;
            }
            let start = self.bytes.len();
            self.step(4);
            let mut line = self.bytes.split_off(start);
            line.pop();
            let length = self.random.pick(&[118, 119, 120, 120, 120, 121, 121, 121, 122, 123, 500]);
            let place = self.random.below(line.len() + 1);
            let filler = self.random.pick(b"0019 EB,");
            line.splice(place..place, vec![filler; length - line.len().min(length)]);
            self.bytes.extend_from_slice(&line);
            self.bytes.push(b'\n');
        }
    }

    /// A file of about 65,536 bytes, cut or filled to be as long as it may be, or a byte longer or shorter.
    fn long_file(mut self) -> Vec<u8> {
        let length = MAX_FILE + self.random.below(4) - 1;
        self.open();
        let style = self.random.of(0..=5);
        while self.bytes.len() < length {
            match style {
                0 => self.bytes.push(b'\n'),
                1 => self.tell(CENTRES),
                2 => self.many_fills(),
                _ => self.step(6),
            }
        }
        self.bytes.truncate(length);
        if self.random.once_in(2) {
            self.bytes[length - 1] = b'\n';
        }
        self.bytes
    }

    /// Short lines that fill and answer as much as they can.
    fn many_fills(&mut self) {
        for _ in 0..self.random.of(1..=12) {
            line!(self, "E,1,B,H,1,,1,");
        }
        let shares = self.random.of(1..=9);
        line!(self, "R,1,S,2,1,,{shares},");
    }

    /// Files that do not begin with the header line, and the smallest that do.
    fn file_faults(mut self) -> Vec<u8> {
        let style = self.random.of(0..=11);
        let names = NAMES_LINE.to_vec();
        match style {
            0 => return vec![],
            1 => return names,
            2 => return self.bytes,
            3 => return vec![b'\n'],
            4 => self.bytes.insert(names.len(), b'\r'),
            5 => self.bytes.splice(0..0, *b"\xEF\xBB\xBF").for_each(drop),
            6 => self.bytes[names.len()] = self.byte(),
            7 => self.bytes = self.spoil(names),
            8 => {
                let place = self.random.below(names.len());
                self.bytes[place] = self.byte();
            }
            9 => self.bytes.insert(0, b'\n'),
            10 => {
                let length = MAX_FILE + self.random.below(3);
                self.bytes = (0..length).map(|_| self.byte()).collect();
                return self.bytes;
            }
            _ => {
                let cut = self.random.below(names.len() + 1);
                self.bytes.truncate(cut);
                return self.bytes;
            }
        }
        self.open();
        for _ in 0..20 {
            self.step(4);
        }
        self.bytes
    }

    /// Bytes as they come after the header line.
    fn noise(&mut self) {
        let length = self.random.of(0..=6_000);
        let letters: &[u8] = if self.random.once_in(2) { b",,,,\nECRTPAWXLSIBSRHD123OHC0195" } else { b",\n" };
        for _ in 0..length {
            let byte = if self.random.once_in(30) { self.byte() } else { self.random.pick(letters) };
            self.bytes.push(byte);
        }
    }
}
