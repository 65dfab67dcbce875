//! A model of Read: the first offence of a text, or its rows and its tree.

use std::collections::HashSet;

pub const NULL: u32 = 1;
pub const FALSE: u32 = 2;
pub const TRUE: u32 = 3;
pub const WHOLE: u32 = 4;
pub const FRACTIONAL: u32 = 5;
pub const STRING: u32 = 6;
pub const ARRAY: u32 = 7;
pub const OBJECT: u32 = 8;
pub const NAME: u32 = 9;

pub const TOO_LONG: u32 = 1;
pub const ENDED: u32 = 2;
pub const NOT_ALLOWED: u32 = 3;
pub const NOT_UTF8: u32 = 4;
pub const NO_PARTNER: u32 = 5;
pub const NAME_TWICE: u32 = 6;
pub const TOO_DEEP: u32 = 7;
pub const NO_ROOM: u32 = 8;

pub const ROW_WORDS: usize = 6;

pub type Row = [u32; ROW_WORDS];
pub type Answer = [u32; 4];

/// The longest text in bytes and the most brackets open at once.
#[derive(Clone, Copy)]
pub struct Limits {
    pub bytes: usize,
    pub depth: usize,
}

pub const DOCUMENT: Limits = Limits { bytes: 65_536, depth: 32 };
pub const SCHEMA: Limits = Limits { bytes: 16_384, depth: 24 };

/// A value with its first byte. A string has characters, an array elements, an object members.
pub struct Node {
    pub kind: u32,
    pub place: u32,
    pub characters: String,
    pub elements: Vec<Node>,
    pub members: Vec<Member>,
}

/// A member with the opening quote of its name.
pub struct Member {
    pub name: String,
    pub place: u32,
    pub value: Node,
}

/// Codes 1 to 7 and 10 to 12 with their place.
#[derive(Clone, Copy, PartialEq, Eq, Debug)]
pub struct Fault {
    pub code: u32,
    pub place: u32,
}

/// What a text is, whatever the table. The tree is there when there is no fault.
pub struct Reading {
    pub tree: Result<Node, Fault>,
    pub rows: Vec<Row>,
}

/// What a call must leave: the answer, and which tables hold the rows of their text.
pub struct Expected {
    pub answer: Answer,
    pub written: [bool; 2],
}

/// Length (1), then the first offence from left to right (2 to 7).
pub fn reading(text: &[u8], limits: Limits) -> Reading {
    if text.len() > limits.bytes {
        let fault = Fault { code: TOO_LONG, place: limits.bytes as u32 };
        return Reading { tree: Err(fault), rows: Vec::new() };
    }
    let mut reader = Reader { text, place: 0, depth_left: limits.depth, rows: Vec::new(), open: Vec::new() };
    let tree = reader.read_text();
    let rows = if tree.is_ok() { reader.rows } else { Vec::new() };
    Reading { tree, rows }
}

/// The service Read with a table of so many words.
pub fn read(text: &Reading, words: usize) -> Expected {
    match take(text, words, 1) {
        Ok(_) => Expected { answer: [0, 0, 0, text.rows.len() as u32], written: [true, false] },
        Err(answer) => Expected { answer, written: [false, false] },
    }
}

/// The tree of a text that is well-formed and has room, or the answer 1 to 8.
pub fn take(text: &Reading, words: usize, which: u32) -> Result<&Node, Answer> {
    match &text.tree {
        Err(fault) => Err([fault.code, which, fault.place, 0]),
        Ok(_) if text.rows.len() > words / ROW_WORDS => Err([NO_ROOM, which, 0, text.rows.len() as u32]),
        Ok(node) => Ok(node),
    }
}

struct Reader<'a> {
    text: &'a [u8],
    place: usize,
    depth_left: usize,
    rows: Vec<Row>,
    /// The rows of the brackets that are open.
    open: Vec<u32>,
}

impl Reader<'_> {
    /// Space, one value of any kind, space, and nothing behind.
    fn read_text(&mut self) -> Result<Node, Fault> {
        self.skip_space();
        let node = self.read_value()?;
        self.skip_space();
        if self.place < self.text.len() {
            return self.refuse(NOT_ALLOWED);
        }
        Ok(node)
    }

    fn refuse<T>(&self, code: u32) -> Result<T, Fault> {
        Err(Fault { code, place: self.place as u32 })
    }

    /// The byte at the place; a text that stops here ended early.
    fn byte(&self) -> Result<u8, Fault> {
        match self.text.get(self.place) {
            Some(&byte) => Ok(byte),
            None => self.refuse(ENDED),
        }
    }

    fn next_is(&self, allowed: &[u8]) -> bool {
        self.text.get(self.place).is_some_and(|byte| allowed.contains(byte))
    }

    /// Passes one of the allowed bytes; any other is the code given.
    fn take(&mut self, allowed: &[u8], code: u32) -> Result<u8, Fault> {
        let byte = self.byte()?;
        if !allowed.contains(&byte) {
            return self.refuse(code);
        }
        self.place += 1;
        Ok(byte)
    }

    fn skip_space(&mut self) {
        while self.next_is(b" \t\n\r") {
            self.place += 1;
        }
    }

    /// The sixth word is the row of the innermost bracket; outside of all it is 0.
    fn open_row(&mut self, kind: u32) -> usize {
        self.rows.push([kind, self.place as u32, 0, 0, 0, *self.open.last().unwrap_or(&0)]);
        self.rows.len() - 1
    }

    /// Sets the byte after the last, the direct children and the rows of the subtree.
    fn close_row(&mut self, number: usize, children: usize) -> Node {
        let subtree = self.rows.len() - number;
        let row = &mut self.rows[number];
        row[2] = self.place as u32;
        row[3] = children as u32;
        row[4] = subtree as u32;
        Node { kind: row[0], place: row[1], characters: String::new(), elements: Vec::new(), members: Vec::new() }
    }

    /// The first byte of a value decides what is read.
    fn read_value(&mut self) -> Result<Node, Fault> {
        match self.byte()? {
            b'n' => self.read_literal(b"null", NULL),
            b'f' => self.read_literal(b"false", FALSE),
            b't' => self.read_literal(b"true", TRUE),
            b'-' | b'0'..=b'9' => self.read_number(),
            b'"' => self.read_string(),
            b'[' => self.read_array(),
            b'{' => self.read_object(),
            _ => self.refuse(NOT_ALLOWED),
        }
    }

    fn read_literal(&mut self, word: &[u8], kind: u32) -> Result<Node, Fault> {
        let row = self.open_row(kind);
        for byte in word {
            self.take(&[*byte], NOT_ALLOWED)?;
        }
        Ok(self.close_row(row, 0))
    }

    fn read_number(&mut self) -> Result<Node, Fault> {
        let row = self.open_row(WHOLE);
        self.read_whole_part()?;
        if self.next_is(b".") {
            self.place += 1;
            self.rows[row][0] = FRACTIONAL;
            self.read_digits()?;
        }
        if self.next_is(b"eE") {
            self.place += 1;
            self.rows[row][0] = FRACTIONAL;
            if self.next_is(b"+-") {
                self.place += 1;
            }
            self.read_digits()?;
        }
        Ok(self.close_row(row, 0))
    }

    /// Perhaps a minus, then 0 alone or digits that begin with 1 to 9.
    fn read_whole_part(&mut self) -> Result<(), Fault> {
        if self.next_is(b"-") {
            self.place += 1;
        }
        if !self.next_is(b"0") {
            return self.read_digits();
        }
        self.place += 1;
        if self.next_is(b"0123456789") {
            return self.refuse(NOT_ALLOWED);
        }
        Ok(())
    }

    /// One digit or more.
    fn read_digits(&mut self) -> Result<(), Fault> {
        self.take(b"0123456789", NOT_ALLOWED)?;
        while self.next_is(b"0123456789") {
            self.place += 1;
        }
        Ok(())
    }

    /// One bracket more than the depth is too deep, at that bracket.
    fn open_bracket(&mut self, row: usize) -> Result<(), Fault> {
        if self.depth_left == 0 {
            return self.refuse(TOO_DEEP);
        }
        self.depth_left -= 1;
        self.open.push(row as u32);
        self.place += 1;
        self.skip_space();
        Ok(())
    }

    fn close_bracket(&mut self) {
        self.depth_left += 1;
        self.open.pop();
        self.place += 1;
    }

    fn read_array(&mut self) -> Result<Node, Fault> {
        let row = self.open_row(ARRAY);
        self.open_bracket(row)?;
        let mut elements = Vec::new();
        while self.byte()? != b']' {
            self.pass_comma(elements.len())?;
            elements.push(self.read_value()?);
            self.skip_space();
        }
        self.close_bracket();
        let node = self.close_row(row, elements.len());
        Ok(Node { elements, ..node })
    }

    fn read_object(&mut self) -> Result<Node, Fault> {
        let row = self.open_row(OBJECT);
        self.open_bracket(row)?;
        let mut members = Vec::new();
        let mut names = HashSet::new();
        while self.byte()? != b'}' {
            self.pass_comma(members.len())?;
            members.push(self.read_member(&mut names)?);
            self.skip_space();
        }
        self.close_bracket();
        let node = self.close_row(row, members.len());
        Ok(Node { members, ..node })
    }

    /// A comma and space stand before each element or member but the first.
    fn pass_comma(&mut self, before: usize) -> Result<(), Fault> {
        if before > 0 {
            self.take(b",", NOT_ALLOWED)?;
            self.skip_space();
        }
        Ok(())
    }

    fn read_member(&mut self, names: &mut HashSet<String>) -> Result<Member, Fault> {
        let place = self.place as u32;
        let name = self.read_name(names)?;
        self.skip_space();
        self.take(b":", NOT_ALLOWED)?;
        self.skip_space();
        Ok(Member { name, place, value: self.read_value()? })
    }

    /// A name that the object already has is refused at its closing quote.
    fn read_name(&mut self, names: &mut HashSet<String>) -> Result<String, Fault> {
        let row = self.open_row(NAME);
        self.take(b"\"", NOT_ALLOWED)?;
        let name = self.read_characters()?;
        if !names.insert(name.clone()) {
            return self.refuse(NAME_TWICE);
        }
        self.place += 1;
        self.close_row(row, 0);
        Ok(name)
    }

    fn read_string(&mut self) -> Result<Node, Fault> {
        let row = self.open_row(STRING);
        self.place += 1;
        let characters = self.read_characters()?;
        self.place += 1;
        Ok(Node { characters, ..self.close_row(row, 0) })
    }

    /// The characters up to the closing quote, which is not passed.
    fn read_characters(&mut self) -> Result<String, Fault> {
        let mut characters = String::new();
        loop {
            let scalar = match self.byte()? {
                b'"' => return Ok(characters),
                0..=0x1F => return self.refuse(NOT_ALLOWED),
                b'\\' => self.read_escape()?,
                byte @ 0x20..=0x7F => {
                    self.place += 1;
                    u32::from(byte)
                }
                lead => self.read_utf8(lead)?,
            };
            characters.push(char::from_u32(scalar).expect("a scalar value"));
        }
    }

    /// No overlong form, no surrogate, nothing above 10FFFF.
    fn read_utf8(&mut self, lead: u8) -> Result<u32, Fault> {
        if begins_no_character(lead) {
            return self.refuse(NOT_UTF8);
        }
        self.place += 1;
        let (bits, count) = match lead {
            0xC2..=0xDF => (lead & 0x1F, 1),
            0xE0..=0xEF => (lead & 0x0F, 2),
            _ => (lead & 0x07, 3),
        };
        let mut scalar = u32::from(bits);
        let (mut low, mut high) = second_byte(lead);
        for _ in 0..count {
            let byte = self.byte()?;
            if byte < low || byte > high {
                return self.refuse(NOT_UTF8);
            }
            self.place += 1;
            scalar = scalar << 6 | u32::from(byte & 0x3F);
            (low, high) = (0x80, 0xBF);
        }
        Ok(scalar)
    }

    fn read_escape(&mut self) -> Result<u32, Fault> {
        self.place += 1;
        let byte = self.byte()?;
        let scalar = match byte {
            b'"' | b'\\' | b'/' => u32::from(byte),
            b'b' => 8,
            b'f' => 12,
            b'n' => 10,
            b'r' => 13,
            b't' => 9,
            b'u' => {
                self.place += 1;
                return self.read_unit();
            }
            _ => return self.refuse_in_escape(byte),
        };
        self.place += 1;
        Ok(scalar)
    }

    /// Bytes inside an escape are judged by UTF-8 too; 4 goes before 3.
    fn refuse_in_escape<T>(&self, byte: u8) -> Result<T, Fault> {
        self.refuse(if begins_no_character(byte) { NOT_UTF8 } else { NOT_ALLOWED })
    }

    /// Four hex digits. A low surrogate coming first is refused at its second digit.
    fn read_unit(&mut self) -> Result<u32, Fault> {
        let mut unit = self.read_hex_digit()?;
        if unit == 0xD && b"CDEFcdef".contains(&self.byte()?) {
            return self.refuse(NO_PARTNER);
        }
        for _ in 0..3 {
            unit = unit << 4 | self.read_hex_digit()?;
        }
        if !(0xD800..=0xDBFF).contains(&unit) {
            return Ok(unit);
        }
        let low = self.read_partner()?;
        Ok(0x10000 + ((unit - 0xD800) << 10) + (low - 0xDC00))
    }

    /// Behind a high surrogate the next four bytes are judged by 5.
    fn read_partner(&mut self) -> Result<u32, Fault> {
        self.take(b"\\", NO_PARTNER)?;
        self.take(b"u", NO_PARTNER)?;
        self.take(b"Dd", NO_PARTNER)?;
        let second = self.take(b"CDEFcdef", NO_PARTNER)?;
        let mut unit = 0xD0 | hex_number(second).unwrap_or(0);
        for _ in 0..2 {
            unit = unit << 4 | self.read_hex_digit()?;
        }
        Ok(unit)
    }

    fn read_hex_digit(&mut self) -> Result<u32, Fault> {
        let byte = self.byte()?;
        match hex_number(byte) {
            Some(number) => {
                self.place += 1;
                Ok(number)
            }
            None => self.refuse_in_escape(byte),
        }
    }
}

fn hex_number(byte: u8) -> Option<u32> {
    char::from(byte).to_digit(16)
}

/// Whether no UTF-8 character begins with this byte.
fn begins_no_character(byte: u8) -> bool {
    matches!(byte, 0x80..=0xC1 | 0xF5..=0xFF)
}

/// The range of the byte behind a lead byte.
fn second_byte(lead: u8) -> (u8, u8) {
    match lead {
        0xE0 => (0xA0, 0xBF),
        0xED => (0x80, 0x9F),
        0xF0 => (0x90, 0xBF),
        0xF4 => (0x80, 0x8F),
        _ => (0x80, 0xBF),
    }
}
