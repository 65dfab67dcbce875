//! Random texts and lengths of tables. The same seed gives the same ones.

use crate::pairs::schema;
use crate::path::LEAST_LIST;
use crate::read::{DOCUMENT, ROW_WORDS};

/// A xorshift generator.
pub struct Chance {
    state: u64,
}

impl Chance {
    pub fn new(seed: u64) -> Chance {
        let mut chance = Chance { state: seed.wrapping_mul(0x9E37_79B9_7F4A_7C15) | 1 };
        for _ in 0..16 {
            chance.word();
        }
        chance
    }

    pub fn word(&mut self) -> u64 {
        self.state ^= self.state >> 12;
        self.state ^= self.state << 25;
        self.state ^= self.state >> 27;
        self.state.wrapping_mul(0x2545_F491_4F6C_DD1D)
    }

    /// A number under the bound, which is not 0.
    pub fn below(&mut self, bound: usize) -> usize {
        (((self.word() >> 32) * bound as u64) >> 32) as usize
    }

    pub fn between(&mut self, least: usize, most: usize) -> usize {
        least + self.below(most - least + 1)
    }

    pub fn one_in(&mut self, bound: usize) -> bool {
        self.below(bound) == 0
    }

    pub fn pick<T: Clone>(&mut self, choices: &[T]) -> T {
        choices[self.below(choices.len())].clone()
    }

    pub fn shuffle<T>(&mut self, list: &mut [T]) {
        for last in (1..list.len()).rev() {
            list.swap(last, self.below(last + 1));
        }
    }
}

/// With room, one row short, each small length in turn, or more than needed.
pub fn table_length(rows: usize, number: u64, often_small: bool, chance: &mut Chance) -> usize {
    let needed = rows * ROW_WORDS;
    match chance.below(if often_small { 12 } else { 40 }) {
        0 | 1 => (number % 19) as usize,
        2 => needed.saturating_sub(chance.between(1, ROW_WORDS)),
        3 => needed + chance.between(ROW_WORDS, 60),
        _ => needed + chance.below(ROW_WORDS),
    }
}

/// The least words of a list for a path, each small length in turn, or more.
pub fn list_length(number: u64, chance: &mut Chance) -> usize {
    match chance.below(8) {
        0 => (number % 41) as usize,
        1 => LEAST_LIST - 1,
        2 => LEAST_LIST + chance.between(1, 60),
        _ => LEAST_LIST,
    }
}

/// A value to be written as text. A plain one is written as it is.
#[derive(Clone)]
pub enum Value {
    Plain(&'static str),
    String(String),
    Array(Vec<Value>),
    Object(Vec<(String, Value)>),
}

pub const LITERALS: [&str; 3] = ["null", "false", "true"];
pub const WHOLE_NUMBERS: [&str; 8] = ["0", "-0", "1", "-7", "10", "907", "-120", "12345678901234567890"];
pub const OTHER_NUMBERS: [&str; 8] = ["0.5", "-0.0", "1e5", "2E+07", "30.4e-1", "1.0", "-9E0", "10.25E-3"];
pub const TYPE_NAMES: [&str; 7] = ["JSON", "Schema", "Float", "Integer", "String", "Boolean", "DateTime"];

/// Names of members, some of which differ by little.
pub const NAMES: [&str; 16] = [
    "a", "b", "c", "aa", "A", "", "é", "e\u{301}", "\n", "\"", "\\", "/", "😀", "required", "Array", "\u{0}",
];

/// Characters at the boundaries of each UTF-8 length, around the surrogates, and with short escapes.
const CHARACTERS: [char; 30] = [
    'a', 'b', 'x', '0', ' ', '{', ']', ',', ':', '"', '\\', '/', '\u{8}', '\u{c}', '\n', '\r', '\t', '\u{0}',
    '\u{1f}', '\u{7f}', '\u{80}', '\u{7ff}', '\u{800}', '\u{d7ff}', '\u{e000}', '\u{feff}', '\u{ffff}', '\u{10000}',
    '\u{1f600}', '\u{10ffff}',
];

const SHORT_ESCAPES: [(char, u8); 8] = [
    ('"', b'"'), ('\\', b'\\'), ('/', b'/'), ('\u{8}', b'b'), ('\u{c}', b'f'), ('\n', b'n'), ('\r', b'r'),
    ('\t', b't'),
];

/// Bytes that are put into a text to damage it.
const INTERESTING: &[u8] = b"\"\\[]{},:0123456789-+.eEuDdCcBbFfGgnt/ \t\n\r\
    \x00\x1F\x7F\x80\x8F\x90\x9F\xA0\xBF\xC0\xC1\xC2\xC3\xDF\xE0\xE1\xED\xEE\xEF\xF0\xF1\xF4\xF5\xFF";

/// Pieces of strings, whole ones and ones that want more.
const STRING_PIECES: [&[u8]; 43] = [
    b"a", b"\\n", b"\\\"", b"\\\\", b"\\u0061", b"\\uAbCd", b"\\uD7FF", b"\\ue000", b"\\uD83D\\uDE00",
    b"\\udbff\\udfff", b"\\uD83D", b"\\uDE00", b"\\uD83D\\u", b"\\uD83D\\uD", b"\\uD83D\\uDE", b"\\uD83D\\uDEG",
    b"\\uD83D\\uE", b"\\uD83D\\n", b"\\uDBFF\\u0", b"\\uD", b"\\u00", b"\\u", b"\\", b"\xC2\x80", b"\xDF\xBF",
    b"\xE0\xA0\x80", b"\xED\x9F\xBF", b"\xEE\x80\x80", b"\xEF\xBB\xBF", b"\xF0\x90\x80\x80", b"\xF4\x8F\xBF\xBF",
    b"\xE0\x80", b"\xED\xA0", b"\xF0\x8F", b"\xF4\x90", b"\xC3", b"\xE1\x80", b"\xF1\x80\x80", b"\x80", b"\\\xC3",
    b"\xE0\x9F\xBF", b"\\u\xC1", b"\xC0\x80",
];

/// Pieces of text outside strings.
const TOKENS: [&[u8]; 36] = [
    b"[", b"]", b"{", b"}", b",", b":", b" ", b"\n", b"\"a\"", b"\"b\"", b"\"\\u0061\"", b"\"a\":", b"\"b\":", b"1",
    b"0", b"-", b"1.", b"1.5", b"1e", b"1e+", b"2E5", b"01", b"-0", b"null", b"tru", b"true", b"false", b"nul",
    b"\xEF\xBB\xBF", b"\x80", b"[]", b"{}", b"[1,", b"{\"a\":1,", b"\"", b"\"Integer\"",
];

pub fn string(text: &str) -> Value {
    Value::String(text.to_string())
}

pub fn member(name: &str, value: Value) -> (String, Value) {
    (name.to_string(), value)
}

pub fn characters(most: usize, chance: &mut Chance) -> String {
    (0..chance.below(most + 1)).map(|_| chance.pick(&CHARACTERS)).collect()
}

/// Names that differ, at most so many.
pub fn names(most: usize, chance: &mut Chance) -> Vec<String> {
    let mut found: Vec<String> = Vec::new();
    for _ in 0..chance.below(most + 1) {
        let name = if chance.one_in(5) { characters(3, chance) } else { chance.pick(&NAMES).to_string() };
        if !found.contains(&name) {
            found.push(name);
        }
    }
    found
}

/// A value with at most so many brackets open at once.
pub fn value(depth: usize, chance: &mut Chance) -> Value {
    match chance.below(if depth > 0 { 11 } else { 6 }) {
        0 => Value::Plain(chance.pick(&LITERALS)),
        1 => Value::Plain(chance.pick(&WHOLE_NUMBERS)),
        2 => Value::Plain(chance.pick(&OTHER_NUMBERS)),
        3..=5 => Value::String(characters(5, chance)),
        6..=7 => Value::Array((0..chance.below(4)).map(|_| value(depth - 1, chance)).collect()),
        _ => {
            let names = names(4, chance);
            Value::Object(names.into_iter().map(|name| (name, value(depth - 1, chance))).collect())
        }
    }
}

// Writing.

pub fn write(value: &Value, chance: &mut Chance) -> Vec<u8> {
    let mut out = Vec::new();
    // In some texts the spelling is varied; the others are compact.
    let varied = !chance.one_in(3);
    write_value(value, varied, &mut out, chance);
    out
}

fn write_value(value: &Value, varied: bool, out: &mut Vec<u8>, chance: &mut Chance) {
    write_space(varied, out, chance);
    match value {
        Value::Plain(word) => out.extend_from_slice(word.as_bytes()),
        Value::String(characters) => write_string(characters, varied, out, chance),
        Value::Array(elements) => {
            out.push(b'[');
            for (number, element) in elements.iter().enumerate() {
                write_comma(number, out);
                write_value(element, varied, out, chance);
            }
            write_space(varied && elements.is_empty(), out, chance);
            out.push(b']');
        }
        Value::Object(members) => write_object(members, varied, out, chance),
    }
    write_space(varied, out, chance);
}

fn write_object(members: &[(String, Value)], varied: bool, out: &mut Vec<u8>, chance: &mut Chance) {
    out.push(b'{');
    write_space(varied, out, chance);
    for (number, (name, value)) in members.iter().enumerate() {
        write_comma(number, out);
        write_space(varied, out, chance);
        write_string(name, varied, out, chance);
        write_space(varied, out, chance);
        out.push(b':');
        write_value(value, varied, out, chance);
    }
    out.push(b'}');
}

fn write_comma(number: usize, out: &mut Vec<u8>) {
    if number > 0 {
        out.push(b',');
    }
}

fn write_space(varied: bool, out: &mut Vec<u8>, chance: &mut Chance) {
    if varied && chance.one_in(8) {
        for _ in 0..chance.between(1, 3) {
            out.push(chance.pick(b" \t\n\r"));
        }
    }
}

fn write_string(characters: &str, varied: bool, out: &mut Vec<u8>, chance: &mut Chance) {
    out.push(b'"');
    for character in characters.chars() {
        write_character(character, varied && chance.one_in(6), out, chance);
    }
    out.push(b'"');
}

fn write_character(character: char, escaped: bool, out: &mut Vec<u8>, chance: &mut Chance) {
    let must = character < ' ' || character == '"' || character == '\\';
    let short = SHORT_ESCAPES.iter().find(|(of, _)| *of == character);
    match short {
        Some((_, letter)) if (must || escaped) && chance.below(3) > 0 => out.extend([b'\\', *letter]),
        _ if must || escaped => {
            for unit in character.encode_utf16(&mut [0; 2]) {
                let digits = if chance.one_in(2) { format!("\\u{unit:04x}") } else { format!("\\u{unit:04X}") };
                out.extend_from_slice(digits.as_bytes());
            }
        }
        _ => out.extend_from_slice(character.encode_utf8(&mut [0; 4]).as_bytes()),
    }
}

// Damage of texts.

/// One byte replaced, put in, left out, or the text cut off.
fn damage(text: &mut Vec<u8>, chance: &mut Chance) {
    let place = chance.below(text.len() + 1);
    let byte = if chance.one_in(6) { chance.below(256) as u8 } else { chance.pick(INTERESTING) };
    match chance.below(5) {
        0 => text.truncate(place),
        1 => text.insert(place, byte),
        2 if place < text.len() => {
            text.remove(place);
        }
        _ if place < text.len() => text[place] = byte,
        _ => text.push(byte),
    }
}

pub fn damaged(mut text: Vec<u8>, chance: &mut Chance) -> Vec<u8> {
    for _ in 0..chance.between(1, 2) {
        damage(&mut text, chance);
    }
    text
}

// Texts for Read.

pub fn text(chance: &mut Chance) -> Vec<u8> {
    if chance.one_in(500) {
        return long_text(DOCUMENT.bytes, chance);
    }
    match chance.below(20) {
        0..=7 => short_text(chance),
        8..=12 => damaged(short_text(chance), chance),
        13 => name_twice(chance),
        14 => deep_text(DOCUMENT.depth, chance),
        15 => damaged(deep_text(DOCUMENT.depth, chance), chance),
        16 | 17 => pieces_of_string(chance),
        18 => (0..chance.below(9)).flat_map(|_| chance.pick(&TOKENS).to_vec()).collect(),
        _ => write(&schema(3, chance), chance),
    }
}

pub fn short_text(chance: &mut Chance) -> Vec<u8> {
    let depth = chance.below(5);
    write(&value(depth, chance), chance)
}

/// An object with one name twice, perhaps spelled differently, perhaps inside arrays.
pub fn name_twice(chance: &mut Chance) -> Vec<u8> {
    let mut all = names(5, chance);
    all.push(chance.pick(&NAMES).to_string());
    all.push(chance.pick(&all));
    let mut found = Value::Object(all.into_iter().map(|name| (name, value(1, chance))).collect());
    for _ in 0..chance.below(3) {
        found = Value::Array(vec![value(1, chance), found]);
    }
    write(&found, chance)
}

/// Brackets around a value, in number about the depth given.
pub fn deep_text(depth: usize, chance: &mut Chance) -> Vec<u8> {
    let mut found = value(0, chance);
    for _ in 0..chance.between(depth - 2, depth + 2) {
        let mut elements = vec![found];
        if chance.one_in(6) {
            elements.insert(chance.below(2), value(1, chance));
        }
        found = match chance.below(2) {
            0 => Value::Array(elements),
            _ => Value::Object(NAMES.iter().copied().map(str::to_string).zip(elements).collect()),
        };
    }
    write(&found, chance)
}

/// A string or a name of pieces that need not fit.
pub fn pieces_of_string(chance: &mut Chance) -> Vec<u8> {
    let (front, back) = chance.pick(&[("\"", "\""), ("[\"", "\"]"), ("{\"", "\":0}"), ("{\"a\":1,\"", "\":0}")]);
    let mut text = front.as_bytes().to_vec();
    for _ in 0..chance.below(5) {
        text.extend_from_slice(chance.pick(&STRING_PIECES));
    }
    text.extend_from_slice(&back.as_bytes()[..chance.below(back.len() + 1)]);
    text
}

/// A text whose length is about the limit, or some part of it.
pub fn long_text(limit: usize, chance: &mut Chance) -> Vec<u8> {
    let length = match chance.below(4) {
        0 => limit,
        1 => limit + chance.between(1, 20),
        2 => limit - chance.below(20),
        _ => limit / chance.between(2, 20),
    };
    let mut text = match chance.below(6) {
        0 => short_text(chance),
        1 => filled(b"[", b"0,", b"0]", length),
        2 => filled(b"[", b"[],{\"a\":{}},", b"1.5]", length),
        3 => filled(b"\"", "é😀\\u0061".as_bytes(), b"\"", length),
        4 => filled(b"", b"7", b"", length),
        _ => wide_object(chance.between(10, 400), chance),
    };
    text.resize(length.max(text.len()), b' ');
    if chance.one_in(3) {
        damage(&mut text, chance);
    }
    text
}

/// Front, as many pieces as leave room for the back, and the back.
fn filled(front: &[u8], piece: &[u8], back: &[u8], length: usize) -> Vec<u8> {
    let count = length.saturating_sub(front.len() + back.len()) / piece.len();
    [front, &piece.repeat(count), back].concat()
}

/// An object with many names, perhaps one of them twice.
fn wide_object(count: usize, chance: &mut Chance) -> Vec<u8> {
    let mut all: Vec<String> = (0..count).map(|number| number.to_string()).collect();
    if chance.one_in(3) {
        all.push(chance.pick(&all));
    }
    write(&Value::Object(all.into_iter().map(|name| (name, value(0, chance))).collect()), chance)
}
