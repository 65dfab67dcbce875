//! Calls of the library, with guards around all that is lent to it.

use crate::check::Dates;
use crate::generate::Chance;
use crate::read::{Answer, Row, ROW_WORDS};

extern "C" {
    fn teleport_read(text: *const u8, text_len: usize, table: *mut u32, table_len: usize, answer: *mut u32);
    fn teleport_check(
        document: *const u8, document_len: usize, schema: *const u8, schema_len: usize,
        table1: *mut u32, table1_len: usize, table2: *mut u32, table2_len: usize, answer: *mut u32,
    );
    fn teleport_check_dates(
        document: *const u8, document_len: usize, schema: *const u8, schema_len: usize,
        table1: *mut u32, table1_len: usize, table2: *mut u32, table2_len: usize, answer: *mut u32, dates: *mut i64,
    );
    fn teleport_check_path(
        document: *const u8, document_len: usize, schema: *const u8, schema_len: usize,
        table1: *mut u32, table1_len: usize, table2: *mut u32, table2_len: usize,
        path: *mut u32, path_len: usize, answer: *mut u32, steps: *mut u32,
    );
    fn teleport_compare(
        new_schema: *const u8, new_len: usize, old_schema: *const u8, old_len: usize,
        table1: *mut u32, table1_len: usize, table2: *mut u32, table2_len: usize, answer: *mut u32,
    );
}

#[derive(Clone, Copy, PartialEq, Eq)]
pub enum Service {
    Read,
    Check,
    Dates,
    Path,
    Compare,
}

const GUARD_WORDS: usize = 6;
const GUARD_BYTES: usize = 16;

/// Words lent to the library between guards, and what they must be afterwards.
pub struct Words {
    words: Vec<u32>,
    wanted: Vec<u32>,
    length: usize,
}

impl Words {
    /// Random words, guards too.
    pub fn new(length: usize, chance: &mut Chance) -> Words {
        let words: Vec<u32> = (0..length + 2 * GUARD_WORDS).map(|_| (chance.word() >> 32) as u32).collect();
        Words { wanted: words.clone(), words, length }
    }

    /// The rows must stand at the front; the words behind them are as found.
    pub fn want_rows(&mut self, rows: &[Row]) {
        let lent = &mut self.wanted[GUARD_WORDS..GUARD_WORDS + self.length];
        for (place, row) in lent.chunks_exact_mut(ROW_WORDS).zip(rows) {
            place.copy_from_slice(row);
        }
    }

    /// The path must stand at the front.
    pub fn want_path(&mut self, path: &[u32]) {
        self.wanted[GUARD_WORDS..GUARD_WORDS + path.len()].copy_from_slice(path);
    }

    /// The first word that is not as wanted; those below 0 and from the length on are guards.
    pub fn difference(&self) -> Option<String> {
        if self.words == self.wanted {
            return None;
        }
        let place = self.words.iter().zip(&self.wanted).position(|(word, wanted)| word != wanted)?;
        let number = place as i64 - GUARD_WORDS as i64;
        Some(format!("word {number} of a table or the path is {}, wanted {}", self.words[place], self.wanted[place]))
    }

    fn guards_held(&self) -> bool {
        let end = GUARD_WORDS + self.length;
        self.words[..GUARD_WORDS] == self.wanted[..GUARD_WORDS] && self.words[end..] == self.wanted[end..]
    }

    fn lent(&mut self) -> &mut [u32] {
        &mut self.words[GUARD_WORDS..GUARD_WORDS + self.length]
    }
}

/// A text lent to the library between guard bytes.
struct Text {
    bytes: Vec<u8>,
    found: Vec<u8>,
}

impl Text {
    /// The guard is a byte that could go on with many a text, so that reading it shows.
    fn new(text: &[u8], chance: &mut Chance) -> Text {
        let guard = [chance.pick(b"0\"]},:u\\ \xBF\xFFx"); GUARD_BYTES];
        let bytes = [&guard, text, &guard].concat();
        Text { found: bytes.clone(), bytes }
    }

    fn lent(&self) -> &[u8] {
        &self.bytes[GUARD_BYTES..self.bytes.len() - GUARD_BYTES]
    }

    fn untouched(&self) -> bool {
        self.bytes == self.found
    }
}

/// The answer, the dates and the steps, 0 where they are not asked for, and whether the texts and the guards are as found.
pub struct Found {
    pub answer: Answer,
    pub dates: Dates,
    pub steps: u32,
    pub guards_held: bool,
}

/// Lends the texts and tables. Read takes the first of each; of the path the list is the third table.
pub fn call(service: Service, texts: &[Vec<u8>], tables: &mut [Words], chance: &mut Chance) -> Found {
    let lent: Vec<Text> = texts.iter().map(|text| Text::new(text, chance)).collect();
    let mut answer = Words::new(4, chance);
    let mut steps = Words::new(1, chance);
    let before = if service == Service::Dates { chance.word() as i64 } else { 0 };
    let mut dates: [Dates; 3] = [[before; 3]; 3]; // the first and the last are guards
    match service {
        Service::Read => read(&lent[0], &mut tables[0], &mut answer),
        Service::Check => two_texts(Function::Plain(teleport_check), &lent, tables, &mut answer),
        Service::Dates => two_texts(Function::Dated(dates.as_mut_ptr().wrapping_add(1)), &lent, tables, &mut answer),
        Service::Path => two_texts(Function::Path(&mut steps), &lent, tables, &mut answer),
        Service::Compare => two_texts(Function::Plain(teleport_compare), &lent, tables, &mut answer),
    }
    let dates_held = dates[0] == [before; 3] && dates[2] == [before; 3];
    let guards_held = answer.guards_held() && dates_held && steps.guards_held() && lent.iter().all(Text::untouched);
    let words = answer.lent();
    let steps = if service == Service::Path { steps.lent()[0] } else { 0 };
    Found { answer: [words[0], words[1], words[2], words[3]], dates: dates[1], steps, guards_held }
}

fn read(text: &Text, table: &mut Words, answer: &mut Words) {
    let (text, table) = (text.lent(), table.lent());
    // SAFETY: each pointer leads to as many bytes or words as its length says; nothing overlaps.
    unsafe {
        teleport_read(text.as_ptr(), text.len(), table.as_mut_ptr(), table.len(), answer.lent().as_mut_ptr());
    }
}

type TwoTexts = unsafe extern "C" fn(
    *const u8, usize, *const u8, usize, *mut u32, usize, *mut u32, usize, *mut u32,
);

/// A function of two texts; Check with dates has room for them, and with the path for its steps.
enum Function<'a> {
    Plain(TwoTexts),
    Dated(*mut Dates),
    Path(&'a mut Words),
}

fn two_texts(function: Function, texts: &[Text], tables: &mut [Words], answer: &mut Words) {
    let (text1, text2) = (texts[0].lent(), texts[1].lent());
    // Texts that are equal are lent as one.
    let text2 = if text1 == text2 { text1 } else { text2 };
    let (front, rest) = tables.split_at_mut(1);
    let (back, lists) = rest.split_at_mut(1);
    let (table1, table2) = (front[0].lent(), back[0].lent());
    // SAFETY: each pointer leads to as many bytes or words as its length says; nothing overlaps.
    unsafe {
        match function {
            Function::Plain(function) => function(
                text1.as_ptr(), text1.len(), text2.as_ptr(), text2.len(),
                table1.as_mut_ptr(), table1.len(), table2.as_mut_ptr(), table2.len(),
                answer.lent().as_mut_ptr(),
            ),
            Function::Dated(dates) => teleport_check_dates(
                text1.as_ptr(), text1.len(), text2.as_ptr(), text2.len(),
                table1.as_mut_ptr(), table1.len(), table2.as_mut_ptr(), table2.len(),
                answer.lent().as_mut_ptr(), dates.cast(),
            ),
            Function::Path(steps) => teleport_check_path(
                text1.as_ptr(), text1.len(), text2.as_ptr(), text2.len(),
                table1.as_mut_ptr(), table1.len(), table2.as_mut_ptr(), table2.len(),
                lists[0].lent().as_mut_ptr(), lists[0].length,
                answer.lent().as_mut_ptr(), steps.lent().as_mut_ptr(),
            ),
        }
    }
}
