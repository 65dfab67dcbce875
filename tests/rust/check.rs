//! A model of Check, and of its dates.

use crate::dates::moment;
use crate::definitions::{fields, find, is_definition, take_schema};
use crate::read::{self, Answer, Expected, Node, Reading};

pub const WRONG_KIND: u32 = 20;
pub const MISSING: u32 = 21;
pub const NO_DATE: u32 = 22;

/// How many values were judged as DateTime, their earliest and their latest moment; all 0 where there were none.
pub type Dates = [i64; 3];

/// The schema wholly first, then the document, then the mismatches.
pub fn check(document: &Reading, schema: &Reading, words: [usize; 2]) -> (Expected, Dates) {
    let definition = match take_schema(schema, words[1], 2) {
        Ok(definition) => definition,
        Err(refused) => return (Expected { answer: refused.answer, written: [false, refused.written] }, [0; 3]),
    };
    let value = match read::take(document, words[0], 1) {
        Ok(value) => value,
        Err(answer) => return (Expected { answer, written: [false, true] }, [0; 3]),
    };
    let mut moments = Vec::new();
    let (answer, dates) = match meet(value, definition, &mut moments) {
        Ok(()) => ([0; 4], dates(&moments)),
        Err(answer) => (answer, [0; 3]),
    };
    (Expected { answer, written: [true, true] }, dates)
}

fn dates(moments: &[i64]) -> Dates {
    let (earliest, latest) = (moments.iter().min(), moments.iter().max());
    [moments.len() as i64, *earliest.unwrap_or(&0), *latest.unwrap_or(&0)]
}

fn mismatch(code: u32, place: u32, other: u32) -> Result<(), Answer> {
    Err([code, 1, place, other])
}

/// A value's kind is judged before what it holds. The moments of dates are put behind those before them.
fn meet(value: &Node, definition: &Node, moments: &mut Vec<i64>) -> Result<(), Answer> {
    if definition.kind == read::STRING {
        return meet_type(value, definition, moments);
    }
    let form = &definition.members[0];
    let wanted = if form.name == "Array" { read::ARRAY } else { read::OBJECT };
    if value.kind != wanted {
        return mismatch(WRONG_KIND, value.place, definition.place);
    }
    match form.name.as_str() {
        "Array" => value.elements.iter().try_for_each(|element| meet(element, &form.value, moments)),
        "Map" => value.members.iter().try_for_each(|member| meet(&member.value, &form.value, moments)),
        _ => meet_object(value, &form.value, moments),
    }
}

fn meet_type(value: &Node, definition: &Node, moments: &mut Vec<i64>) -> Result<(), Answer> {
    let taken = match definition.characters.as_str() {
        "JSON" => true,
        "Schema" => is_definition(value),
        "Float" => matches!(value.kind, read::WHOLE | read::FRACTIONAL),
        "Integer" => value.kind == read::WHOLE,
        "Boolean" => matches!(value.kind, read::FALSE | read::TRUE),
        _ => value.kind == read::STRING,
    };
    if !taken {
        return mismatch(WRONG_KIND, value.place, definition.place);
    }
    if definition.characters == "DateTime" {
        match moment(&value.characters) {
            Some(moment) => moments.push(moment),
            None => return mismatch(NO_DATE, value.place, definition.place),
        }
    }
    Ok(())
}

/// Names of "required", each missing or judged; then those of "optional" that are present.
fn meet_object(value: &Node, body: &Node, moments: &mut Vec<i64>) -> Result<(), Answer> {
    for wanted in fields(body, "required") {
        match find(&value.members, &wanted.name) {
            Some(member) => meet(&member.value, &wanted.value, moments)?,
            None => return mismatch(MISSING, value.place, wanted.place),
        }
    }
    for wanted in fields(body, "optional") {
        if let Some(member) = find(&value.members, &wanted.name) {
            meet(&member.value, &wanted.value, moments)?;
        }
    }
    Ok(())
}
