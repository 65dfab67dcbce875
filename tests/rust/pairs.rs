//! Random schemas, documents for them, and pairs of schemas that are variations of one another.

use crate::dates::DAY;
use crate::generate::{
    characters, damaged, deep_text, long_text, member, name_twice, names, pieces_of_string, short_text, string, value,
    write, Chance, Value, LITERALS, NAMES, OTHER_NUMBERS, TYPE_NAMES, WHOLE_NUMBERS,
};
use crate::read::{DOCUMENT, SCHEMA};

// Pairs of texts.

/// A document and a schema.
pub fn check_pair(chance: &mut Chance) -> Vec<Vec<u8>> {
    let mut schema = any_schema(chance);
    let mut document = document(&schema, chance);
    match chance.below(20) {
        0..=7 => {}
        8..=13 => (0..chance.between(1, 3)).for_each(|_| damage_value(&mut document, chance)),
        14 => damage_value(&mut schema, chance),
        15 => schema = faulty_object(2, chance),
        16 => share_name(&mut schema, chance),
        17 => document = value(3, chance),
        18 => schema = deep_schema(SCHEMA.depth, chance),
        _ => (document, schema) = (deep_schema(DOCUMENT.depth, chance), string("Schema")),
    }
    let mut texts = [write(&document, chance), write(&schema, chance)];
    spoil_texts(&mut texts, [DOCUMENT.bytes, SCHEMA.bytes], chance);
    texts.into()
}

/// A new and an old schema.
pub fn schema_pair(chance: &mut Chance) -> Vec<Vec<u8>> {
    let mut new = if chance.one_in(20) { deep_schema(SCHEMA.depth, chance) } else { any_schema(chance) };
    let mut old = new.clone();
    match chance.below(20) {
        0..=2 => {}
        3..=9 => vary(&mut old, chance),
        10..=12 => (0..2).for_each(|_| vary(&mut old, chance)),
        13 => vary(&mut new, chance),
        14 | 15 => old = any_schema(chance),
        16 => damage_value(&mut old, chance),
        17 => damage_value(&mut new, chance),
        18 if chance.one_in(2) => new = faulty_object(2, chance),
        18 => old = faulty_object(2, chance),
        _ => share_name(if chance.one_in(2) { &mut new } else { &mut old }, chance),
    }
    let mut texts = [write(&new, chance), write(&old, chance)];
    spoil_texts(&mut texts, [SCHEMA.bytes; 2], chance);
    texts.into()
}

/// Seldom one of the texts is damaged, deep or long.
fn spoil_texts(texts: &mut [Vec<u8>; 2], limits: [usize; 2], chance: &mut Chance) {
    let which = chance.below(2);
    let text = std::mem::take(&mut texts[which]);
    texts[which] = match chance.below(400) {
        0..=39 => damaged(text, chance),
        40..=44 => deep_text(if limits[which] == SCHEMA.bytes { SCHEMA.depth } else { DOCUMENT.depth }, chance),
        45 => long_text(limits[which], chance),
        46 => padded(text, limits[which] + 1 - chance.below(3)),
        47 => padded(text, limits[which] + chance.between(1, 9)),
        48..=50 => short_text(chance),
        51 | 52 => name_twice(chance),
        53..=55 => pieces_of_string(chance),
        _ => text,
    };
}

fn padded(mut text: Vec<u8>, length: usize) -> Vec<u8> {
    text.resize(length.max(text.len()), b' ');
    text
}

// Schemas.

type Members = Vec<(String, Value)>;

fn wrapped(form: &str, inner: Value) -> Value {
    Value::Object(vec![member(form, inner)])
}

fn object(required: Members, optional: Members) -> Value {
    let parts = vec![member("required", Value::Object(required)), member("optional", Value::Object(optional))];
    wrapped("Object", Value::Object(parts))
}

/// A schema with at most so many forms inside one another.
pub fn schema(depth: usize, chance: &mut Chance) -> Value {
    match chance.below(if depth > 0 { 10 } else { 3 }) {
        0..=2 => string(chance.pick(&TYPE_NAMES)),
        3 | 4 => wrapped("Array", schema(depth - 1, chance)),
        5 | 6 => wrapped("Map", schema(depth - 1, chance)),
        _ => wrapped("Object", body(depth, chance)),
    }
}

/// A body, perhaps without one part, perhaps with a member that is ignored.
fn body(depth: usize, chance: &mut Chance) -> Value {
    let (mut required, mut optional) = (Vec::new(), Vec::new());
    for name in names(4, chance) {
        let part = if chance.one_in(2) { &mut required } else { &mut optional };
        part.push((name, schema(depth - 1, chance)));
    }
    let mut parts = Vec::new();
    for (name, part) in [("required", required), ("optional", optional)] {
        if !part.is_empty() || chance.one_in(4) {
            parts.push(member(name, Value::Object(part)));
        }
    }
    if chance.one_in(6) {
        parts.push(member(chance.pick(&["", "Required", "other"]), value(1, chance)));
    }
    if chance.one_in(3) {
        parts.reverse();
    }
    Value::Object(parts)
}

/// Most often a small schema, seldom one with many names.
fn any_schema(chance: &mut Chance) -> Value {
    if chance.one_in(500) {
        return wide_schema(chance.between(20, 700), chance);
    }
    let depth = chance.below(4);
    schema(depth, chance)
}

fn wide_schema(count: usize, chance: &mut Chance) -> Value {
    let (mut required, mut optional) = (Vec::new(), Vec::new());
    for number in 0..count {
        let part = if chance.one_in(2) { &mut required } else { &mut optional };
        part.push((number.to_string(), schema(0, chance)));
    }
    object(required, optional)
}

/// A schema with about so many brackets open at once.
fn deep_schema(brackets: usize, chance: &mut Chance) -> Value {
    let brackets = chance.between(brackets - 3, brackets + 1);
    let mut found = string(chance.pick(&TYPE_NAMES));
    let mut open = 0;
    while open < brackets {
        if chance.one_in(4) && open + 3 <= brackets {
            found = object(vec![member(chance.pick(&NAMES), found)], vec![]);
            open += 3;
        } else {
            found = wrapped(chance.pick(&["Array", "Map"]), found);
            open += 1;
        }
    }
    found
}

/// The form of a definition and what stands under it.
fn form(definition: &mut Value) -> Option<(&str, &mut Value)> {
    match definition {
        Value::Object(members) => members.first_mut().map(|(name, inner)| (name.as_str(), inner)),
        _ => None,
    }
}

/// The members of "required" or "optional", put there when absent.
fn part<'a>(body: &'a mut Value, name: &str) -> Option<&'a mut Members> {
    let Value::Object(parts) = body else { return None };
    if !parts.iter().any(|(of, _)| of == name) {
        parts.push(member(name, Value::Object(Vec::new())));
    }
    match parts.iter_mut().find(|(of, _)| of == name) {
        Some((_, Value::Object(fields))) => Some(fields),
        _ => None,
    }
}

/// Changes one definition somewhere, to one that is wider, narrower or neither.
fn vary(definition: &mut Value, chance: &mut Chance) {
    if let Value::String(name) = definition {
        let other = match name.as_str() {
            "Integer" => chance.pick(&["Float", "Float", "JSON", "String"]),
            "DateTime" => chance.pick(&["String", "String", "JSON", "Schema"]),
            _ => chance.pick(&["JSON", "JSON", "JSON", "Integer", "DateTime", "Schema", "Boolean"]),
        };
        *definition = string(other);
        return;
    }
    if chance.one_in(6) {
        *definition = replaced(chance);
        return;
    }
    match form(definition) {
        Some(("Object", body)) => vary_body(body, chance),
        Some((_, inner)) => vary(inner, chance),
        None => {}
    }
}

/// A definition that may be wider than the one that was there.
fn replaced(chance: &mut Chance) -> Value {
    match chance.below(5) {
        0 => string("JSON"),
        1 => wrapped("Map", string("JSON")),
        2 => wrapped("Object", Value::Object(Vec::new())),
        3 => object(vec![], vec![member(chance.pick(&NAMES), schema(0, chance))]),
        _ => wrapped(chance.pick(&["Array", "Map"]), schema(0, chance)),
    }
}

/// Moves, drops or adds a name, or varies the definition under one.
fn vary_body(body: &mut Value, chance: &mut Chance) {
    let (from, to) = if chance.one_in(4) { ("optional", "required") } else { ("required", "optional") };
    match chance.below(6) {
        0 | 1 => {
            if let Some(moved) = part(body, from).and_then(|fields| fields.pop()) {
                part(body, to).into_iter().for_each(|fields| fields.push(moved.clone()));
            }
        }
        2 => {
            part(body, from).and_then(|fields| fields.pop());
        }
        3 => {
            let added = member("added", string(chance.pick(&["JSON", "JSON", "String"])));
            part(body, to).into_iter().for_each(|fields| fields.push(added.clone()));
        }
        _ => {
            if let Some((_, under)) = part(body, from).and_then(|fields| fields.last_mut()) {
                vary(under, chance);
            }
        }
    }
    if chance.one_in(2) {
        for name in ["required", "optional"] {
            part(body, name).into_iter().for_each(|fields| chance.shuffle(fields));
        }
    }
}

/// Puts a name of one part into the other too, inside whatever form there is.
fn share_name(definition: &mut Value, chance: &mut Chance) {
    match form(definition) {
        Some(("Object", body)) => {
            let name = chance.pick(&NAMES);
            put_name(part(body, "required"), name, chance);
            put_name(part(body, "optional"), name, chance);
        }
        Some((_, inner)) => share_name(inner, chance),
        None => *definition = object(vec![member("a", schema(1, chance))], vec![member("a", schema(1, chance))]),
    }
}

/// Puts a name among others, where it is not there yet.
fn put_name(fields: Option<&mut Members>, name: &str, chance: &mut Chance) {
    if let Some(fields) = fields.filter(|fields| fields.iter().all(|(of, _)| of != name)) {
        fields.insert(chance.below(fields.len() + 1), member(name, schema(0, chance)));
    }
}

/// An Object that may have several faults, so that their order shows.
fn faulty_object(depth: usize, chance: &mut Chance) -> Value {
    let mut parts = Vec::new();
    for name in ["required", "optional"] {
        let names = names(3, chance);
        let fields = names.into_iter().map(|name| (name, faulty_definition(depth, chance))).collect();
        let wrong_kind = chance.one_in(4);
        parts.push(member(name, if wrong_kind { value(0, chance) } else { Value::Object(fields) }));
    }
    if chance.one_in(2) {
        parts.reverse();
    }
    wrapped("Object", Value::Object(parts))
}

fn faulty_definition(depth: usize, chance: &mut Chance) -> Value {
    match chance.below(8) {
        0 => value(1, chance),
        1 => string(chance.pick(&["integer", "Json", "", "Array", "Strin", "Floats"])),
        2 => wrapped(chance.pick(&["Set", "array", "", "JSON"]), schema(0, chance)),
        3 if depth > 0 => faulty_object(depth - 1, chance),
        _ => schema(1, chance),
    }
}

// Documents.

/// A document that most often meets the schema.
fn document(definition: &Value, chance: &mut Chance) -> Value {
    match definition {
        Value::String(name) => of_type(name, chance),
        Value::Object(members) => of_form(&members[0].0, &members[0].1, chance),
        _ => value(1, chance),
    }
}

fn of_type(name: &str, chance: &mut Chance) -> Value {
    match name {
        "Schema" => schema(2, chance),
        "Float" if chance.one_in(2) => Value::Plain(chance.pick(&OTHER_NUMBERS)),
        "Float" | "Integer" => Value::Plain(chance.pick(&WHOLE_NUMBERS)),
        "String" | "JSON" if chance.one_in(4) => Value::String(date(chance)),
        "String" => Value::String(characters(5, chance)),
        "Boolean" => Value::Plain(chance.pick(&LITERALS[1..])),
        "DateTime" => Value::String(date(chance)),
        _ => value(2, chance),
    }
}

fn of_form(form: &str, inner: &Value, chance: &mut Chance) -> Value {
    match (form, inner) {
        ("Array", _) => Value::Array((0..chance.below(4)).map(|_| document(inner, chance)).collect()),
        ("Map", _) => {
            let names = names(3, chance);
            Value::Object(names.into_iter().map(|name| (name, document(inner, chance))).collect())
        }
        (_, Value::Object(parts)) => Value::Object(of_body(parts, chance)),
        _ => value(1, chance),
    }
}

/// All required names, some optional ones and perhaps another, in any order.
fn of_body(parts: &[(String, Value)], chance: &mut Chance) -> Members {
    let mut members = Vec::new();
    for (part, fields) in parts {
        let Value::Object(fields) = fields else { continue };
        for (name, definition) in fields {
            if part == "required" || part == "optional" && chance.one_in(2) {
                members.push((name.clone(), document(definition, chance)));
            }
        }
    }
    if chance.one_in(4) {
        members.push(member("another", of_type("JSON", chance)));
    }
    chance.shuffle(&mut members);
    members
}

/// Replaces a value somewhere, or drops, adds or renames a member.
fn damage_value(found: &mut Value, chance: &mut Chance) {
    match found {
        Value::Array(elements) if !elements.is_empty() && !chance.one_in(5) => {
            let place = chance.below(elements.len());
            damage_value(&mut elements[place], chance);
        }
        Value::Object(members) if !members.is_empty() && !chance.one_in(8) => {
            let place = chance.below(members.len());
            match chance.below(8) {
                0 => {
                    members.remove(place);
                }
                1 => members[place].0.push('x'),
                2 => members.insert(place, member("more", value(0, chance))),
                _ => damage_value(&mut members[place].1, chance),
            }
        }
        Value::String(text) if chance.one_in(2) => damage_string(text, chance),
        _ => *found = value(1, chance),
    }
}

/// Drops, doubles or replaces a character.
fn damage_string(text: &mut String, chance: &mut Chance) {
    let mut all: Vec<char> = text.chars().collect();
    let place = chance.below(all.len() + 1);
    match all.get(place).copied() {
        None => all.push(chance.pick(&['0', 'Z', 'x'])),
        Some(_) if chance.one_in(3) => {
            all.remove(place);
        }
        Some(character) if chance.one_in(3) => all.insert(place, character),
        Some(_) => all[place] = chance.pick(&['0', '1', '2', '3', '5', '9', ':', '-', '+', '.', 'T', 'z', ' ']),
    }
    *text = all.into_iter().collect();
}

/// A date, or nearly one.
fn date(chance: &mut Chance) -> String {
    let year = chance.pick(&[0, 4, 100, 400, 1900, 2000, 2023, 2024, 2100, 9999]);
    let mark = chance.pick(&["T", "t"]);
    let fraction = if chance.one_in(40) { "." } else { chance.pick(&["", "", ".0", ".5", ".123456789"]) };
    let (day, time, offset) = if chance.one_in(3) { leap_second(chance) } else { any_second(chance) };
    format!("{year:04}-{day}{mark}{time}{fraction}{offset}")
}

/// Day, time and offset, at times with a number just out of range.
fn any_second(chance: &mut Chance) -> (String, String, String) {
    let (month, day) = match chance.below(8) {
        0 => (chance.pick(&[0, 13, 20, 12]), chance.between(1, 28)),
        1 => (chance.between(1, 12), chance.pick(&[0, 28, 29, 30, 31, 32])),
        2 | 3 => (2, chance.pick(&[28, 29, 29, 30])),
        _ => (chance.between(1, 12), chance.between(1, 28)),
    };
    let (hour, minute, second) = (edge(23, chance), edge(59, chance), edge(59, chance));
    let offset = match chance.below(3) {
        0 => chance.pick(&["Z", "z"]).to_string(),
        _ => format!("{}{:02}:{:02}", chance.pick(&["+", "-"]), edge(23, chance), edge(59, chance)),
    };
    (format!("{month:02}-{day:02}"), format!("{hour:02}:{minute:02}:{second:02}"), offset)
}

/// The days around the end of June, of December, and of a month that never has a leap second.
const ENDS: [[&str; 4]; 3] =
    [["06-29", "06-30", "07-01", "07-02"], ["12-30", "12-31", "01-01", "01-02"], ["09-29", "09-30", "10-01", "10-02"]];

/// Second 60 under any offset, half of them in the last minute of the month in UTC; day, time and offset.
fn leap_second(chance: &mut Chance) -> (String, String, String) {
    let days = ENDS[chance.pick(&[0, 0, 1, 1, 2])];
    let beside = if chance.one_in(2) { 0 } else { chance.pick(&[-DAY, -60, -1, 1, 60, DAY]) };
    let size =
        if chance.one_in(2) { chance.pick(&[0, 1, 330, 480, 765, 1439]) } else { chance.below(DAY as usize) as i32 };
    let sign = chance.pick(&[-1, 1]);
    // In minutes, from the beginning of the first of the days.
    let written = 2 * DAY - 1 + beside + sign * size;
    let day = days[(written / DAY) as usize].to_string();
    let second = chance.pick(&[60, 60, 60, 60, 60, 60, 59, 61]);
    let time = format!("{:02}:{:02}:{second}", written / 60 % 24, written % 60);
    // Seldom the offset is turned round.
    let shown = if chance.one_in(8) { -sign } else { sign };
    let offset = match size {
        0 if chance.one_in(2) => chance.pick(&["Z", "z"]).to_string(),
        _ => format!("{}{:02}:{:02}", if shown < 0 { "-" } else { "+" }, size / 60, size % 60),
    };
    (day, time, offset)
}

/// A number up to the most, seldom one more.
fn edge(most: usize, chance: &mut Chance) -> usize {
    match chance.below(40) {
        0 => most + 1,
        1..=5 => most,
        6..=10 => 0,
        _ => chance.below(most + 1),
    }
}
