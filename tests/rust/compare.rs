//! A model of Compare: whether each value that meets the new definition meets the old one.

use crate::definitions::{fields, find, take_schema};
use crate::read::{self, Expected, Node, Reading};

const NOT_CARRIED: u32 = 30;

/// The new schema wholly first, then the old one.
pub fn compare(new: &Reading, old: &Reading, words: [usize; 2]) -> Expected {
    let new = match take_schema(new, words[0], 1) {
        Ok(definition) => definition,
        Err(refused) => return Expected { answer: refused.answer, written: [refused.written, false] },
    };
    let old = match take_schema(old, words[1], 2) {
        Ok(definition) => definition,
        Err(refused) => return Expected { answer: refused.answer, written: [true, refused.written] },
    };
    let code = if carried(new, old) { 0 } else { NOT_CARRIED };
    Expected { answer: [code, 0, 0, 0], written: [true, true] }
}

/// A type name, or the form of an object and what stands under it.
fn form(definition: &Node) -> (&str, &Node) {
    if definition.kind == read::STRING {
        return (&definition.characters, definition);
    }
    (&definition.members[0].name, &definition.members[0].value)
}

fn carried(new: &Node, old: &Node) -> bool {
    let ((new_form, new_inner), (old_form, old_inner)) = (form(new), form(old));
    match (new_form, old_form) {
        (_, "JSON") => true,
        ("Integer", "Float") | ("DateTime", "String") => true,
        ("Array", "Array") | ("Map", "Map") => carried(new_inner, old_inner),
        ("Object", "Map") => is_json(old_inner),
        ("Map", "Object") => map_to_object(new_inner, old_inner),
        ("Object", "Object") => object_to_object(new_inner, old_inner),
        _ => new_form == old_form,
    }
}

fn is_json(definition: &Node) -> bool {
    form(definition).0 == "JSON"
}

/// A Map may be empty, and may have any name.
fn map_to_object(new_inner: &Node, old_body: &Node) -> bool {
    fields(old_body, "required").is_empty()
        && fields(old_body, "optional").iter().all(|old| carried(new_inner, &old.value))
}

/// Required names stay required. Under a name that the new body does not have, anything may stand.
fn object_to_object(new_body: &Node, old_body: &Node) -> bool {
    let (required, optional) = (fields(new_body, "required"), fields(new_body, "optional"));
    let keeps = |old: &read::Member| find(required, &old.name).is_some_and(|new| carried(&new.value, &old.value));
    let bears = |old: &read::Member| match find(required, &old.name).or(find(optional, &old.name)) {
        Some(new) => carried(&new.value, &old.value),
        None => is_json(&old.value),
    };
    fields(old_body, "required").iter().all(keeps) && fields(old_body, "optional").iter().all(bears)
}
