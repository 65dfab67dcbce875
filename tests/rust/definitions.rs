//! A model of definitions: codes 10 to 12.

use crate::read::{self, Answer, Fault, Member, Node, Reading};

const NOT_A_DEFINITION: u32 = 10;
const UNKNOWN_TYPE: u32 = 11;
const NAME_SHARED: u32 = 12;

const TYPE_NAMES: [&str; 7] = ["JSON", "Schema", "Float", "Integer", "String", "Boolean", "DateTime"];

/// A schema that was not taken: the answer, and whether its table holds its rows.
pub struct Refused {
    pub answer: Answer,
    pub written: bool,
}

/// The definition of a schema, or the first of the codes 1 to 12.
pub fn take_schema(text: &Reading, words: usize, which: u32) -> Result<&Node, Refused> {
    let node = read::take(text, words, which).map_err(|answer| Refused { answer, written: false })?;
    match judge(node) {
        Ok(()) => Ok(node),
        Err(fault) => Err(Refused { answer: [fault.code, which, fault.place, 0], written: true }),
    }
}

pub fn is_definition(node: &Node) -> bool {
    judge(node).is_ok()
}

fn fault(code: u32, place: u32) -> Result<(), Fault> {
    Err(Fault { code, place })
}

/// A type name, or an object with one member: Array, Map or Object.
fn judge(node: &Node) -> Result<(), Fault> {
    if node.kind == read::STRING {
        if TYPE_NAMES.contains(&node.characters.as_str()) {
            return Ok(());
        }
        return fault(UNKNOWN_TYPE, node.place);
    }
    if node.kind != read::OBJECT || node.members.len() != 1 {
        return fault(NOT_A_DEFINITION, node.place);
    }
    let form = &node.members[0];
    match form.name.as_str() {
        "Array" | "Map" => judge(&form.value),
        "Object" => judge_body(&form.value),
        _ => fault(UNKNOWN_TYPE, form.place),
    }
}

/// Kinds, then shared names, then the definitions, "required" first.
fn judge_body(body: &Node) -> Result<(), Fault> {
    want_object(body)?;
    for part in ["required", "optional"] {
        if let Some(member) = find(&body.members, part) {
            want_object(&member.value)?;
        }
    }
    let (required, optional) = (fields(body, "required"), fields(body, "optional"));
    for member in optional {
        if find(required, &member.name).is_some() {
            return fault(NAME_SHARED, member.place);
        }
    }
    required.iter().chain(optional).try_for_each(|member| judge(&member.value))
}

fn want_object(node: &Node) -> Result<(), Fault> {
    if node.kind == read::OBJECT {
        return Ok(());
    }
    fault(NOT_A_DEFINITION, node.place)
}

/// The member with this name.
pub fn find<'a>(members: &'a [Member], name: &str) -> Option<&'a Member> {
    members.iter().find(|member| member.name == name)
}

/// The members of "required" or "optional"; none where it is absent.
pub fn fields<'a>(body: &'a Node, part: &str) -> &'a [Member] {
    find(&body.members, part).map_or(&[], |member| &member.value.members)
}
