//! Member names anywhere in the tree: rules 12 and 13.

use crate::json::Json;

/// Rule 12: a member name, anywhere, holds a backslash.
pub fn has_escaped(value: &Json) -> bool {
    any_object(value, &|members| members.iter().any(|(name, _)| name.contains(&b'\\')))
}

/// Rule 13: one object, anywhere, has two members of the same name.
pub fn has_repeat(value: &Json) -> bool {
    any_object(value, &|members| {
        members.iter().enumerate().any(|(i, (name, _))| members[..i].iter().any(|(earlier, _)| earlier == name))
    })
}

/// Some object at or under this value has it.
fn any_object(value: &Json, has: &impl Fn(&[(Vec<u8>, Json)]) -> bool) -> bool {
    match value {
        Json::Object(members) => has(members) || members.iter().any(|(_, value)| any_object(value, has)),
        Json::Array(values) => values.iter().any(|value| any_object(value, has)),
        _ => false,
    }
}
