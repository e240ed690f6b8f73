//! One test file after the other: a good file, broken in one of several ways.

use crate::generate::{good, Wanted};
use crate::glb::{assemble, fix_length, split, Glb};
use crate::recipes::{break_bytes, break_glb, near, replace_text, wanted, BOUNDS, ODD_TOKENS};
use crate::rng::Rng;
use crate::tree::{number, object, token, Tree};

/// A test file and the good file that it was made from.
pub struct Made {
    pub base: Vec<u8>,
    pub file: Vec<u8>,
}

/// A test file.
pub fn make(rng: &mut Rng) -> Made {
    match rng.below(100) {
        0..=14 => {
            let file = good(rng, Wanted::default()).bytes(rng);
            Made { base: file.clone(), file }
        }
        15..=64 => by_rule(rng),
        65..=84 => by_tree(rng),
        _ => by_bytes(rng),
    }
}

/// A good file with one rule's recipe, now and then with two.
fn by_rule(rng: &mut Rng) -> Made {
    let rule = rng.from_to(1, 47) as u32;
    let mut glb = good(rng, wanted(rule));
    let base = glb.bytes(rng);
    break_glb(rule, &mut glb, rng);
    if rng.percent(15) {
        change_tree(&mut glb, rng);
    }
    let mut file = glb.bytes(rng);
    break_bytes(rule, &mut file, rng);
    Made { base, file }
}

/// A good file with one to three changes anywhere in its tree.
fn by_tree(rng: &mut Rng) -> Made {
    let rule = rng.from_to(16, 47) as u32;
    let mut glb = good(rng, wanted(rule));
    let base = glb.bytes(rng);
    for _ in 0..rng.from_to(1, 3) {
        change_tree(&mut glb, rng);
    }
    Made { base, file: glb.bytes(rng) }
}

/// One change of a value somewhere in the tree.
fn change_tree(glb: &mut Glb, rng: &mut Rng) {
    let place = rng.below(glb.root.size());
    let copied = rng.below(glb.root.size());
    let copy = glb.root.nth(copied).clone();
    let value = glb.root.nth(place);
    let old = value.as_number();
    match rng.below(8) {
        0 => *value = number(*rng.pick(&BOUNDS)),
        1 => *value = token(rng.pick(&ODD_TOKENS)),
        2 => *value = copy,
        3 => *value = Tree::Array(vec![value.clone()]),
        4 => *value = object([("byteOffset", value.clone())]),
        5 => change_list(value, rng),
        _ => match old {
            Some(old) => *value = number(near(old, rng)),
            None => change_list(value, rng),
        },
    }
}

/// A member or element goes, is doubled, or changes its place or its name.
fn change_list(value: &mut Tree, rng: &mut Rng) {
    match value {
        Tree::Array(list) if !list.is_empty() => {
            let at = rng.below(list.len());
            match rng.below(3) {
                0 => drop(list.remove(at)),
                1 => list.insert(at, list[at].clone()),
                _ => list.rotate_left(at),
            }
        }
        Tree::Object(members) if !members.is_empty() => {
            let at = rng.below(members.len());
            match rng.below(4) {
                0 => drop(members.remove(at)),
                1 => members.insert(at, members[at].clone()),
                2 => members[at].0 = b"renamed".to_vec(),
                _ => members.rotate_left(at),
            }
        }
        _ => *value = token("0"),
    }
}

/// A good file whose bytes are changed: flips, cuts, splices of two files.
fn by_bytes(rng: &mut Rng) -> Made {
    let base = good(rng, Wanted::default()).bytes(rng);
    let mut file = base.clone();
    match rng.below(6) {
        0 => {
            for _ in 0..rng.from_to(1, 4) {
                let at = rng.below(file.len());
                file[at] ^= 1 << rng.below(8);
            }
        }
        1 => {
            let at = rng.below(file.len());
            file[at] = *rng.pick(&[0, 1, b'0', b'9', b'"', b'{', b'}', b',', 0x7F, 0x80, 0xFF]);
        }
        2 => splice(&mut file, rng),
        3 => swap_chunks(&mut file, rng),
        4 => replace_piece(&mut file, rng),
        _ => {
            let at = rng.from_to(12, file.len());
            let to = (at + 4 * rng.below(5)).min(file.len());
            file.drain(at..to);
            fix_length(&mut file);
        }
    }
    Made { base, file }
}

/// The start of one file and the end of another.
fn splice(file: &mut Vec<u8>, rng: &mut Rng) {
    let other = good(rng, Wanted::default()).bytes(rng);
    let from = rng.below(other.len());
    file.truncate(rng.from_to(20, file.len()));
    file.extend(&other[from..]);
    fix_length(file);
}

/// The text of one file with the chunks of another.
fn swap_chunks(file: &mut Vec<u8>, rng: &mut Rng) {
    let other = good(rng, Wanted::default()).bytes(rng);
    *file = assemble(&split(file)[0].1, &split(&other)[1..]);
}

/// Some bytes of the text replaced by some bytes of another text.
fn replace_piece(file: &mut Vec<u8>, rng: &mut Rng) {
    let other = good(rng, Wanted::default()).bytes(rng);
    let piece = split(&other)[0].1.clone();
    let start = rng.below(piece.len());
    let end = (start + rng.below(30)).min(piece.len());
    let text = split(file)[0].1.len();
    let at = rng.below(text);
    let to = (at + rng.below(30)).min(text);
    replace_text(file, at, &piece[start..end], to);
}
