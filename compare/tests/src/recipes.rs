//! For each rule, changes to a good file that break it, or nearly do.

use crate::generate::Wanted;
use crate::glb::{fix_length, Glb, BIN, JSON};
use crate::rng::Rng;
use crate::tree::{number, numbers, object, token, Tree};

/// Numbers at and beside the bounds that the rules name.
pub const BOUNDS: [usize; 24] = [
    0,
    1,
    2,
    3,
    4,
    5,
    7,
    8,
    9,
    32,
    63,
    64,
    65,
    127,
    128,
    129,
    252,
    256,
    65_535,
    65_536,
    2_147_483_648,
    4_294_967_292,
    4_294_967_295,
    4_294_967_296,
];
/// Tokens that are no integer, or no JSON.
pub const ODD_TOKENS: [&str; 22] = [
    "1.0",
    "1e2",
    "-0",
    "-1",
    "null",
    "true",
    "false",
    "\"\"",
    "\"2.0\"",
    "\"SCALAR\"",
    "[]",
    "{}",
    "[0]",
    "01",
    "+1",
    "0x1",
    "tru",
    "1.",
    ".5",
    "1e",
    "99999999999999999999",
    "\"\\u0030\"",
];

/// What a file needs so that this rule can be broken in it.
pub fn wanted(rule: u32) -> Wanted {
    Wanted {
        buffer: (18..=24).contains(&rule),
        accessor: (21..=33).contains(&rule),
        sparse: (34..=40).contains(&rule),
        nodes: (41..=46).contains(&rule),
        scenes: (44..=47).contains(&rule),
    }
}

/// Changes the tree or the chunks so that the rule may be broken, save those rules that `break_bytes` breaks alone.
pub fn break_glb(rule: u32, glb: &mut Glb, rng: &mut Rng) {
    match rule {
        6 | 7 => break_chunks(rule, glb, rng),
        10 => nest(glb, rng),
        12 | 13 => break_names(rule, glb, rng),
        14 | 15 => break_asset(rule, glb, rng),
        16 => break_kind(glb, rng),
        17 => fill_list(glb, rng),
        18..=20 => break_buffer(rule, glb, rng),
        21..=24 => break_view(rule, glb, rng),
        25..=33 => break_accessor(rule, glb, rng),
        34..=39 => break_sparse(rule, glb, rng),
        40 => break_indices(glb, rng),
        41..=43 => break_nodes(rule, glb, rng),
        44..=47 => break_scenes(rule, glb, rng),
        _ => {}
    }
}

fn break_chunks(rule: u32, glb: &mut Glb, rng: &mut Rng) {
    let kind = if rule == 6 { JSON } else { BIN };
    let data = if rng.percent(50) { Vec::new() } else { b"{}  ".to_vec() };
    let place = rng.from_to(0, glb.chunks.len());
    glb.chunks.insert(place, (kind, data));
}

/// Levels around 32, sometimes with brackets in a string, which do not count.
fn nest(glb: &mut Glb, rng: &mut Rng) {
    let levels = rng.from_to(29, 34);
    let mut value = token(rng.pick(&["0", "\"[[[[\"", "\"\\\"[[[[\"", "[]", "\"\\\\\"", "{}"]));
    for _ in 0..levels {
        value = if rng.percent(50) { Tree::Array(vec![value]) } else { object([("a", value)]) };
    }
    glb.root.set("extras", value);
}

fn break_names(rule: u32, glb: &mut Glb, rng: &mut Rng) {
    let place = rng.below(glb.root.size());
    let members = match glb.root.nth(place) {
        Tree::Object(members) if !members.is_empty() => members,
        _ => glb.root.members(),
    };
    let (name, value) = rng.pick(members).clone();
    let at = rng.from_to(0, members.len());
    if rule == 13 {
        let value = if rng.percent(50) { value } else { token("0") };
        return members.insert(at, (name, value));
    }
    let escaped = match rng.below(3) {
        0 => b"a\\n".to_vec(),
        1 => b"\\\\".to_vec(),
        _ => {
            name.first().map_or(b"\\u0000".to_vec(), |&byte| [format!("\\u{byte:04x}").as_bytes(), &name[1..]].concat())
        }
    };
    if rng.percent(50) {
        members.insert(at, (escaped, value));
    } else {
        let at = rng.below(members.len());
        members[at].0 = escaped;
    }
}

fn break_asset(rule: u32, glb: &mut Glb, rng: &mut Rng) {
    if rule == 15 {
        return glb.root.set("extensionsRequired", token(rng.pick(&["null", "[]", "[\"A\"]", "0"])));
    }
    let versions = [
        "\"2.\"",
        "\"2\"",
        "\"3.0\"",
        "2.0",
        "\"2.0a\"",
        "\"2.\\u0030\"",
        "\"2.0.0\"",
        "\"02.0\"",
        "\"2.99\"",
        "\"2.0\"",
        "\"\"",
        "null",
        "\"2.1\"",
    ];
    match rng.below(4) {
        0 => glb.root.remove("asset"),
        1 => glb.root.set("asset", token(rng.pick(&["null", "[]", "{}", "\"2.0\"", "2"]))),
        2 => glb.root.get_mut("asset").expect("it is there").set("version", token(rng.pick(&versions))),
        _ => glb.root.get_mut("asset").expect("it is there").set("minVersion", token(rng.pick(&versions))),
    }
}

/// A read member gets another value or goes.
fn break_kind(glb: &mut Glb, rng: &mut Rng) {
    let lists: Vec<&str> = ["buffers", "bufferViews", "accessors", "nodes", "scenes"]
        .into_iter()
        .filter(|name| glb.root.get(name).is_some())
        .collect();
    if lists.is_empty() || rng.percent(20) {
        let name = *rng.pick(&["buffers", "bufferViews", "accessors", "nodes", "scenes", "scene"]);
        return glb.root.set(name, token(rng.pick(&ODD_TOKENS)));
    }
    let list = glb.root.list(rng.pick::<&str>(&lists));
    let at = rng.below(list.len());
    if rng.percent(15) {
        list[at] = token(rng.pick(&ODD_TOKENS));
        return;
    }
    // A value at or under the record, so that sparse parts and lists are met too.
    let place = rng.below(list[at].size());
    let value = list[at].nth(place);
    match value {
        Tree::Object(members) if !members.is_empty() && rng.percent(60) => {
            let gone = rng.below(members.len());
            members.remove(gone);
        }
        _ => *value = token(rng.pick(&ODD_TOKENS)),
    }
}

/// A list at, just above or far above its capacity.
fn fill_list(glb: &mut Glb, rng: &mut Rng) {
    let minimal = object([("componentType", number(5121)), ("count", number(1)), ("type", token("\"SCALAR\""))]);
    let (name, capacity, record) = match rng.below(5) {
        0 => ("buffers", 1, object([("byteLength", number(4))])),
        1 => ("bufferViews", 64, object([("buffer", number(0)), ("byteLength", number(1))])),
        2 => ("accessors", 128, minimal),
        3 => ("nodes", 128, object([])),
        _ => ("scenes", 8, object([])),
    };
    let count = capacity + *rng.pick(&[0, 1, 1, 2, 40]);
    let list = glb.root.list(name);
    while list.len() < count {
        list.push(record.clone());
    }
    if rng.percent(10) {
        list[count - 1] = token("0");
    }
}

fn break_buffer(rule: u32, glb: &mut Glb, rng: &mut Rng) {
    let buffer = &mut glb.root.list("buffers")[0];
    let length = buffer.get("byteLength").and_then(Tree::as_number).unwrap_or(0);
    match rule {
        18 => buffer.set("uri", token(rng.pick(&["null", "\"a.bin\"", "\"\"", "0"]))),
        19 => match rng.below(5) {
            0 => buffer.set("byteLength", number(*rng.pick(&[0, length + 1, length + 3, length + 4, 4_294_967_295]))),
            1 => drop(glb.chunks.remove(0)),
            2 => glb.bin().extend([0; 4]),
            3 => {
                // An empty BIN chunk is long enough for byteLength 0, which is refused all the same.
                buffer_length(glb, 0);
                glb.bin().clear();
            }
            _ => {
                let shorter = glb.bin().len().saturating_sub(4);
                glb.bin().truncate(shorter);
            }
        },
        _ => {
            // The last view and so the last bytes may go; what is after byteLength is to be 0.
            let bin = glb.bin();
            if bin.len() == length {
                bin.extend([0; 4]);
                buffer_length(glb, length + rng.from_to(1, 3));
            }
            let bin = glb.bin();
            let at = bin.len() - rng.from_to(1, 3);
            bin[at] = rng.byte();
        }
    }
}

fn buffer_length(glb: &mut Glb, length: usize) {
    glb.root.list("buffers")[0].set("byteLength", number(length));
}

/// One record of a list, or nothing where there is none.
fn record<'a>(glb: &'a mut Glb, name: &str, rng: &mut Rng) -> Option<&'a mut Tree> {
    let list = glb.root.list(name);
    if list.is_empty() {
        return None;
    }
    let at = rng.below(list.len());
    Some(&mut list[at])
}

/// The number of a member, 0 where it is absent.
fn value_of(record: &Tree, name: &str) -> usize {
    record.get(name).and_then(Tree::as_number).unwrap_or(0)
}

/// A number near this one.
pub fn near(value: usize, rng: &mut Rng) -> usize {
    match rng.below(8) {
        0 => value + 1,
        1 => value.saturating_sub(1),
        2 => value + 2,
        3 => value + 4,
        4 => value.saturating_sub(4),
        5 => value * 2,
        _ => *rng.pick(&BOUNDS),
    }
}

fn break_view(rule: u32, glb: &mut Glb, rng: &mut Rng) {
    let Some(view) = record(glb, "bufferViews", rng) else { return };
    let (offset, length) = (value_of(view, "byteOffset"), value_of(view, "byteLength"));
    match rule {
        21 => view.set("buffer", number(*rng.pick(&[0, 1, 1, 2, 4_294_967_295]))),
        22 if rng.percent(50) => view.set("byteLength", number(near(length, rng))),
        22 => view.set("byteOffset", number(near(offset, rng))),
        23 => {
            view.set("byteStride", number(*rng.pick(&[0, 1, 2, 3, 4, 6, 250, 252, 253, 254, 256, 260, 4_294_967_292])))
        }
        _ => view.set("target", number(*rng.pick(&[0, 1, 34_961, 34_962, 34_963, 34_964, 4_294_967_295]))),
    }
}

fn break_accessor(rule: u32, glb: &mut Glb, rng: &mut Rng) {
    let views = glb.root.list("bufferViews").len();
    let Some(accessor) = record(glb, "accessors", rng) else { return };
    let (offset, count) = (value_of(accessor, "byteOffset"), value_of(accessor, "count"));
    let named = accessor.get("bufferView").and_then(Tree::as_number);
    match rule {
        25 if rng.percent(50) => {
            accessor.set("bufferView", number(*rng.pick(&[views, views + 1, 4_294_967_295, 63, 64])))
        }
        25 => {
            accessor.remove("bufferView");
            accessor.set("byteOffset", number(*rng.pick(&[0, 0, 4])));
        }
        26 => accessor.set("componentType", number(*rng.pick(&[0, 5119, 5124, 5127, 4_294_967_295]))),
        27 => accessor.set(
            "type",
            token(rng.pick(&[
                "\"\"",
                "\"scalar\"",
                "\"VEC1\"",
                "\"VEC5\"",
                "\"SCAL\\u0041R\"",
                "\"MAT1\"",
                "\"VEC4 \"",
            ])),
        ),
        28 => accessor.set("count", number(0)),
        29 => {
            accessor.set("componentType", number(rng.from_to(5125, 5126)));
            accessor.set("normalized", token("true"));
        }
        30 | 31 => {
            let stride = number(4 * rng.from_to(1, 8));
            if let Some(view) = named {
                glb.root.list("bufferViews")[view].set("byteStride", stride);
            }
        }
        32 => {
            let more = rng.from_to(1, 3);
            let moved = move_view(rng, more);
            if moved != Some(0) {
                accessor.set("byteOffset", number(offset + more));
            }
            if let (Some(by), Some(view)) = (moved, named) {
                move_start(&mut glb.root.list("bufferViews")[view], by.max(1));
            }
        }
        _ => {
            let more = match rng.below(3) {
                0 => count + 1,
                1 => count * 2,
                _ => *rng.pick(&[65_536, 4_294_967_295]),
            };
            accessor.set("count", number(more));
        }
    }
}

/// How an offset that grows by `more` is joined by its view: not at all; the view alone moves (0); or the view moves so
/// that their sum keeps its multiple of 4.
fn move_view(rng: &mut Rng, more: usize) -> Option<usize> {
    *rng.pick(&[None, None, Some(0), Some(4 - more)])
}

/// The view starts later and ends where it did.
fn move_start(view: &mut Tree, by: usize) {
    let (start, length) = (value_of(view, "byteOffset"), value_of(view, "byteLength"));
    view.set("byteOffset", number(start + by));
    view.set("byteLength", number(length.saturating_sub(by).max(1)));
}

fn break_sparse(rule: u32, glb: &mut Glb, rng: &mut Rng) {
    let views = glb.root.list("bufferViews").len();
    let Some(accessor) = glb.root.list("accessors").iter_mut().find(|accessor| accessor.get("sparse").is_some()) else {
        return;
    };
    let count = value_of(accessor, "count");
    let sparse = accessor.get_mut("sparse").expect("it was found");
    let entries = value_of(sparse, "count");
    if rule == 34 {
        return sparse.set("count", number(*rng.pick(&[0, count, count + 1, 4_294_967_295])));
    }
    let name = *rng.pick(&["indices", "values"]);
    if rule == 39 && rng.percent(50) {
        return sparse.set("count", number(entries + 1));
    }
    let part = sparse.get_mut(name).expect("it is there");
    let offset = value_of(part, "byteOffset");
    let named = value_of(part, "bufferView");
    match rule {
        35 => part.set("bufferView", number(*rng.pick(&[views, views + 1, 4_294_967_295]))),
        36 => {
            let (member, value) =
                *rng.pick(&[("byteStride", 4), ("byteStride", 64), ("target", 34_962), ("target", 34_963)]);
            glb.root.list("bufferViews")[named].set(member, number(value));
        }
        37 => {
            let kind = number(*rng.pick(&[0, 5120, 5122, 5124, 5126, 5121, 5123, 5125]));
            sparse.get_mut("indices").expect("it is there").set("componentType", kind);
        }
        38 => {
            let more = rng.from_to(1, 3);
            let moved = move_view(rng, more);
            if moved != Some(0) {
                part.set("byteOffset", number(offset + more));
            }
            if let Some(by) = moved {
                move_start(&mut glb.root.list("bufferViews")[named], by.max(1));
            }
        }
        _ => part.set("byteOffset", number(near(offset, rng))),
    }
}

/// Bytes of sparse indices become others.
fn break_indices(glb: &mut Glb, rng: &mut Rng) {
    let Some(accessor) = glb.root.list("accessors").iter().find(|accessor| accessor.get("sparse").is_some()).cloned()
    else {
        return;
    };
    let sparse = accessor.get("sparse").expect("it was found");
    let indices = sparse.get("indices").expect("it is there");
    let view = &glb.root.list("bufferViews")[value_of(indices, "bufferView")];
    let start = value_of(view, "byteOffset") + value_of(indices, "byteOffset");
    let size = match value_of(indices, "componentType") {
        5121 => 1,
        5123 => 2,
        _ => 4,
    };
    let at = start + size * rng.below(value_of(sparse, "count"));
    let count = value_of(&accessor, "count");
    let index = *rng.pick(&[0, 1, count - 1, count, count + 1, usize::MAX]);
    let bin = glb.bin();
    bin[at..at + size].copy_from_slice(&index.to_le_bytes()[..size]);
    if rng.percent(30) {
        let at = start + rng.below(size);
        bin[at] = rng.byte();
    }
}

fn break_nodes(rule: u32, glb: &mut Glb, rng: &mut Rng) {
    let nodes = glb.root.list("nodes");
    let count = nodes.len();
    let parent = rng.below(count);
    let list = nodes[parent].list("children");
    let at = rng.from_to(0, list.len());
    let child = match rule {
        41 => *rng.pick(&[count, count + 1, 127, 128, 65_535, 65_536, 4_294_967_295]),
        42 => list.first().and_then(Tree::as_number).filter(|_| rng.percent(30)).unwrap_or(rng.below(count)),
        _ => parent,
    };
    if rule == 42 && rng.percent(5) {
        // More children than the tables have room for.
        list.extend((0..rng.from_to(100, 300)).map(|_| number(rng.below(count))));
    }
    if rule == 43 && rng.percent(60) {
        return close_loop(nodes, rng);
    }
    list.insert(at, number(child));
}

/// A node without a parent becomes a child of one that may be under it.
fn close_loop(nodes: &mut [Tree], rng: &mut Rng) {
    let count = nodes.len();
    let listed: Vec<usize> = nodes
        .iter()
        .filter_map(|node| match node.get("children") {
            Some(Tree::Array(list)) => Some(list),
            _ => None,
        })
        .flatten()
        .filter_map(Tree::as_number)
        .collect();
    let tops: Vec<usize> = (0..count).filter(|node| !listed.contains(node)).collect();
    if !tops.is_empty() {
        let top = *rng.pick(&tops);
        nodes[rng.below(count)].list("children").push(number(top));
    }
}

fn break_scenes(rule: u32, glb: &mut Glb, rng: &mut Rng) {
    let nodes = glb.root.list("nodes").len();
    let scenes = glb.root.list("scenes").len();
    if rule == 47 {
        if rng.percent(20) {
            glb.root.remove("scenes");
        }
        return glb.root.set("scene", number(*rng.pick(&[scenes, scenes + 1, 8, 65_536, 4_294_967_295])));
    }
    let Some(scene) = record(glb, "scenes", rng) else { return };
    let list = scene.list("nodes");
    let at = rng.from_to(0, list.len());
    let root = match rule {
        44 => *rng.pick(&[nodes, nodes + 1, 128, 65_535, 65_536, 4_294_967_295]),
        45 => list.first().and_then(Tree::as_number).unwrap_or(rng.below(nodes)),
        _ => rng.below(nodes),
    };
    list.insert(at, number(root));
    if rule == 45 && rng.percent(5) {
        *scene = object([("nodes", numbers(&vec![0; 1100]))]);
    }
}

/// Byte sequences at the bounds of UTF-8's table, good and bad.
const SEQUENCES: [&[u8]; 16] = [
    b"\x80",
    b"\xBF",
    b"\xC0\x80",
    b"\xC1\xBF",
    b"\xC2",
    b"\xC2\x80",
    b"\xE0\x9F\xBF",
    b"\xE0\xA0\x80",
    b"\xED\xA0\x80",
    b"\xEF\xBB\xBF",
    b"\xF0\x8F\xBF\xBF",
    b"\xF0\x90\x80\x80",
    b"\xF4\x8F\xBF\xBF",
    b"\xF4\x90\x80\x80",
    b"\xF8",
    b"\xFF",
];
/// Pieces of text that are out of place nearly everywhere.
const PIECES: [&str; 21] = [
    "", "", ",", "}", "]", "{", "[", "\"", "\\", ":", "0", "-", ".", "e", "\0", "\t", "\u{1f}", "x", "//", "null",
    "\u{feff}",
];

/// Changes the bytes so that one of the rules 1 to 5 and 8 to 11 may be broken; for another rule nothing changes.
pub fn break_bytes(rule: u32, file: &mut Vec<u8>, rng: &mut Rng) {
    let text = u32::from_le_bytes([file[12], file[13], file[14], file[15]]) as usize;
    match rule {
        1 if rng.percent(2) => {
            file.resize(16_777_216 + rng.below(2), 0);
            fix_length(file);
        }
        1 => file.truncate(rng.from_to(0, 21)),
        2 => file[rng.below(4)] ^= 1 << rng.below(8),
        3 => file[4 + rng.below(4)] = *rng.pick(&[0, 1, 2, 3]),
        4 => match rng.below(3) {
            0 => file[8 + rng.below(4)] ^= 1 << rng.below(8),
            1 => file.truncate(rng.from_to(20, file.len())),
            _ => file.push(0),
        },
        5 => break_fill(file, rng),
        8 => replace_text(file, text, &vec![b' '; *rng.pick(&[65_536, 65_540, 65_600]) - text.min(65_536)], text),
        9 => {
            let at = rng.from_to(0, text);
            replace_text(file, at, rng.pick::<&[u8]>(&SEQUENCES), at);
        }
        10 if rng.percent(30) => replace_text(file, 0, &brackets(rng), text),
        11 => {
            let at = rng.below(text + 1);
            let to = (at + rng.below(3)).min(text);
            replace_text(file, at, rng.pick(&PIECES).as_bytes(), to);
        }
        _ => {}
    }
}

/// No JSON: some brackets, strings and backslashes, then some 32 opening brackets. The depth count runs all the same.
fn brackets(rng: &mut Rng) -> Vec<u8> {
    let pieces = ["]", "}", "[]", "{}", "[", "\"[\"", "\"\\\"[\"", "\\", "\\\"", " "];
    let mut text = Vec::new();
    for _ in 0..rng.below(6) {
        text.extend(rng.pick(&pieces).as_bytes());
    }
    for _ in 0..rng.from_to(30, 34) {
        text.push(*rng.pick(b"[{"));
    }
    text
}

/// Chunks that do not fill the file.
fn break_fill(file: &mut Vec<u8>, rng: &mut Rng) {
    match rng.below(4) {
        0 => file.extend(vec![0; rng.from_to(1, 7)]),
        1 => file.truncate(rng.from_to(20, file.len())),
        2 => file[12 + rng.below(4)] ^= 1 << rng.below(8),
        _ => {
            file.extend([0; 8]);
            let at = file.len() - 8;
            file[at + rng.below(4)] = *rng.pick(&[0, 1, 2, 4, 255]);
        }
    }
    fix_length(file);
}

/// Puts these bytes in the place of those from `from` to `to` of the JSON chunk, and puts its padding and lengths right.
pub fn replace_text(file: &mut Vec<u8>, from: usize, bytes: &[u8], to: usize) {
    let text = u32::from_le_bytes([file[12], file[13], file[14], file[15]]) as usize;
    let mut new = [&file[20..20 + from], bytes, &file[20 + to..20 + text]].concat();
    crate::glb::pad(&mut new, b' ');
    let rest = file.split_off(20 + text);
    file.truncate(12);
    file.extend((new.len() as u32).to_le_bytes());
    file.extend(JSON.to_le_bytes());
    file.extend(new);
    file.extend(rest);
    fix_length(file);
}
