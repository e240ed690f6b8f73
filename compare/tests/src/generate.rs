//! Good files of many shapes.

use crate::glb::{pad, Glb, BIN};
use crate::rng::Rng;
use crate::tree::{number, numbers, object, token, Tree};

/// The types and their numbers of columns and rows.
const TYPES: [(&str, usize, usize); 7] =
    [("SCALAR", 1, 1), ("VEC2", 1, 2), ("VEC3", 1, 3), ("VEC4", 1, 4), ("MAT2", 2, 2), ("MAT3", 3, 3), ("MAT4", 4, 4)];
/// The component types and their sizes.
const COMPONENTS: [(usize, usize); 6] = [(5120, 1), (5121, 1), (5122, 2), (5123, 2), (5125, 4), (5126, 4)];

/// What a file must have, so that a rule can be broken in it.
#[derive(Clone, Copy, Default)]
pub struct Wanted {
    pub buffer: bool,
    pub accessor: bool,
    pub sparse: bool,
    pub nodes: bool,
    pub scenes: bool,
}

/// The parts that grow while a file is made.
struct Parts {
    data: Vec<u8>,
    views: Vec<Tree>,
    accessors: Vec<Tree>,
}

/// A good file.
pub fn good(rng: &mut Rng, wanted: Wanted) -> Glb {
    let mut root = object([("asset", asset(rng))]);
    let mut chunks = Vec::new();
    let buffer = wanted.buffer || wanted.accessor || wanted.sparse || rng.percent(75);
    let parts = parts(rng, buffer, wanted);
    if buffer {
        root.set("buffers", Tree::Array(vec![object([("byteLength", number(parts.data.len()))])]));
        let mut data = parts.data;
        pad(&mut data, 0);
        chunks.push((BIN, data));
    } else if rng.percent(30) {
        chunks.push((BIN, bytes(rng, 8)));
    }
    set_list(&mut root, "bufferViews", parts.views);
    set_list(&mut root, "accessors", parts.accessors);
    add_graph(rng, &mut root, wanted);
    while rng.percent(15) {
        let kind = *rng.pick(&[0, 1, 0x4E49_4200, 0x4E4F_5349, 0xFFFF_FFFF]);
        let size = 4 * rng.below(4);
        chunks.push((kind, bytes(rng, size)));
    }
    add_unread(rng, &mut root);
    if rng.percent(50) {
        root.shuffle(rng);
    }
    let space = *rng.pick(&[0, 0, 5, 30]);
    let padding = *rng.pick(b"   \n\t\r");
    Glb { root, space, padding, chunks }
}

/// A list is put in only if it has something.
fn set_list(root: &mut Tree, name: &str, list: Vec<Tree>) {
    if !list.is_empty() {
        root.set(name, Tree::Array(list));
    }
}

fn bytes(rng: &mut Rng, count: usize) -> Vec<u8> {
    (0..count).map(|_| rng.byte()).collect()
}

fn asset(rng: &mut Rng) -> Tree {
    let mut asset = object([("version", token(rng.pick(&["\"2.0\"", "\"2.0\"", "\"2.1\"", "\"2.00\"", "\"2.987\""])))]);
    if rng.percent(20) {
        asset.set("minVersion", token("\"2.0\""));
    }
    if rng.percent(30) {
        asset.set("generator", token("\"hull \\u0031\""));
    }
    asset
}

/// The buffer's data, the views and the accessors.
fn parts(rng: &mut Rng, buffer: bool, wanted: Wanted) -> Parts {
    let mut parts = Parts { data: Vec::new(), views: Vec::new(), accessors: Vec::new() };
    let least = usize::from(wanted.accessor || wanted.sparse);
    let most = *rng.pick(&[1, 3, 3, 6, 6, 20]);
    let count = rng.from_to(least, most);
    for i in 0..count {
        // Each accessor takes three views at the most.
        if parts.views.len() > 61 {
            break;
        }
        add_accessor(rng, &mut parts, buffer, wanted, i == 0);
    }
    if buffer {
        let more = rng.below(8);
        parts.data.extend(bytes(rng, more + usize::from(parts.data.is_empty())));
        while parts.views.len() < 64 && rng.percent(25) {
            add_unused_view(rng, &mut parts);
        }
    }
    parts
}

fn add_unused_view(rng: &mut Rng, parts: &mut Parts) {
    let offset = rng.below(parts.data.len());
    let length = rng.from_to(1, parts.data.len() - offset);
    let mut view = object([("buffer", number(0)), ("byteLength", number(length))]);
    set_offset(rng, &mut view, offset);
    add_stride_or_target(rng, &mut view);
    parts.views.push(view);
}

fn add_stride_or_target(rng: &mut Rng, view: &mut Tree) {
    if rng.percent(30) {
        view.set("byteStride", number(4 * rng.from_to(1, 63)));
    }
    if rng.percent(30) {
        view.set("target", number(rng.from_to(34962, 34963)));
    }
}

/// An offset of 0 is as often left out.
fn set_offset(rng: &mut Rng, object: &mut Tree, offset: usize) {
    if offset > 0 || rng.percent(50) {
        object.set("byteOffset", number(offset));
    }
}

/// An accessor with all that it needs; the first has what is wanted.
fn add_accessor(rng: &mut Rng, parts: &mut Parts, buffer: bool, wanted: Wanted, first: bool) {
    let &(name, columns, rows) = rng.pick(&TYPES);
    let &(component_type, size) = rng.pick(&COMPONENTS);
    let matrix = columns > 1;
    let element = columns * if matrix { (rows * size).next_multiple_of(4) } else { rows * size };
    let align = if matrix { 4 } else { size };
    let has_view = buffer && (first && wanted.accessor || rng.percent(80));
    let has_sparse = buffer && (first && wanted.sparse || rng.percent(30));
    let mut count = *rng.pick(&[1, 1, 2, 3, 5, 8, 13, 40, 255, 256, 257]);
    let mut accessor = object([("componentType", number(component_type)), ("type", token(format!("\"{name}\"")))]);
    if has_view {
        let offset = align * *rng.pick(&[0, 0, 1, 2, 5]);
        let stride = rng.percent(40).then(|| 4 * rng.from_to(element.div_ceil(4), 63));
        count = count.min(4000 / stride.unwrap_or(element));
        count = count.max(1);
        let needed = offset + stride.unwrap_or(element) * (count - 1) + element;
        let view = add_view(rng, parts, needed, align);
        if let Some(stride) = stride {
            parts.views[view].set("byteStride", number(stride));
        }
        if rng.percent(30) {
            parts.views[view].set("target", number(rng.from_to(34962, 34963)));
        }
        accessor.set("bufferView", number(view));
        set_offset(rng, &mut accessor, offset);
    } else if !has_sparse && rng.percent(20) {
        count = 4_294_967_295;
    }
    accessor.set("count", number(count));
    if rng.percent(30) {
        let normalized = size < 4 && rng.percent(60);
        accessor.set("normalized", token(if normalized { "true" } else { "false" }));
    }
    if has_sparse {
        accessor.set("sparse", sparse(rng, parts, count, element, align));
    }
    parts.accessors.push(accessor);
}

/// A new view of at least so many bytes, at a multiple of `align`; its number.
fn add_view(rng: &mut Rng, parts: &mut Parts, needed: usize, align: usize) -> usize {
    let slack = *rng.pick(&[0, 0, 0, 1, 3, 8]);
    let length = needed + slack;
    let end = parts.data.len().next_multiple_of(align);
    // One in five lies over what is there already; nothing is written there.
    let offset = if rng.percent(20) { end / align / 2 * align } else { end };
    if offset + length > parts.data.len() {
        let more = offset + length - parts.data.len();
        parts.data.extend(bytes(rng, more));
    }
    let mut view = object([("buffer", number(0)), ("byteLength", number(length))]);
    set_offset(rng, &mut view, offset);
    parts.views.push(view);
    parts.views.len() - 1
}

/// A sparse part: its indices are written behind all that is in the buffer.
fn sparse(rng: &mut Rng, parts: &mut Parts, count: usize, element: usize, align: usize) -> Tree {
    let sizes: Vec<(usize, usize)> = [(5121, 1), (5123, 2), (5125, 4)]
        .into_iter()
        .filter(|&(_, size)| size == 4 || count <= 1 << (8 * size))
        .collect();
    let &(index_type, size) = rng.pick(&sizes);
    let mut chosen: Vec<usize> = (0..count).filter(|_| rng.percent(30)).collect();
    if chosen.is_empty() {
        chosen.push(rng.below(count));
    }
    let index_offset = size * rng.below(3);
    let needed = index_offset + size * chosen.len();
    let start = parts.data.len().next_multiple_of(size);
    parts.data.resize(start + index_offset, 7);
    for index in &chosen {
        parts.data.extend(&index.to_le_bytes()[..size]);
    }
    let mut view = object([("buffer", number(0)), ("byteLength", number(needed))]);
    set_offset(rng, &mut view, start);
    parts.views.push(view);
    let mut indices = object([("bufferView", number(parts.views.len() - 1)), ("componentType", number(index_type))]);
    set_offset(rng, &mut indices, index_offset);
    let values_offset = align * rng.below(3);
    let view = add_view(rng, parts, values_offset + element * chosen.len(), align);
    let mut values = object([("bufferView", number(view))]);
    set_offset(rng, &mut values, values_offset);
    object([("count", number(chosen.len())), ("indices", indices), ("values", values)])
}

/// Nodes, scenes and `scene`.
fn add_graph(rng: &mut Rng, root: &mut Tree, wanted: Wanted) {
    let most = *rng.pick(&[0, 1, 3, 8, 8, 30, 128]);
    let count = rng.from_to(0, most).max(if wanted.nodes { 3 } else { 0 });
    let mut order: Vec<usize> = (0..count).collect();
    rng.shuffle(&mut order);
    let mut children = vec![Vec::new(); count];
    let mut tops = Vec::new();
    let chain = rng.percent(20);
    for (i, &node) in order.iter().enumerate() {
        let has_parent = i > 0 && (chain || rng.percent(70) || wanted.nodes && i == 1);
        if has_parent {
            let parent = if chain { i - 1 } else { rng.below(i) };
            children[order[parent]].push(node);
        } else {
            tops.push(node);
        }
    }
    let listed = |name: &str, list: &[usize]| match list {
        [] => object([]),
        _ => object([(name, numbers(list))]),
    };
    set_list(root, "nodes", children.iter().map(|list| listed("children", list)).collect());
    let most = *rng.pick(&[1, 2, 4, 9]);
    let scenes = rng.below(most).max(usize::from(wanted.scenes));
    let mut lists = Vec::new();
    for i in 0..scenes {
        let all = wanted.scenes && i == 0;
        let mut roots: Vec<usize> = tops.iter().copied().filter(|_| all || rng.percent(60)).collect();
        rng.shuffle(&mut roots);
        lists.push(listed("nodes", &roots));
    }
    set_list(root, "scenes", lists);
    if scenes > 0 && rng.percent(60) {
        root.set("scene", number(rng.below(scenes)));
    }
}

/// Members that are not read, at the top and in records.
fn add_unread(rng: &mut Rng, root: &mut Tree) {
    let names = ["extras", "name", "meshes", "min", "caf\u{e9}", "", "Buffers", "uri", "extensionsUsed", "extensions"];
    for _ in 0..rng.below(3) {
        let name = *rng.pick(&names);
        root.set(name, unread_value(rng, 3));
    }
    for list in ["buffers", "bufferViews", "accessors", "nodes", "scenes"] {
        if root.get(list).is_some() && rng.percent(30) {
            let value = unread_value(rng, 2);
            let name = *rng.pick(&["extras", "name", "mesh", "min", "max", "\u{1F6E5}"]);
            let records = root.list(list);
            let place = rng.below(records.len());
            records[place].set(name, value);
        }
    }
}

/// Any good value, nested so deep at the most.
fn unread_value(rng: &mut Rng, levels: usize) -> Tree {
    let tokens = [
        "0",
        "-0",
        "1.5",
        "-1e-9",
        "12E+3",
        "true",
        "false",
        "null",
        "\"\"",
        "\"hull\"",
        "\"\\\"[{\\\\\"",
        "\"\\u00e9\\ud83d\"",
        "\"\u{e9}\u{20ac}\u{1F6E5}\"",
        "4294967296",
        "\"a\\/b\\n\"",
    ];
    match rng.below(if levels == 0 { 1 } else { 3 }) {
        0 => token(rng.pick(&tokens)),
        1 => Tree::Array((0..rng.below(4)).map(|_| unread_value(rng, levels - 1)).collect()),
        _ => {
            let mut value = object([]);
            for _ in 0..rng.below(4) {
                let name = *rng.pick(&["a", "b", "count", "type", "asset", "A"]);
                value.set(name, unread_value(rng, levels - 1));
            }
            value
        }
    }
}
