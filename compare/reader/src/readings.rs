//! Component reading, view and walk over any tables.

use crate::layout::{component_count, component_start, element_bytes, number_at};
use crate::rules::{
    accessor_breaks, check_graph, effective_stride, size_of_component, sparse_indices, view_breaks, Graph,
};
use crate::tables::{Accessor, List, Tables, View, ACCESSORS, CHILDREN, ROOTS, SCENES, VIEWS};

/// A component: its number (60 to 63, 0 where it is answered) and its value, 0 when refused.
pub fn component(file: &[u8], tables: &Tables, accessor: u32, element: u32, component: u32) -> (u32, i64) {
    if accessor >= tables.accessors || accessor as usize >= ACCESSORS {
        return (60, 0);
    }
    let record = &tables.accessor_records[accessor as usize];
    if !counts_and_buffer_fit(file, tables) || !accessor_holds(tables, record) {
        return (63, 0);
    }
    if element >= record.count {
        return (61, 0);
    }
    if u64::from(component) >= component_count(record.element_type) {
        return (62, 0);
    }
    let size = size_of_component(record);
    let start = component_start(record.element_type, size, u64::from(component));
    let value = match element_start(file, tables, record, element) {
        Some(place) => number_at(file, place + start, record.component_type),
        None => 0,
    };
    (0, value)
}

/// Where the element's bytes start in the file; None where it is zero for want of a bufferView.
fn element_start(file: &[u8], tables: &Tables, accessor: &Accessor, element: u32) -> Option<u64> {
    let view = |number: u32| &tables.view_records[number as usize];
    let start = |view: &View| u64::from(tables.buffer_start) + u64::from(view.byte_offset);
    if let Some(sparse) = accessor.sparse {
        let buffer = &file[tables.buffer_start as usize..];
        let indices = sparse_indices(buffer, &sparse, view(sparse.indices_view));
        if let Some(k) = indices.iter().position(|&index| index == i64::from(element)) {
            let bytes = element_bytes(accessor.element_type, size_of_component(accessor));
            return Some(start(view(sparse.values_view)) + u64::from(sparse.values_offset) + bytes * k as u64);
        }
    }
    let view = view(accessor.buffer_view?);
    Some(start(view) + u64::from(accessor.byte_offset) + effective_stride(accessor, view) * u64::from(element))
}

/// A view: its number (67, 63, 0 where it is answered) and the start and length of its bytes in the file, 0 when refused.
pub fn view(file: &[u8], tables: &Tables, view: u32) -> (u32, u64, u64) {
    if view >= tables.views || view as usize >= VIEWS {
        return (67, 0, 0);
    }
    let record = &tables.view_records[view as usize];
    if !counts_and_buffer_fit(file, tables) || !view_holds(tables, record, 21..=22) {
        return (63, 0, 0);
    }
    (0, u64::from(tables.buffer_start) + u64::from(record.byte_offset), u64::from(record.byte_length))
}

/// No count passes its capacity, and the buffer lies in the lent bytes.
fn counts_and_buffer_fit(file: &[u8], tables: &Tables) -> bool {
    let end = u64::from(tables.buffer_start) + u64::from(tables.buffer_length);
    tables.counts_fit() && end <= file.len() as u64
}

/// A view's record keeps these rules, and its buffer index is 0.
fn view_holds(tables: &Tables, view: &View, mut rules: std::ops::RangeInclusive<u32>) -> bool {
    view.buffer == 0 && rules.all(|rule| !view_breaks(rule, view, tables.buffers as usize, tables.buffer_length))
}

/// The accessor's record and those of all views that it names keep rules 21 to 39.
fn accessor_holds(tables: &Tables, accessor: &Accessor) -> bool {
    let views = &tables.view_records[..tables.views as usize];
    let mut named: Vec<u32> = accessor.buffer_view.into_iter().collect();
    named.extend(accessor.sparse.iter().flat_map(|sparse| [sparse.indices_view, sparse.values_view]));
    let stray = accessor.buffer_view.is_none() && accessor.byte_offset != 0;
    // A named view that does not exist has no record; rules 25 and 35 see to it.
    let mut records = named.iter().filter_map(|&view| views.get(view as usize));
    records.all(|view| view_holds(tables, view, 21..=24))
        && (25..=39).all(|rule| !accessor_breaks(rule, accessor, stray, views))
}

/// What a walk answers.
#[derive(Clone, Debug, PartialEq, Eq)]
pub struct Walk {
    /// 64 to 66, 0 where the walk is answered.
    pub number: u32,
    /// The nodes found, none when refused.
    pub nodes: Vec<u16>,
}

/// The walk of a scene into a list with that much room.
pub fn walk(tables: &Tables, scene: u32, room: usize) -> Walk {
    let refused = |number| Walk { number, nodes: Vec::new() };
    if scene >= tables.scenes || scene as usize >= SCENES {
        return refused(64);
    }
    let Some(graph) = graph_of(tables).filter(|graph| check_graph(graph).is_ok()) else {
        return refused(66);
    };
    let mut nodes = Vec::new();
    for &root in &graph.roots[scene as usize] {
        add_with_all_under(&graph, root, &mut nodes);
    }
    if nodes.len() > room {
        return refused(65);
    }
    Walk { number: 0, nodes }
}

/// The node, then its first child and all under it, then the next child.
fn add_with_all_under(graph: &Graph, node: u32, nodes: &mut Vec<u16>) {
    nodes.push(node as u16);
    for &child in &graph.children[node as usize] {
        add_with_all_under(graph, child, nodes);
    }
}

/// The lists in the tables; None where a count or the end of a list passes its capacity.
fn graph_of(tables: &Tables) -> Option<Graph> {
    let lists = |places: &[List], packed: &[u32], capacity: usize| -> Option<Vec<Vec<u32>>> {
        places
            .iter()
            .map(|place| {
                let end = place.start as usize + place.length as usize;
                (end <= capacity).then(|| packed[place.start as usize..end].to_vec())
            })
            .collect()
    };
    tables.counts_fit().then_some(())?;
    Some(Graph {
        children: lists(&tables.node_lists[..tables.nodes as usize], &tables.children, CHILDREN)?,
        roots: lists(&tables.scene_lists[..tables.scenes as usize], &tables.roots, ROOTS)?,
    })
}
