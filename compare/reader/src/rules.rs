//! Rules 17 to 47 over records and lists. Rules 21 to 39 and 41 to 46 serve the check and the readings alike.

use crate::document::Document;
use crate::layout::{alignment, component_size, element_bytes, number_at, shape};
use crate::tables::{Accessor, Sparse, View, ACCESSORS, BUFFERS, NODES, SCENES, VIEWS};
use crate::{require, require_each, Broken};

/// Rule 17.
pub fn check_counts(document: &Document) -> Result<(), Broken> {
    require(17, document.buffers.len() <= BUFFERS)?;
    require(17, document.views.len() <= VIEWS)?;
    require(17, document.accessors.len() <= ACCESSORS)?;
    require(17, document.nodes.len() <= NODES)?;
    require(17, document.scenes.len() <= SCENES)
}

/// Rules 18 to 20, which apply only with a buffer.
pub fn check_buffer(document: &Document, bin: Option<&[u8]>) -> Result<(), Broken> {
    let Some(buffer) = document.buffers.first() else {
        return Ok(());
    };
    require(18, !buffer.has_uri)?;
    let length = buffer.byte_length as usize;
    let bin = bin.ok_or(Broken { rule: 19, item: 0 })?;
    require(19, length != 0 && length <= bin.len() && bin.len() <= length + 3)?;
    require(20, bin[length..].iter().all(|&byte| byte == 0))
}

/// Rules 21 to 24, each for every view.
pub fn check_views(document: &Document) -> Result<(), Broken> {
    let buffer_length = document.buffers.first().map_or(0, |buffer| buffer.byte_length);
    for rule in 21..=24 {
        require_each(rule, &document.views, |view| view_breaks(rule, view, document.buffers.len(), buffer_length))?;
    }
    Ok(())
}

/// A view breaks one of the rules 21 to 24.
pub fn view_breaks(rule: u32, view: &View, buffers: usize, buffer_length: u32) -> bool {
    match rule {
        21 => view.buffer as usize >= buffers,
        22 => {
            let end = u64::from(view.byte_offset) + u64::from(view.byte_length);
            view.byte_length == 0 || end > u64::from(buffer_length)
        }
        23 => view.byte_stride.is_some_and(|stride| stride % 4 != 0 || !(4..=252).contains(&stride)),
        24 => view.target.is_some_and(|target| target != 34962 && target != 34963),
        _ => unreachable!("no rule of a view"),
    }
}

/// Rules 25 to 39, each for every accessor.
pub fn check_accessors(document: &Document) -> Result<(), Broken> {
    let items: Vec<(&Accessor, bool)> = document.accessors.iter().zip(document.stray_offsets.iter().copied()).collect();
    for rule in 25..=39 {
        require_each(rule, &items, |(accessor, stray)| accessor_breaks(rule, accessor, *stray, &document.views))?;
    }
    Ok(())
}

/// An accessor that breaks no smaller rule breaks one of the rules 25 to 39. `stray` says that it has a byteOffset
/// and no bufferView.
pub fn accessor_breaks(rule: u32, accessor: &Accessor, stray: bool, views: &[View]) -> bool {
    match rule {
        25 => stray || accessor.buffer_view.is_some_and(|view| view as usize >= views.len()),
        26 => component_size(accessor.component_type).is_none(),
        27 => shape(accessor.element_type).is_none(),
        28 => accessor.count == 0,
        29 => accessor.normalized && matches!(accessor.component_type, 5125 | 5126),
        30..=33 => accessor.buffer_view.is_some_and(|view| dense_breaks(rule, accessor, &views[view as usize])),
        34..=39 => accessor.sparse.is_some_and(|sparse| sparse_breaks(rule, accessor, &sparse, views)),
        _ => unreachable!("no rule of an accessor"),
    }
}

/// byteStride, else the element size.
pub fn effective_stride(accessor: &Accessor, view: &View) -> u64 {
    view.byte_stride.map_or(element_size(accessor), u64::from)
}

/// The bytes of one component of an accessor that keeps rule 26.
pub fn size_of_component(accessor: &Accessor) -> u64 {
    component_size(accessor.component_type).expect("rule 26")
}

fn element_size(accessor: &Accessor) -> u64 {
    element_bytes(accessor.element_type, size_of_component(accessor))
}

/// Rules 30 to 33, with the accessor's view.
fn dense_breaks(rule: u32, accessor: &Accessor, view: &View) -> bool {
    let size = size_of_component(accessor);
    let stride = effective_stride(accessor, view);
    match rule {
        30 => !stride.is_multiple_of(size),
        31 => stride < element_size(accessor),
        32 => misaligned(accessor.byte_offset, view, alignment(accessor.element_type, size)),
        33 => {
            let last = u64::from(accessor.byte_offset) + stride * u64::from(accessor.count - 1);
            last + element_size(accessor) > u64::from(view.byte_length)
        }
        _ => unreachable!("no rule of an accessor with a view"),
    }
}

/// The offset, or it plus the view's, is not a multiple of `align`.
fn misaligned(byte_offset: u32, view: &View, align: u64) -> bool {
    let sum = u64::from(byte_offset) + u64::from(view.byte_offset);
    u64::from(byte_offset) % align != 0 || sum % align != 0
}

/// Rules 34 to 39.
fn sparse_breaks(rule: u32, accessor: &Accessor, sparse: &Sparse, views: &[View]) -> bool {
    let named = [sparse.indices_view, sparse.values_view];
    if rule == 34 {
        return sparse.count == 0 || sparse.count > accessor.count;
    }
    if rule == 35 {
        return named.iter().any(|&view| view as usize >= views.len());
    }
    let [indices, values] = named.map(|view| &views[view as usize]);
    match rule {
        36 => [indices, values].iter().any(|view| view.byte_stride.is_some() || view.target.is_some()),
        37 => !matches!(sparse.indices_type, 5121 | 5123 | 5125),
        38 => {
            let align = alignment(accessor.element_type, size_of_component(accessor));
            misaligned(sparse.values_offset, values, align)
                || misaligned(sparse.indices_offset, indices, size_of_index(sparse))
        }
        39 => {
            let passes = |offset: u32, size: u64, view: &View| {
                u64::from(offset) + size * u64::from(sparse.count) > u64::from(view.byte_length)
            };
            passes(sparse.indices_offset, size_of_index(sparse), indices)
                || passes(sparse.values_offset, element_size(accessor), values)
        }
        _ => unreachable!("no rule of a sparse part"),
    }
}

/// The bytes of one index of a sparse part that keeps rule 37.
pub fn size_of_index(sparse: &Sparse) -> u64 {
    component_size(sparse.indices_type).expect("rule 37")
}

/// Rule 40: the indices in the buffer's data are below count and rise.
pub fn check_sparse_data(document: &Document, data: &[u8]) -> Result<(), Broken> {
    require_each(40, &document.accessors, |accessor| {
        accessor.sparse.is_some_and(|sparse| {
            let view = &document.views[sparse.indices_view as usize];
            let indices = sparse_indices(data, &sparse, view);
            indices.iter().any(|&index| index >= i64::from(accessor.count)) || indices.windows(2).any(|w| w[1] <= w[0])
        })
    })
}

/// All indices of a sparse part that keeps rules 35 to 39.
pub fn sparse_indices(data: &[u8], sparse: &Sparse, view: &View) -> Vec<i64> {
    let start = u64::from(view.byte_offset) + u64::from(sparse.indices_offset);
    let size = size_of_index(sparse);
    (0..u64::from(sparse.count)).map(|k| number_at(data, start + size * k, sparse.indices_type)).collect()
}

/// The children of each node and the roots of each scene.
pub struct Graph {
    pub children: Vec<Vec<u32>>,
    pub roots: Vec<Vec<u32>>,
}

impl Graph {
    /// The node that lists this one as a child.
    fn parent(&self, node: u32) -> Option<u32> {
        self.children.iter().position(|list| list.contains(&node)).map(|parent| parent as u32)
    }

    /// How often a node stands in all children lists together.
    fn times_listed(&self, node: u32) -> usize {
        self.children.iter().flatten().filter(|&&child| child == node).count()
    }

    /// Going up by parents from this node reaches one without a parent. More steps than there are nodes go in a loop.
    fn reaches_top(&self, node: u32) -> bool {
        let mut at = node;
        for _ in 0..=self.children.len() {
            match self.parent(at) {
                None => return true,
                Some(parent) => at = parent,
            }
        }
        false
    }
}

/// Rules 41 to 46.
pub fn check_graph(graph: &Graph) -> Result<(), Broken> {
    let count = graph.children.len() as u32;
    let nodes: Vec<u32> = (0..count).collect();
    require_each(41, &graph.children, |list| list.iter().any(|&child| child >= count))?;
    require_each(42, &nodes, |&child| graph.times_listed(child) > 1)?;
    require_each(43, &nodes, |&node| !graph.reaches_top(node))?;
    require_each(44, &graph.roots, |list| list.iter().any(|&root| root >= count))?;
    require_each(45, &graph.roots, |list| list.iter().enumerate().any(|(i, root)| list[..i].contains(root)))?;
    require_each(46, &graph.roots, |list| list.iter().any(|&root| graph.parent(root).is_some()))
}

/// Rule 47.
pub fn check_scene(document: &Document) -> Result<(), Broken> {
    require(47, document.scene.is_none_or(|scene| (scene as usize) < document.scenes.len()))
}
