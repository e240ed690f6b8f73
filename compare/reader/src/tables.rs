//! The tables and their records.

/// Capacity: buffers.
pub const BUFFERS: usize = 1;
/// Capacity: bufferViews.
pub const VIEWS: usize = 64;
/// Capacity: accessors.
pub const ACCESSORS: usize = 128;
/// Capacity: nodes.
pub const NODES: usize = 128;
/// Capacity: scenes.
pub const SCENES: usize = 8;
/// Capacity of the packed list of children.
pub const CHILDREN: usize = 128;
/// Capacity of the packed list of roots.
pub const ROOTS: usize = 1024;

/// A bufferView.
#[derive(Clone, Copy, Debug, Default, PartialEq, Eq)]
#[allow(missing_docs)]
pub struct View {
    pub buffer: u32,
    pub byte_offset: u32,
    pub byte_length: u32,
    pub byte_stride: Option<u32>,
    pub target: Option<u32>,
}

/// An accessor. The type is 1 SCALAR, 2 VEC2, 3 VEC3, 4 VEC4, 5 MAT2, 6 MAT3, 7 MAT4, 0 none of them.
#[derive(Clone, Copy, Debug, Default, PartialEq, Eq)]
#[allow(missing_docs)]
pub struct Accessor {
    pub buffer_view: Option<u32>,
    pub byte_offset: u32,
    pub component_type: u32,
    pub count: u32,
    pub element_type: u32,
    pub normalized: bool,
    pub sparse: Option<Sparse>,
}

/// The sparse part of an accessor.
#[derive(Clone, Copy, Debug, Default, PartialEq, Eq)]
#[allow(missing_docs)]
pub struct Sparse {
    pub count: u32,
    pub indices_view: u32,
    pub indices_offset: u32,
    pub indices_type: u32,
    pub values_view: u32,
    pub values_offset: u32,
}

/// The place of a node's children or of a scene's roots in the packed list.
#[derive(Clone, Copy, Debug, Default, PartialEq, Eq)]
#[allow(missing_docs)]
pub struct List {
    pub start: u32,
    pub length: u32,
}

/// The tables: five counts, the buffer's place in the file, the records, the packed lists, `scene`.
#[derive(Clone, Debug, PartialEq, Eq)]
#[allow(missing_docs)]
pub struct Tables {
    pub buffers: u32,
    pub views: u32,
    pub accessors: u32,
    pub nodes: u32,
    pub scenes: u32,
    pub buffer_start: u32,
    pub buffer_length: u32,
    pub scene: Option<u32>,
    pub view_records: [View; VIEWS],
    pub accessor_records: [Accessor; ACCESSORS],
    pub node_lists: [List; NODES],
    pub children: [u32; CHILDREN],
    pub scene_lists: [List; SCENES],
    pub roots: [u32; ROOTS],
}

impl Tables {
    /// The tables of a refused file: every count and entry is 0.
    pub fn empty() -> Tables {
        Tables {
            buffers: 0,
            views: 0,
            accessors: 0,
            nodes: 0,
            scenes: 0,
            buffer_start: 0,
            buffer_length: 0,
            scene: None,
            view_records: [View::default(); VIEWS],
            accessor_records: [Accessor::default(); ACCESSORS],
            node_lists: [List::default(); NODES],
            children: [0; CHILDREN],
            scene_lists: [List::default(); SCENES],
            roots: [0; ROOTS],
        }
    }

    /// None of the five counts passes its capacity.
    pub fn counts_fit(&self) -> bool {
        let counts = [self.buffers, self.views, self.accessors, self.nodes, self.scenes];
        let capacities = [BUFFERS, VIEWS, ACCESSORS, NODES, SCENES];
        counts.iter().zip(capacities).all(|(&count, capacity)| count as usize <= capacity)
    }
}
