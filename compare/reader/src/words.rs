//! The tables as 4,000 words, the form in which the C interface has them.

use crate::tables::{Accessor, List, Sparse, Tables, View};

/// The number of words.
pub const WORDS: usize = 4000;
/// The tables as words.
pub type Words = [u32; WORDS];

const VIEW_RECORDS: usize = 16;
const ACCESSOR_RECORDS: usize = 528;
const NODE_LISTS: usize = 2576;
const CHILDREN: usize = 2832;
const SCENE_LISTS: usize = 2960;
const ROOTS: usize = 2976;

/// The flag and the number of a member that may be absent.
fn flagged(member: Option<u32>) -> [u32; 2] {
    member.map_or([0, 0], |number| [1, number])
}

/// The member whose flag and number these are; any flag but 0 says that it is there.
fn unflagged(flag: u32, number: u32) -> Option<u32> {
    (flag != 0).then_some(number)
}

/// A word of a list record or a list: it cannot pass 65,535.
fn short(word: u32) -> u32 {
    word.min(65_535)
}

impl Tables {
    /// The tables as words.
    pub fn to_words(&self) -> Box<Words> {
        let mut words = Box::new([0; WORDS]);
        let counts =
            [self.buffers, self.views, self.accessors, self.nodes, self.scenes, self.buffer_start, self.buffer_length];
        words[..7].copy_from_slice(&counts);
        words[7..9].copy_from_slice(&flagged(self.scene));
        for (i, view) in self.view_records.iter().enumerate() {
            let [has_stride, stride] = flagged(view.byte_stride);
            let [has_target, target] = flagged(view.target);
            let record = [view.buffer, view.byte_offset, view.byte_length, has_stride, stride, has_target, target];
            words[VIEW_RECORDS + 8 * i..][..7].copy_from_slice(&record);
        }
        for (i, accessor) in self.accessor_records.iter().enumerate() {
            words[ACCESSOR_RECORDS + 16 * i..][..14].copy_from_slice(&accessor_words(accessor));
        }
        let lists = [(NODE_LISTS, &self.node_lists[..]), (SCENE_LISTS, &self.scene_lists[..])];
        for (start, places) in lists {
            for (i, place) in places.iter().enumerate() {
                words[start + 2 * i..][..2].copy_from_slice(&[place.start, place.length]);
            }
        }
        words[CHILDREN..][..self.children.len()].copy_from_slice(&self.children);
        words[ROOTS..][..self.roots.len()].copy_from_slice(&self.roots);
        words
    }

    /// The tables that any words are read as.
    pub fn from_words(words: &Words) -> Tables {
        let mut tables = Tables::empty();
        [tables.buffers, tables.views, tables.accessors, tables.nodes, tables.scenes] =
            [words[0], words[1], words[2], words[3], words[4]];
        [tables.buffer_start, tables.buffer_length] = [words[5], words[6]];
        tables.scene = unflagged(words[7], words[8]);
        for (i, view) in tables.view_records.iter_mut().enumerate() {
            let w = &words[VIEW_RECORDS + 8 * i..][..8];
            *view = View {
                buffer: w[0],
                byte_offset: w[1],
                byte_length: w[2],
                byte_stride: unflagged(w[3], w[4]),
                target: unflagged(w[5], w[6]),
            };
        }
        for (i, accessor) in tables.accessor_records.iter_mut().enumerate() {
            *accessor = accessor_of(&words[ACCESSOR_RECORDS + 16 * i..][..16]);
        }
        let list = |start: usize, i: usize| List {
            start: short(words[start + 2 * i]),
            length: short(words[start + 2 * i + 1]),
        };
        tables.node_lists = std::array::from_fn(|i| list(NODE_LISTS, i));
        tables.children = std::array::from_fn(|i| short(words[CHILDREN + i]));
        tables.scene_lists = std::array::from_fn(|i| list(SCENE_LISTS, i));
        tables.roots = std::array::from_fn(|i| short(words[ROOTS + i]));
        tables
    }
}

fn accessor_words(accessor: &Accessor) -> [u32; 14] {
    let [has_view, view] = flagged(accessor.buffer_view);
    let sparse = accessor.sparse.unwrap_or_default();
    [
        has_view,
        view,
        accessor.byte_offset,
        accessor.component_type,
        accessor.count,
        accessor.element_type,
        u32::from(accessor.normalized),
        u32::from(accessor.sparse.is_some()),
        sparse.count,
        sparse.indices_view,
        sparse.indices_offset,
        sparse.indices_type,
        sparse.values_view,
        sparse.values_offset,
    ]
}

fn accessor_of(w: &[u32]) -> Accessor {
    let sparse = Sparse {
        count: w[8],
        indices_view: w[9],
        indices_offset: w[10],
        indices_type: w[11],
        values_view: w[12],
        values_offset: w[13],
    };
    Accessor {
        buffer_view: unflagged(w[0], w[1]),
        byte_offset: w[2],
        component_type: w[3],
        count: w[4],
        element_type: w[5],
        normalized: w[6] != 0,
        sparse: (w[7] != 0).then_some(sparse),
    }
}

/// The four questions over words, as the C interface has them.
pub trait Answers {
    /// Verdict and item; the words are those of the tables.
    fn check(&self, file: &[u8], words: &mut Words) -> (u32, u32);
    /// Number and value.
    fn component(&self, file: &[u8], words: &Words, accessor: u32, element: u32, component: u32) -> (u32, i64);
    /// Number, start and length.
    fn view(&self, file: &[u8], words: &Words, view: u32) -> (u32, u64, u64);
    /// Number and count; the nodes are written to the list.
    fn walk(&self, words: &Words, scene: u32, list: &mut [u16]) -> (u32, u32);
}

/// This reader, asked over words.
pub struct Independent;

impl Answers for Independent {
    fn check(&self, file: &[u8], words: &mut Words) -> (u32, u32) {
        let checked = crate::check(file);
        *words = *checked.tables.to_words();
        (checked.verdict, checked.item)
    }

    fn component(&self, file: &[u8], words: &Words, accessor: u32, element: u32, component: u32) -> (u32, i64) {
        crate::component(file, &Tables::from_words(words), accessor, element, component)
    }

    fn view(&self, file: &[u8], words: &Words, view: u32) -> (u32, u64, u64) {
        crate::view(file, &Tables::from_words(words), view)
    }

    fn walk(&self, words: &Words, scene: u32, list: &mut [u16]) -> (u32, u32) {
        let walk = crate::walk(&Tables::from_words(words), scene, list.len());
        list[..walk.nodes.len()].copy_from_slice(&walk.nodes);
        (walk.number, walk.nodes.len() as u32)
    }
}
