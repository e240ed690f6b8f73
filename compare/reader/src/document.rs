//! What the JSON text says: `asset` (rule 14) and the members that are read (rule 16).

use crate::json::Json;
use crate::rules::Graph;
use crate::tables::{Accessor, List, Sparse, Tables, View};
use crate::{require, Broken};

const KIND: Broken = Broken { rule: 16, item: 0 };

/// A buffer as the text has it.
pub struct Buffer {
    pub byte_length: u32,
    pub has_uri: bool,
}

/// Everything that is read from the text, of any length.
pub struct Document {
    pub buffers: Vec<Buffer>,
    pub views: Vec<View>,
    pub accessors: Vec<Accessor>,
    /// For each accessor: byteOffset is there without bufferView.
    pub stray_offsets: Vec<bool>,
    pub nodes: Vec<Option<Vec<u32>>>,
    pub scenes: Vec<Option<Vec<u32>>>,
    pub scene: Option<u32>,
}

/// Rule 14.
pub fn check_asset(root: &Json) -> Result<(), Broken> {
    let asset = root.member("asset").filter(|asset| matches!(asset, Json::Object(_)));
    require(14, asset.is_some())?;
    let version = asset.and_then(|asset| asset.member("version"));
    require(14, version.is_some_and(is_version_2))?;
    let least = asset.and_then(|asset| asset.member("minVersion"));
    require(14, least.is_none_or(|least| least.is_string("2.0")))
}

/// The string `2.` and one or more digits.
fn is_version_2(value: &Json) -> bool {
    match value {
        Json::String(text) => text.starts_with(b"2.") && text.len() > 2 && text[2..].iter().all(u8::is_ascii_digit),
        _ => false,
    }
}

/// Rule 16: every read member is of its kind and every required one is there.
pub fn read(root: &Json) -> Result<Document, Broken> {
    let accessors = objects(root, "accessors")?;
    Ok(Document {
        buffers: objects(root, "buffers")?.into_iter().map(buffer).collect::<Result<_, _>>()?,
        views: objects(root, "bufferViews")?.into_iter().map(view).collect::<Result<_, _>>()?,
        stray_offsets: accessors
            .iter()
            .map(|a| a.member("byteOffset").is_some() && a.member("bufferView").is_none())
            .collect(),
        accessors: accessors.into_iter().map(accessor).collect::<Result<_, _>>()?,
        nodes: objects(root, "nodes")?.into_iter().map(|node| integers(node, "children")).collect::<Result<_, _>>()?,
        scenes: objects(root, "scenes")?.into_iter().map(|scene| integers(scene, "nodes")).collect::<Result<_, _>>()?,
        scene: optional_integer(root, "scene")?,
    })
}

fn buffer(value: &Json) -> Result<Buffer, Broken> {
    Ok(Buffer { byte_length: required_integer(value, "byteLength")?, has_uri: value.member("uri").is_some() })
}

fn view(value: &Json) -> Result<View, Broken> {
    Ok(View {
        buffer: required_integer(value, "buffer")?,
        byte_offset: optional_integer(value, "byteOffset")?.unwrap_or(0),
        byte_length: required_integer(value, "byteLength")?,
        byte_stride: optional_integer(value, "byteStride")?,
        target: optional_integer(value, "target")?,
    })
}

fn accessor(value: &Json) -> Result<Accessor, Broken> {
    Ok(Accessor {
        buffer_view: optional_integer(value, "bufferView")?,
        byte_offset: optional_integer(value, "byteOffset")?.unwrap_or(0),
        component_type: required_integer(value, "componentType")?,
        count: required_integer(value, "count")?,
        element_type: element_type(value.member("type").ok_or(KIND)?)?,
        normalized: match value.member("normalized") {
            None => false,
            Some(Json::Bool(normalized)) => *normalized,
            Some(_) => return Err(KIND),
        },
        sparse: match value.member("sparse") {
            None => None,
            Some(part) => Some(sparse(part)?),
        },
    })
}

fn sparse(value: &Json) -> Result<Sparse, Broken> {
    let indices = value.member("indices").ok_or(KIND)?;
    let values = value.member("values").ok_or(KIND)?;
    Ok(Sparse {
        count: required_integer(value, "count")?,
        indices_view: required_integer(indices, "bufferView")?,
        indices_offset: optional_integer(indices, "byteOffset")?.unwrap_or(0),
        indices_type: required_integer(indices, "componentType")?,
        values_view: required_integer(values, "bufferView")?,
        values_offset: optional_integer(values, "byteOffset")?.unwrap_or(0),
    })
}

/// The number of a type's name; 0 for a string that is none of them.
fn element_type(value: &Json) -> Result<u32, Broken> {
    let names = ["SCALAR", "VEC2", "VEC3", "VEC4", "MAT2", "MAT3", "MAT4"];
    match value {
        Json::String(_) => Ok(names.iter().position(|name| value.is_string(name)).map_or(0, |place| place as u32 + 1)),
        _ => Err(KIND),
    }
}

/// A non-empty array of objects; an absent one is an empty list.
fn objects<'a>(root: &'a Json, name: &str) -> Result<Vec<&'a Json>, Broken> {
    match root.member(name) {
        None => Ok(Vec::new()),
        Some(Json::Array(values)) if !values.is_empty() && values.iter().all(|v| matches!(v, Json::Object(_))) => {
            Ok(values.iter().collect())
        }
        Some(_) => Err(KIND),
    }
}

/// A non-empty array of integers, if it is there.
fn integers(value: &Json, name: &str) -> Result<Option<Vec<u32>>, Broken> {
    match value.member(name) {
        None => Ok(None),
        Some(Json::Array(values)) if !values.is_empty() => {
            values.iter().map(integer).collect::<Result<_, _>>().map(Some)
        }
        Some(_) => Err(KIND),
    }
}

/// An integer that must be there. In a value that is no object no member is.
fn required_integer(value: &Json, name: &str) -> Result<u32, Broken> {
    value.member(name).map_or(Err(KIND), integer)
}

fn optional_integer(value: &Json, name: &str) -> Result<Option<u32>, Broken> {
    value.member(name).map(integer).transpose()
}

/// An integer is digits only, at most 4,294,967,295.
fn integer(value: &Json) -> Result<u32, Broken> {
    match value {
        Json::Number(text) if text.iter().all(u8::is_ascii_digit) => {
            let number = text.iter().try_fold(0u32, |n, digit| n.checked_mul(10)?.checked_add(u32::from(digit - b'0')));
            number.ok_or(KIND)
        }
        _ => Err(KIND),
    }
}

impl Document {
    /// The lists of nodes and scenes; an absent one is empty.
    pub fn graph(&self) -> Graph {
        let lists = |lists: &[Option<Vec<u32>>]| lists.iter().map(|list| list.clone().unwrap_or_default()).collect();
        Graph { children: lists(&self.nodes), roots: lists(&self.scenes) }
    }

    /// The tables of an accepted file whose BIN data start at that byte.
    pub fn tables(&self, bin_start: usize) -> Tables {
        let mut tables = Tables::empty();
        tables.buffers = self.buffers.len() as u32;
        tables.views = self.views.len() as u32;
        tables.accessors = self.accessors.len() as u32;
        tables.nodes = self.nodes.len() as u32;
        tables.scenes = self.scenes.len() as u32;
        if let Some(buffer) = self.buffers.first() {
            tables.buffer_start = bin_start as u32;
            tables.buffer_length = buffer.byte_length;
        }
        tables.scene = self.scene;
        tables.view_records[..self.views.len()].copy_from_slice(&self.views);
        tables.accessor_records[..self.accessors.len()].copy_from_slice(&self.accessors);
        pack(&self.nodes, &mut tables.node_lists, &mut tables.children);
        pack(&self.scenes, &mut tables.scene_lists, &mut tables.roots);
        tables
    }
}

/// Lists in index order from 0 without gaps; an absent list is start 0, length 0.
fn pack(lists: &[Option<Vec<u32>>], places: &mut [List], packed: &mut [u32]) {
    let mut end = 0;
    for (place, list) in places.iter_mut().zip(lists) {
        if let Some(list) = list {
            *place = List { start: end as u32, length: list.len() as u32 };
            packed[end..end + list.len()].copy_from_slice(list);
            end += list.len();
        }
    }
}
