//! An independent reader of GLB hull models.
//!
//! It is written from document 01 alone and shares nothing with the proved library, so that the two can be compared.
//! It goes rule by rule and, within a rule, item by item, as the rule table reads; it is meant to be clear, not fast.

#![deny(missing_docs)]
#![forbid(unsafe_code)]

mod container;
mod document;
mod json;
mod layout;
mod names;
mod readings;
mod rules;
mod tables;
mod utf8;
mod words;

pub use readings::{component, view, walk, Walk};
pub use tables::{Accessor, List, Sparse, Tables, View, ACCESSORS, BUFFERS, CHILDREN, NODES, ROOTS, SCENES, VIEWS};
pub use words::{Answers, Independent, Words, WORDS};

/// A broken rule and its item; the item is 0 where the table names none.
#[derive(Clone, Copy, Debug, PartialEq, Eq)]
pub struct Broken {
    /// The rule's number.
    pub rule: u32,
    /// The smallest index that breaks it.
    pub item: u32,
}

/// What a check answers.
#[derive(Clone, Debug, PartialEq, Eq)]
pub struct Checked {
    /// The smallest broken rule, 0 if none is.
    pub verdict: u32,
    /// The smallest index that breaks it.
    pub item: u32,
    /// The file's tables; on refusal every count and entry is 0.
    pub tables: Tables,
}

/// Checks any bytes as a file.
pub fn check(file: &[u8]) -> Checked {
    match accept(file) {
        Ok(tables) => Checked { verdict: 0, item: 0, tables },
        Err(broken) => Checked { verdict: broken.rule, item: broken.item, tables: Tables::empty() },
    }
}

/// Rules 1 to 47 in their order, up to the first that is broken.
fn accept(file: &[u8]) -> Result<Tables, Broken> {
    container::check_header(file)?; // 1 to 4
    let chunks = container::chunks(file)?; // 5
    container::check_kinds(&chunks)?; // 6 to 8
    let text = chunks[0].data(file);
    require(9, utf8::is_utf8(text))?;
    require(10, json::depth(text) <= 32)?;
    let root = json::parse_object(text).ok_or(Broken { rule: 11, item: 0 })?;
    require(12, !names::has_escaped(&root))?;
    require(13, !names::has_repeat(&root))?;
    document::check_asset(&root)?; // 14
    require(15, root.member("extensionsRequired").is_none())?;
    let document = document::read(&root)?; // 16
    rules::check_counts(&document)?; // 17
    let bin = chunks.get(1).filter(|chunk| chunk.kind == container::BIN);
    rules::check_buffer(&document, bin.map(|chunk| chunk.data(file)))?; // 18 to 20
    rules::check_views(&document)?; // 21 to 24
    rules::check_accessors(&document)?; // 25 to 39
    let data = bin.map_or(&[][..], |chunk| chunk.data(file));
    rules::check_sparse_data(&document, data)?; // 40
    rules::check_graph(&document.graph())?; // 41 to 46
    rules::check_scene(&document)?; // 47
    Ok(document.tables(bin.map_or(0, |chunk| chunk.start)))
}

/// Rule `rule`, which names no item, is broken unless it holds.
fn require(rule: u32, holds: bool) -> Result<(), Broken> {
    if holds {
        Ok(())
    } else {
        Err(Broken { rule, item: 0 })
    }
}

/// Rule `rule` is broken by the first of the items that breaks it.
fn require_each<T>(rule: u32, items: &[T], broken: impl Fn(&T) -> bool) -> Result<(), Broken> {
    match items.iter().position(broken) {
        Some(item) => Err(Broken { rule, item: item as u32 }),
        None => Ok(()),
    }
}
