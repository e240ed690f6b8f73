//! Safe wrappers over the C interface of the proved library (crates/device).

#![deny(missing_docs)]

use reader::{Answers, Words};

extern "C" {
    fn glb_check(file: *const u8, length: usize, tables: *mut u32, item: *mut u32) -> u32;
    fn glb_component(
        file: *const u8,
        length: usize,
        tables: *const u32,
        accessor: u32,
        element: u32,
        component: u32,
        value: *mut i64,
    ) -> u32;
    fn glb_view(file: *const u8, length: usize, tables: *const u32, view: u32, place: *mut u64) -> u32;
    fn glb_walk(tables: *const u32, scene: u32, list: *mut u16, room: usize, count: *mut u32) -> u32;
}

/// What answers behind the interface, in words.
pub const NAME: &str = "the proved library";

/// The proved library.
pub struct Device;

impl Answers for Device {
    fn check(&self, file: &[u8], words: &mut Words) -> (u32, u32) {
        // Nonzero, so that an item that is not written shows.
        let mut item = u32::MAX;
        // SAFETY: each pointer is that of a live value of the length the interface names; so in the other three.
        let verdict = unsafe { glb_check(file.as_ptr(), file.len(), words.as_mut_ptr(), &mut item) };
        (verdict, item)
    }

    fn component(&self, file: &[u8], words: &Words, accessor: u32, element: u32, component: u32) -> (u32, i64) {
        let mut value = i64::MIN;
        // SAFETY: as above.
        let number = unsafe {
            glb_component(file.as_ptr(), file.len(), words.as_ptr(), accessor, element, component, &mut value)
        };
        (number, value)
    }

    fn view(&self, file: &[u8], words: &Words, view: u32) -> (u32, u64, u64) {
        let mut place = [u64::MAX; 2];
        // SAFETY: as above.
        let number = unsafe { glb_view(file.as_ptr(), file.len(), words.as_ptr(), view, place.as_mut_ptr()) };
        (number, place[0], place[1])
    }

    fn walk(&self, words: &Words, scene: u32, list: &mut [u16]) -> (u32, u32) {
        let mut count = u32::MAX;
        // SAFETY: as above.
        let number = unsafe { glb_walk(words.as_ptr(), scene, list.as_mut_ptr(), list.len(), &mut count) };
        (number, count)
    }
}
