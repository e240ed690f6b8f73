//! tinygltf, where it was compiled in.

#[cfg(tinygltf)]
extern "C" {
    fn tiny_load(file: *const u8, length: usize) -> u32;
    fn tiny_open(file: *const u8, length: usize) -> *mut std::ffi::c_void;
    fn tiny_component(handle: *const std::ffi::c_void, accessor: u32, element: u32, component: u32) -> i64;
}

/// A loaded model.
pub struct Model {
    #[cfg(tinygltf)]
    handle: *mut std::ffi::c_void,
}

/// Loads and drops a file: accepted or not; None without tinygltf.
#[cfg(tinygltf)]
pub fn load(file: &[u8]) -> Option<bool> {
    // SAFETY: the pointer has that many bytes.
    Some(unsafe { tiny_load(file.as_ptr(), file.len()) } != 0)
}

#[cfg(not(tinygltf))]
pub fn load(_: &[u8]) -> Option<bool> {
    None
}

/// Loads a file and keeps it.
#[cfg(tinygltf)]
pub fn open(file: &[u8]) -> Option<Model> {
    // SAFETY: as above.
    let handle = unsafe { tiny_open(file.as_ptr(), file.len()) };
    (!handle.is_null()).then_some(Model { handle })
}

#[cfg(not(tinygltf))]
pub fn open(_: &[u8]) -> Option<Model> {
    None
}

impl Model {
    /// The bits of a component of 5126.
    #[cfg(tinygltf)]
    pub fn component(&self, accessor: u32, element: u32, component: u32) -> i64 {
        // SAFETY: the handle came from tiny_open and is never freed.
        unsafe { tiny_component(self.handle, accessor, element, component) }
    }

    #[cfg(not(tinygltf))]
    pub fn component(&self, _: u32, _: u32, _: u32) -> i64 {
        0
    }
}
