//! The model of the firmware example: four stations as VEC3 of floats, the third put in its place by sparse.

use crate::glb::{assemble, pad, BIN};

const TEXT: &str = r#"{"asset":{"version":"2.0"},"buffers":[{"byteLength":65}],"bufferViews":[{"buffer":0,"byteLength":48},
{"buffer":0,"byteOffset":64,"byteLength":1},{"buffer":0,"byteOffset":48,"byteLength":16}],"accessors":[{"bufferView":0,
"componentType":5126,"count":4,"type":"VEC3","sparse":{"count":1,"indices":{"bufferView":1,"componentType":5121},
"values":{"bufferView":2,"byteOffset":4}}}]}"#;

/// The file.
pub fn file() -> Vec<u8> {
    let stations: [f32; 16] =
        [-6.25, 0.0, -0.5, -3.0, 0.75, -1.0, 9.0, 9.0, 9.0, 4.5, 0.25, -0.0625, 7.0, 0.0, 1.125, -1.25];
    let mut data: Vec<u8> = stations.iter().flat_map(|number| number.to_le_bytes()).collect();
    data.push(2);
    pad(&mut data, 0);
    let mut text = TEXT.as_bytes().to_vec();
    pad(&mut text, b' ');
    assemble(&text, &[(BIN, data)])
}
