//! The files that are timed.

use differ::glb::{assemble, pad, BIN};

fn padded(text: &str) -> Vec<u8> {
    let mut text = text.as_bytes().to_vec();
    pad(&mut text, b' ');
    text
}

/// A model whose JSON text has about so many bytes: buffers, views, accessors and nodes to their capacities, then meshes.
pub fn model(size: usize) -> Vec<u8> {
    let accessors = (size / 400).clamp(1, 128);
    let views = accessors.min(64);
    let nodes = (size / 200).clamp(1, 128);
    let list = |count: usize, record: &dyn Fn(usize) -> String| (0..count).map(record).collect::<Vec<_>>().join(",");
    let view_list =
        list(views, &|i| format!(r#"{{"buffer":0,"byteOffset":{},"byteLength":1200,"target":34962}}"#, 1200 * i));
    let accessor_list = list(accessors, &|i| {
        format!(
            r#"{{"bufferView":{},"componentType":5126,"count":{},"type":"VEC3","max":[1.5,0.25,3.0],"min":[-1.5,-0.25,-3.0]}}"#,
            i % views,
            100 - i % 50
        )
    });
    let node_list = list(nodes, &|i| match i + 1 < nodes {
        true => format!(r#"{{"name":"station {i}","mesh":0,"translation":[0.0,{i}.5,-1.25],"children":[{}]}}"#, i + 1),
        false => format!(r#"{{"name":"station {i}","mesh":0}}"#),
    });
    let mut text = format!(
        r#"{{"asset":{{"version":"2.0","generator":"bench"}},"scene":0,"scenes":[{{"nodes":[0]}}],"nodes":[{node_list}],"buffers":[{{"byteLength":{}}}],"bufferViews":[{view_list}],"accessors":[{accessor_list}],"meshes":["#,
        1200 * views
    );
    let mut comma = "";
    while text.len() + 120 < size || comma.is_empty() {
        text += comma;
        text += r#"{"name":"strake","primitives":[{"attributes":{"POSITION":0,"NORMAL":0},"indices":0,"mode":4}]}"#;
        comma = ",";
    }
    text += "]}";
    assemble(&padded(&text), &[(BIN, (0..1200 * views).map(|i| (i * 7) as u8).collect())])
}

/// A small text with a BIN chunk that fills the file to 16 MiB.
pub fn large() -> Vec<u8> {
    let length = 16_777_216 - 12 - 8 - 8 - 256;
    let text = format!(
        r#"{{"asset":{{"version":"2.0"}},"buffers":[{{"byteLength":{length}}}],"bufferViews":[{{"buffer":0,"byteLength":{length}}}],"accessors":[{{"bufferView":0,"componentType":5121,"count":{length},"type":"SCALAR"}}]}}"#
    );
    assemble(format!("{text:<256}").as_bytes(), &[(BIN, vec![7; length])])
}

/// Rule 13's worst: one object of 900 members, names of one length with a long common start.
pub fn members() -> Vec<u8> {
    let list: Vec<String> = (0..900).map(|i| format!(r#""exporter_member_{i:04}":{i}"#)).collect();
    assemble(&padded(&format!(r#"{{"asset":{{"version":"2.0"}},"extras":{{{}}}}}"#, list.join(","))), &[])
}

/// One accessor of 10,000 VEC3 of 5126, with a byteStride or without, and with so many sparse entries.
pub fn readings(stride: Option<usize>, entries: usize) -> Vec<u8> {
    let count = 10_000;
    let dense = count * stride.unwrap_or(12);
    let mut data: Vec<u8> = (0..dense).map(|i| (i * 11) as u8).collect();
    let stride = stride.map_or(String::new(), |stride| format!(r#","byteStride":{stride}"#));
    let mut views = format!(r#"{{"buffer":0,"byteLength":{dense}{stride}}}"#);
    let mut sparse = String::new();
    if let Some(step) = count.checked_div(entries) {
        data.extend((0..entries).flat_map(|k| ((k * step) as u32).to_le_bytes()));
        views += &format!(r#",{{"buffer":0,"byteOffset":{dense},"byteLength":{}}}"#, 4 * entries);
        views += &format!(r#",{{"buffer":0,"byteOffset":{},"byteLength":{}}}"#, dense + 4 * entries, 12 * entries);
        data.extend((0..12 * entries).map(|i| i as u8));
        sparse = format!(
            r#","sparse":{{"count":{entries},"indices":{{"bufferView":1,"componentType":5125}},"values":{{"bufferView":2}}}}"#
        );
    }
    let text = format!(
        r#"{{"asset":{{"version":"2.0"}},"buffers":[{{"byteLength":{}}}],"bufferViews":[{views}],"accessors":[{{"bufferView":0,"componentType":5126,"count":{count},"type":"VEC3"{sparse}}}]}}"#,
        data.len()
    );
    assemble(&padded(&text), &[(BIN, data)])
}

/// 128 nodes, in one chain or as 127 children of the first.
pub fn nodes(chain: bool) -> Vec<u8> {
    let children: Vec<String> = (1..128).map(|i| i.to_string()).collect();
    let list: Vec<String> = (0..128)
        .map(|i| match (chain, i) {
            (true, 127) => "{}".to_string(),
            (true, _) => format!(r#"{{"children":[{}]}}"#, i + 1),
            (false, 0) => format!(r#"{{"children":[{}]}}"#, children.join(",")),
            (false, _) => "{}".to_string(),
        })
        .collect();
    assemble(
        &padded(&format!(r#"{{"asset":{{"version":"2.0"}},"scenes":[{{"nodes":[0]}}],"nodes":[{}]}}"#, list.join(","))),
        &[],
    )
}
