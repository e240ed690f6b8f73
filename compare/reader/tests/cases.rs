//! The cases C1 to C12 of document 01, and for each rule files that break it and files that just keep it.

use reader::{check, component, view, walk, Tables};

const JSON: u32 = 0x4E4F_534A;
const BIN: u32 = 0x004E_4942;

/// A file of these chunks, as they are given, with the right header.
fn file_of(chunks: &[(u32, &[u8])]) -> Vec<u8> {
    let mut file = b"glTF\x02\0\0\0\0\0\0\0".to_vec();
    for (kind, data) in chunks {
        file.extend((data.len() as u32).to_le_bytes());
        file.extend(kind.to_le_bytes());
        file.extend(*data);
    }
    with_length(file)
}

/// The header's length put right.
fn with_length(mut file: Vec<u8>) -> Vec<u8> {
    let length = file.len() as u32;
    file[8..12].copy_from_slice(&length.to_le_bytes());
    file
}

/// The text with spaces to a multiple of 4.
fn padded(json: &str) -> Vec<u8> {
    let mut text = json.as_bytes().to_vec();
    text.resize(text.len().next_multiple_of(4), b' ');
    text
}

/// A file with this text and a BIN chunk of these bytes, unless there are none.
fn glb(json: &str, bin: &[u8]) -> Vec<u8> {
    let text = padded(json);
    let mut data = bin.to_vec();
    data.resize(data.len().next_multiple_of(4), 0);
    if bin.is_empty() {
        file_of(&[(JSON, &text)])
    } else {
        file_of(&[(JSON, &text), (BIN, &data)])
    }
}

/// A text with these members after a good `asset`.
fn with(members: &str) -> String {
    let comma = if members.is_empty() { "" } else { "," };
    format!(r#"{{"asset":{{"version":"2.0"}}{comma}{members}}}"#)
}

/// A text with one buffer of so many bytes and these views and accessors.
fn model(bytes: usize, views: &str, accessors: &str) -> String {
    let views = if views.is_empty() { String::new() } else { format!(r#","bufferViews":[{views}]"#) };
    let accessors = if accessors.is_empty() { String::new() } else { format!(r#","accessors":[{accessors}]"#) };
    with(&format!(r#""buffers":[{{"byteLength":{bytes}}}]{views}{accessors}"#))
}

fn verdict(file: &[u8]) -> (u32, u32) {
    let checked = check(file);
    if checked.verdict != 0 {
        assert_eq!(checked.tables, Tables::empty());
    }
    (checked.verdict, checked.item)
}

fn verdict_of(json: &str, bin: &[u8]) -> (u32, u32) {
    verdict(&glb(json, bin))
}

#[test]
fn c1_smallest_file() {
    let json = with("");
    assert_eq!(json.len(), 27);
    let file = glb(&json, &[]);
    assert_eq!(file.len(), 48);
    assert_eq!(verdict(&file), (0, 0));
    assert_eq!(check(&file).tables, Tables::empty());
}

#[test]
fn c2_c3_fit() {
    let views = r#"{"buffer":0,"byteLength":17136,"byteOffset":620}"#;
    let accessor = |kind: &str| {
        format!(r#"{{"bufferView":0,"byteOffset":4608,"componentType":5123,"count":5232,"type":"{kind}"}}"#)
    };
    let bin = vec![7; 17756];
    assert_eq!(verdict_of(&model(17756, views, &accessor("VEC2")), &bin), (33, 0));
    assert_eq!(verdict_of(&model(17756, views, &accessor("SCALAR")), &bin), (0, 0));
}

#[test]
fn c4_depth() {
    let nested = |levels: usize| with(&format!(r#""extras":{}{}"#, "[".repeat(levels - 1), "]".repeat(levels - 1)));
    assert_eq!(verdict_of(&nested(32), &[]), (0, 0));
    assert_eq!(verdict_of(&nested(33), &[]), (10, 0));
}

#[test]
fn c5_stride() {
    let view = |stride: u32| format!(r#"{{"buffer":0,"byteLength":8,"byteStride":{stride}}}"#);
    for (stride, expected) in [(252, 0), (256, 23), (4, 0), (0, 23), (6, 23)] {
        assert_eq!(verdict_of(&model(8, &view(stride), ""), &[1; 8]), (expected, 0));
    }
}

#[test]
fn c6_bin_length() {
    assert_eq!(verdict_of(&model(5, "", ""), &[1, 1, 1, 1, 1, 0, 0, 0]), (0, 0));
    assert_eq!(verdict_of(&model(4, "", ""), &[1, 1, 1, 1, 0, 0, 0, 0]), (19, 0));
    assert_eq!(verdict_of(&model(9, "", ""), &[1; 8]), (19, 0));
    assert_eq!(verdict_of(&model(0, "", ""), &[1; 4]), (19, 0));
    assert_eq!(verdict_of(&model(4, "", ""), &[]), (19, 0));
    let other_kind = file_of(&[(JSON, &padded(&model(4, "", ""))), (5, &[1; 4])]);
    assert_eq!(verdict(&other_kind), (19, 0));
}

/// Two views of 4 bytes; the accessor has 8 bytes of SCALAR 5121 and a sparse part.
fn sparse_model(sparse: &str) -> String {
    let views = r#"{"buffer":0,"byteLength":8},{"buffer":0,"byteOffset":8,"byteLength":4},{"buffer":0,"byteOffset":12,"byteLength":4}"#;
    model(16, views, &format!(r#"{{"bufferView":0,"componentType":5121,"count":8,"type":"SCALAR","sparse":{sparse}}}"#))
}

const SPARSE: &str = r#"{"count":2,"indices":{"bufferView":1,"componentType":5121},"values":{"bufferView":2}}"#;

#[test]
fn c7_sparse_indices_rise() {
    let bin = |first: u8, second: u8| [0, 1, 2, 3, 4, 5, 6, 7, first, second, 0, 0, 90, 91, 92, 93];
    for (first, second, expected) in [(2, 2, 40), (2, 3, 0), (3, 2, 40), (6, 7, 0), (7, 8, 40), (0, 7, 0)] {
        assert_eq!(verdict_of(&sparse_model(SPARSE), &bin(first, second)), (expected, 0));
    }
    let file = glb(&sparse_model(SPARSE), &bin(2, 5));
    let tables = check(&file).tables;
    let read: Vec<i64> = (0..8).map(|e| component(&file, &tables, 0, e, 0).1).collect();
    assert_eq!(read, [0, 1, 90, 3, 4, 91, 6, 7]);
}

#[test]
fn c8_c9_graph() {
    assert_eq!(verdict_of(&with(r#""nodes":[{"children":[0]}]"#), &[]), (43, 0));
    assert_eq!(verdict_of(&with(r#""nodes":[{"children":[2]},{"children":[2]},{}]"#), &[]), (42, 2));
}

#[test]
fn c10_negative() {
    let file = glb(
        &model(
            2,
            r#"{"buffer":0,"byteLength":2}"#,
            r#"{"bufferView":0,"componentType":5122,"count":1,"type":"SCALAR"}"#,
        ),
        &[0xFF, 0xFF],
    );
    assert_eq!(component(&file, &check(&file).tables, 0, 0, 0), (0, -1));
}

#[test]
fn c11_matrix_of_bytes() {
    let json = model(
        12,
        r#"{"buffer":0,"byteLength":12}"#,
        r#"{"bufferView":0,"componentType":5120,"count":1,"type":"MAT3"}"#,
    );
    let file = glb(&json, &[0, 1, 2, 3, 4, 5, 6, 7, 0x80, 9, 10, 11]);
    let read: Vec<i64> = (0..9).map(|c| component(&file, &check(&file).tables, 0, 0, c).1).collect();
    assert_eq!(read, [0, 1, 2, 4, 5, 6, -128, 9, 10]);
    let short = json.replace(r#""byteLength":12}]"#, r#""byteLength":11}]"#);
    assert_eq!(verdict_of(&short.replace(r#""byteLength":12"#, r#""byteLength":11"#), &[0; 11]), (33, 0));
}

#[test]
fn c12_scene_without_scenes() {
    assert_eq!(verdict_of(&with(r#""scene":0"#), &[]), (47, 0));
    assert_eq!(verdict_of(&with(r#""scenes":[{}],"scene":0"#), &[]), (0, 0));
    assert_eq!(verdict_of(&with(r#""scenes":[{}],"scene":1"#), &[]), (47, 0));
}

#[test]
fn rules_1_to_4_header() {
    let good = glb(&with(""), &[]);
    assert_eq!(verdict(&[]), (1, 0));
    assert_eq!(verdict(&good[..19]), (1, 0));
    assert_eq!(verdict(&vec![0; 16_777_216]), (2, 0));
    assert_eq!(verdict(&vec![0; 16_777_217]), (1, 0));
    for (at, expected) in [(0, 2), (3, 2), (4, 3), (7, 3), (8, 4), (11, 4)] {
        let mut file = good.clone();
        file[at] ^= 1;
        assert_eq!(verdict(&file), (expected, 0));
    }
    assert_eq!(verdict(&good[..44]), (4, 0));
}

#[test]
fn rule_5_chunks_fill_the_file() {
    let good = glb(&with(""), &[]);
    for tail in 1..8 {
        let longer = [&good[..], &[0; 8][..tail]].concat();
        assert_eq!(verdict(&with_length(longer)), (5, 1));
    }
    let empty_chunk = [&good[..], &[0; 8]].concat();
    assert_eq!(verdict(&with_length(empty_chunk)), (0, 0));
    for length in [1u32, 26, 27, 29, 32, 0xFFFF_FFFC] {
        let mut file = good.clone();
        file[12..16].copy_from_slice(&length.to_le_bytes());
        assert_eq!(verdict(&file), (5, 0));
    }
}

#[test]
fn rules_6_to_8_kinds_of_chunks() {
    let text = padded(&with(""));
    assert_eq!(verdict(&file_of(&[(BIN, &text), (JSON, &text)])), (6, 0));
    assert_eq!(verdict(&file_of(&[(JSON, &text), (1, &[]), (JSON, &text)])), (6, 2));
    assert_eq!(verdict(&file_of(&[(JSON, &text), (1, &[]), (BIN, &[])])), (7, 2));
    assert_eq!(verdict(&file_of(&[(JSON, &text), (BIN, &[]), (BIN, &[])])), (7, 2));
    assert_eq!(verdict(&file_of(&[(JSON, &text), (BIN, &[]), (1, &[0; 8]), (1, &[])])), (0, 0));
    let sized = |length: usize| [&text[..], &vec![b' '; length - text.len()]].concat();
    assert_eq!(verdict(&file_of(&[(JSON, &sized(65_536))])), (0, 0));
    assert_eq!(verdict(&file_of(&[(JSON, &sized(65_540))])), (8, 0));
}

#[test]
fn rule_9_utf8() {
    let with_name = |bytes: &[u8]| {
        let mut text = [br#"{"asset":{"version":"2.0"},"x":""#, bytes, br#""}"#].concat();
        text.resize(text.len().next_multiple_of(4), b' ');
        verdict(&file_of(&[(JSON, &text)]))
    };
    let good: [&[u8]; 7] = [
        b"\x7F",
        b"\xC2\x80",
        b"\xE0\xA0\x80",
        b"\xED\x9F\xBF",
        b"\xEF\xBF\xBF",
        b"\xF0\x90\x80\x80",
        b"\xF4\x8F\xBF\xBF",
    ];
    for bytes in good {
        assert_eq!(with_name(bytes), (0, 0), "{bytes:x?}");
    }
    let bad: [&[u8]; 9] = [
        b"\x80",
        b"\xC1\xBF",
        b"\xC2",
        b"\xE0\x9F\x80",
        b"\xED\xA0\x80",
        b"\xF0\x8F\x80\x80",
        b"\xF4\x90\x80\x80",
        b"\xF5\x80\x80\x80",
        b"\xE1\x80",
    ];
    for bytes in bad {
        assert_eq!(with_name(bytes), (9, 0), "{bytes:x?}");
    }
}

#[test]
fn rule_10_count_runs_over_anything() {
    let broken = |text: &str| verdict_of(text, &[]);
    assert_eq!(broken(&"[".repeat(32)), (11, 0));
    assert_eq!(broken(&"[".repeat(33)), (10, 0));
    assert_eq!(broken(&format!("]]]]{}", "{".repeat(32))), (11, 0));
    assert_eq!(broken(&format!("\"{}\"", "[".repeat(40))), (11, 0));
    assert_eq!(broken(&format!("\"\\\"{}\"", "[".repeat(40))), (11, 0));
    assert_eq!(broken(&format!("\"\\\\\"{}", "[".repeat(40))), (10, 0));
    assert_eq!(broken(&format!("\\\"{}", "[".repeat(40))), (11, 0));
    assert_eq!(broken(&format!("}}{}", "[]".repeat(40))), (11, 0));
}

#[test]
fn rule_11_grammar() {
    let value = |text: &str| verdict_of(&with(&format!(r#""x":{text}"#)), &[]).0;
    for good in [
        "0",
        "-0",
        "1.0",
        "1e2",
        "-1.5E+3",
        "0e0",
        "true",
        "false",
        "null",
        "[]",
        "{}",
        "[1,2]",
        r#""\u0000\ud800\"\\\/\b\f\n\r\t""#,
        "\"\u{7f}\u{fffe}\"",
        " [ 1 , { } ] ",
    ] {
        assert_eq!(value(good), 0, "{good}");
    }
    for bad in [
        "",
        "01",
        "-",
        "+1",
        "1.",
        ".5",
        "1e",
        "1e+",
        "tru",
        "True",
        "nul",
        "[1,]",
        "[,1]",
        "[1 2]",
        "{,}",
        r#"{"a"}"#,
        r#"{"a":}"#,
        r#"{"a":1,}"#,
        "{a:1}",
        r#""\x""#,
        r#""\u12G4""#,
        r#""\u123"#,
        "\"\t\"",
        "'a'",
        "[",
        "]",
        "0x1",
        "1 2",
        "\u{feff}1",
        "NaN",
        "-01",
        "--1",
    ] {
        assert_eq!(value(bad), 11, "{bad}");
    }
    for bad in ["", "[]", "1", "\u{feff}{}", "{}{}", "{}\0\0", "null"] {
        assert_eq!(verdict_of(bad, &[]), (11, 0), "{bad}");
    }
    assert_eq!(verdict(&file_of(&[(JSON, &[]), (BIN, &[])])), (11, 0));
    assert_eq!(verdict_of(&format!("\r\n\t {}\n", with("")), &[]), (0, 0));
}

#[test]
fn rules_12_and_13_names() {
    let text = |members: &str| verdict_of(&with(members), &[]).0;
    assert_eq!(text(r#""x":[{"a\n":1}]"#), 12);
    assert_eq!(text(r#""\u0061":1"#), 12);
    assert_eq!(text(r#""x":{"a":1,"a":1},"y\\":1"#), 12);
    assert_eq!(text(r#""x":"a\n""#), 0);
    assert_eq!(text(r#""x":[{"a":1,"b":{"a":2},"c":[{"a":3}]}]"#), 0);
    assert_eq!(text(r#""x":[{"a":1,"b":{"a":2},"a":[{"a":3}]}]"#), 13);
    assert_eq!(text(r#""asset":{}"#), 13);
    assert_eq!(text(r#""":1,"":2"#), 13);
}

#[test]
fn rules_14_and_15_asset() {
    let text = |text: &str| verdict_of(text, &[]).0;
    for bad in [
        "{}",
        r#"{"asset":null}"#,
        r#"{"asset":[]}"#,
        r#"{"asset":{}}"#,
        r#"{"asset":{"version":2.0}}"#,
        r#"{"asset":{"version":"2."}}"#,
        r#"{"asset":{"version":"2"}}"#,
        r#"{"asset":{"version":"3.0"}}"#,
        r#"{"asset":{"version":"2.0 "}}"#,
        r#"{"asset":{"version":"2.\u0030"}}"#,
        r#"{"asset":{"version":"2.0","minVersion":null}}"#,
        r#"{"asset":{"version":"2.0","minVersion":"2.1"}}"#,
        r#"{"asset":{"version":"2.0","minVersion":"2.00"}}"#,
        r#"{"asset":{"version":"2.0","minVersion":"2.\u0030"}}"#,
    ] {
        assert_eq!(text(bad), 14, "{bad}");
    }
    for good in [r#"{"asset":{"version":"2.0123456789"}}"#, r#"{"asset":{"minVersion":"2.0","version":"2.9"}}"#] {
        assert_eq!(text(good), 0, "{good}");
    }
    assert_eq!(text(&with(r#""extensionsRequired":null"#)), 15);
    assert_eq!(text(&with(r#""extensionsRequired":[],"scene":null"#)), 15);
    assert_eq!(text(&with(r#""extensionsUsed":[],"x":{"extensionsRequired":1}"#)), 0);
}

#[test]
fn rule_16_kinds() {
    let lists = ["buffers", "bufferViews", "accessors", "nodes", "scenes"];
    for name in lists {
        for value in ["null", "{}", "[]", "[1]", "0", r#"[{"byteLength":1,"buffer":0},null]"#] {
            assert_eq!(verdict_of(&with(&format!(r#""{name}":{value}"#)), &[]), (16, 0), "{name} {value}");
        }
    }
    let wrong =
        ["null", "1.0", "1e2", "-0", "-1", "4294967296", "\"1\"", "true", "[1]", "{}", "99999999999999999999999"];
    let view = r#"{"buffer":0,"byteLength":4,"byteOffset":0,"byteStride":4,"target":34962}"#;
    let accessor =
        r#"{"bufferView":0,"byteOffset":0,"componentType":5121,"count":1,"type":"SCALAR","normalized":false}"#;
    let sparse = r#"{"count":1,"indices":{"bufferView":0,"componentType":5121,"byteOffset":0},"values":{"bufferView":0,"byteOffset":0}}"#;
    let replaced = |record: &str, name: &str, value: &str| {
        let from = record.find(&format!(r#""{name}":"#)).expect("the member is there") + name.len() + 3;
        let to = from + record[from..].find([',', '}']).expect("the record ends");
        format!("{}{value}{}", &record[..from], &record[to..])
    };
    for value in wrong {
        for name in ["buffer", "byteLength", "byteOffset", "byteStride", "target"] {
            assert_eq!(
                verdict_of(&model(4, &replaced(view, name, value), accessor), &[1; 4]),
                (16, 0),
                "{name} {value}"
            );
        }
        for name in ["bufferView", "byteOffset", "componentType", "count", "type"] {
            let value = if name == "type" && value == "\"1\"" { "1" } else { value };
            assert_eq!(
                verdict_of(&model(4, view, &replaced(accessor, name, value)), &[1; 4]),
                (16, 0),
                "{name} {value}"
            );
        }
        for name in ["count", "bufferView", "componentType", "byteOffset"] {
            assert_eq!(verdict_of(&sparse_model(&replaced(sparse, name, value)), &[0; 16]), (16, 0), "{name} {value}");
        }
        assert_eq!(verdict_of(&with(&format!(r#""buffers":[{{"byteLength":{value}}}]"#)), &[1; 4]), (16, 0), "{value}");
        assert_eq!(verdict_of(&with(&format!(r#""nodes":[{{"children":[{value}]}}]"#)), &[]), (16, 0), "{value}");
        assert_eq!(
            verdict_of(&with(&format!(r#""nodes":[{{}}],"scenes":[{{"nodes":[0,{value}]}}]"#)), &[]),
            (16, 0),
            "{value}"
        );
        assert_eq!(verdict_of(&with(&format!(r#""scene":{value}"#)), &[]), (16, 0), "{value}");
    }
    for value in ["null", "0", "\"true\"", "[]"] {
        assert_eq!(verdict_of(&model(4, view, &replaced(accessor, "normalized", value)), &[1; 4]), (16, 0), "{value}");
    }
    for part in [
        "null",
        "[]",
        "1",
        "{}",
        r#"{"count":1}"#,
        r#"{"count":1,"indices":1,"values":{"bufferView":2}}"#,
        r#"{"count":1,"indices":{"bufferView":1,"componentType":5121},"values":[]}"#,
    ] {
        assert_eq!(verdict_of(&sparse_model(part), &[0; 16]), (16, 0), "{part}");
    }
    for members in [
        r#""nodes":[{"children":[]}]"#,
        r#""nodes":[{"children":0}]"#,
        r#""scenes":[{"nodes":[]}]"#,
        r#""scenes":[{"nodes":null}]"#,
    ] {
        assert_eq!(verdict_of(&with(members), &[]), (16, 0), "{members}");
    }
    // 16 goes before 17, also past the capacity.
    let many = format!(r#""scenes":[{}1]"#, "{},".repeat(8));
    assert_eq!(verdict_of(&with(&many), &[]), (16, 0));
}

#[test]
fn rule_17_capacities() {
    let rows = [
        ("buffers", r#"{"byteLength":1}"#, 1),
        ("bufferViews", r#"{"buffer":0,"byteLength":1}"#, 64),
        ("accessors", r#"{"componentType":5121,"count":1,"type":"SCALAR"}"#, 128),
        ("nodes", "{}", 128),
        ("scenes", "{}", 8),
    ];
    for (name, record, capacity) in rows {
        let list = |count: usize| with(&format!(r#""{name}":[{}]"#, vec![record; count].join(",")));
        assert_eq!(verdict_of(&list(capacity + 1), &[]).0, 17, "{name}");
        assert_ne!(verdict_of(&list(capacity), &[]).0, 17, "{name}");
    }
}

#[test]
fn rules_18_to_20_buffer() {
    let buffer = |members: &str| {
        verdict_of(&with(&format!(r#""buffers":[{{"byteLength":5{members}}}]"#)), &[1, 1, 1, 1, 1, 0, 0, 0])
    };
    assert_eq!(buffer(""), (0, 0));
    assert_eq!(buffer(r#","uri":null"#), (18, 0));
    assert_eq!(buffer(r#","uri":"a.bin""#), (18, 0));
    for at in 5..8 {
        let mut bin = [1, 1, 1, 1, 1, 0, 0, 0];
        bin[at] = 1;
        assert_eq!(verdict_of(&model(5, "", ""), &bin), (20, 0));
    }
    assert_eq!(verdict_of(&with(""), &[1; 8]), (0, 0));
}

#[test]
fn rules_21_to_24_views() {
    let views =
        |second: &str| verdict_of(&model(8, &format!(r#"{{"buffer":0,"byteLength":8}},{{{second}}}"#), ""), &[1; 8]);
    assert_eq!(views(r#""buffer":0,"byteLength":4,"byteOffset":4"#), (0, 0));
    assert_eq!(views(r#""buffer":1,"byteLength":0"#), (21, 1));
    assert_eq!(views(r#""buffer":0,"byteLength":0,"byteStride":0"#), (22, 1));
    assert_eq!(views(r#""buffer":0,"byteLength":4,"byteOffset":5"#), (22, 1));
    assert_eq!(views(r#""buffer":0,"byteLength":8,"byteOffset":4294967292"#), (22, 1));
    assert_eq!(views(r#""buffer":0,"byteLength":8,"byteStride":254,"target":0"#), (23, 1));
    assert_eq!(views(r#""buffer":0,"byteLength":8,"target":34961"#), (24, 1));
    assert_eq!(views(r#""buffer":0,"byteLength":8,"target":34964"#), (24, 1));
    assert_eq!(views(r#""buffer":0,"byteLength":8,"target":34963,"byteStride":4"#), (0, 0));
    assert_eq!(verdict_of(&with(r#""bufferViews":[{"buffer":0,"byteLength":1}]"#), &[]), (21, 0));
}

#[test]
fn rules_25_to_33_accessors() {
    let views = r#"{"buffer":0,"byteLength":64},{"buffer":0,"byteOffset":2,"byteLength":62},{"buffer":0,"byteLength":64,"byteStride":8},{"buffer":0,"byteLength":64,"byteStride":12}"#;
    let rows = [
        (r#""componentType":5126,"count":4294967295,"type":"MAT4""#, 0),
        (r#""componentType":5126,"count":1,"type":"MAT4","bufferView":0"#, 0),
        (r#""componentType":5126,"count":1,"type":"MAT4","bufferView":4"#, 25),
        (r#""componentType":5126,"count":1,"type":"MAT4","byteOffset":0"#, 25),
        (r#""componentType":5124,"count":0,"type":"X""#, 26),
        (r#""componentType":5127,"count":1,"type":"VEC2""#, 26),
        (r#""componentType":5119,"count":1,"type":"VEC2""#, 26),
        (r#""componentType":5120,"count":0,"type":"VEC5""#, 27),
        (r#""componentType":5120,"count":1,"type":"SCAL\u0041R""#, 27),
        (r#""componentType":5120,"count":1,"type":"scalar""#, 27),
        (r#""componentType":5125,"count":0,"type":"VEC2","normalized":true"#, 28),
        (r#""componentType":5125,"count":1,"type":"VEC2","normalized":true"#, 29),
        (r#""componentType":5126,"count":1,"type":"VEC2","normalized":true"#, 29),
        (r#""componentType":5123,"count":1,"type":"VEC2","normalized":true"#, 0),
        (r#""componentType":5126,"count":1,"type":"VEC3","bufferView":2,"byteOffset":2"#, 31),
        (r#""componentType":5126,"count":5,"type":"VEC3","bufferView":3,"byteOffset":4"#, 0),
        (r#""componentType":5126,"count":6,"type":"VEC3","bufferView":3"#, 33),
        (r#""componentType":5126,"count":1,"type":"VEC3","bufferView":0,"byteOffset":2"#, 32),
        (r#""componentType":5126,"count":1,"type":"VEC3","bufferView":1,"byteOffset":0"#, 32),
        (r#""componentType":5126,"count":1,"type":"VEC3","bufferView":1,"byteOffset":2"#, 32),
        (r#""componentType":5123,"count":1,"type":"VEC3","bufferView":1,"byteOffset":2"#, 0),
        (r#""componentType":5121,"count":1,"type":"MAT2","bufferView":1,"byteOffset":2"#, 32),
        (r#""componentType":5121,"count":1,"type":"MAT2","bufferView":1"#, 32),
        (r#""componentType":5121,"count":62,"type":"SCALAR","bufferView":1"#, 0),
        (r#""componentType":5121,"count":63,"type":"SCALAR","bufferView":1"#, 33),
        (r#""componentType":5121,"count":8,"type":"VEC4","bufferView":2"#, 0),
        (r#""componentType":5121,"count":8,"type":"VEC4","bufferView":2,"byteOffset":4"#, 0),
        (r#""componentType":5121,"count":8,"type":"VEC4","bufferView":2,"byteOffset":5"#, 33),
        (r#""componentType":5121,"count":4294967295,"type":"SCALAR","bufferView":3"#, 33),
        (r#""componentType":5121,"count":1,"type":"SCALAR","bufferView":0,"byteOffset":4294967295"#, 33),
    ];
    for (accessor, expected) in rows {
        let json = model(64, views, &format!(r#"{{"componentType":5121,"count":1,"type":"SCALAR"}},{{{accessor}}}"#));
        assert_eq!(verdict_of(&json, &[1; 64]), (expected, u32::from(expected != 0)), "{accessor}");
    }
}

/// A byteStride that keeps rule 23 is a multiple of every component size, and so is every element size: no file breaks
/// rule 30.
#[test]
fn rule_30_cannot_be_broken() {
    for stride in (4..=252).step_by(4) {
        assert!([1, 2, 4].iter().all(|size| stride % size == 0));
    }
}

#[test]
fn rules_34_to_39_sparse() {
    let rows = [
        (SPARSE, 0),
        (r#"{"count":0,"indices":{"bufferView":9,"componentType":5121},"values":{"bufferView":2}}"#, 34),
        (r#"{"count":9,"indices":{"bufferView":1,"componentType":5121},"values":{"bufferView":2}}"#, 34),
        (r#"{"count":2,"indices":{"bufferView":6,"componentType":5121},"values":{"bufferView":3}}"#, 35),
        (r#"{"count":2,"indices":{"bufferView":1,"componentType":5121},"values":{"bufferView":6}}"#, 35),
        (r#"{"count":2,"indices":{"bufferView":3,"componentType":5120},"values":{"bufferView":2}}"#, 36),
        (r#"{"count":2,"indices":{"bufferView":1,"componentType":5121},"values":{"bufferView":4}}"#, 36),
        (r#"{"count":2,"indices":{"bufferView":1,"componentType":5120,"byteOffset":1},"values":{"bufferView":2}}"#, 37),
        (r#"{"count":2,"indices":{"bufferView":1,"componentType":5126},"values":{"bufferView":2}}"#, 37),
        (r#"{"count":1,"indices":{"bufferView":1,"componentType":5123,"byteOffset":1},"values":{"bufferView":2}}"#, 38),
        (r#"{"count":1,"indices":{"bufferView":5,"componentType":5123},"values":{"bufferView":2}}"#, 38),
        (r#"{"count":1,"indices":{"bufferView":5,"componentType":5123,"byteOffset":1},"values":{"bufferView":2}}"#, 38),
        (r#"{"count":1,"indices":{"bufferView":1,"componentType":5125},"values":{"bufferView":2,"byteOffset":3}}"#, 0),
        (r#"{"count":2,"indices":{"bufferView":1,"componentType":5125},"values":{"bufferView":2}}"#, 39),
        (r#"{"count":2,"indices":{"bufferView":1,"componentType":5121,"byteOffset":3},"values":{"bufferView":2}}"#, 39),
        (r#"{"count":2,"indices":{"bufferView":1,"componentType":5121},"values":{"bufferView":2,"byteOffset":3}}"#, 39),
        (
            r#"{"count":2,"indices":{"bufferView":1,"componentType":5121},"values":{"bufferView":2,"byteOffset":4294967295}}"#,
            39,
        ),
    ];
    let more = r#","byteLength":4},{"buffer":0,"byteLength":4,"byteStride":4},{"buffer":0,"byteLength":4,"target":34962},{"buffer":0,"byteOffset":1,"byteLength":4}],"accessors""#;
    for (sparse, expected) in rows {
        let json = sparse_model(sparse).replace(r#","byteLength":4}],"accessors""#, more);
        let bin = [0, 1, 2, 3, 4, 5, 6, 7, 1, 0, 0, 0, 1, 2, 3, 4];
        let bin = if sparse == SPARSE { [0, 1, 2, 3, 4, 5, 6, 7, 1, 2, 0, 0, 1, 2, 3, 4] } else { bin };
        assert_eq!(verdict_of(&json, &bin), (expected, 0), "{sparse}");
    }
}

/// Indices keep to their own size alone; values of a matrix keep to 4.
#[test]
fn rule_38_matrix() {
    let views = r#"{"buffer":0,"byteOffset":1,"byteLength":3},{"buffer":0,"byteOffset":4,"byteLength":12}"#;
    let accessor = |indices: u32, values: u32| {
        format!(
            r#"{{"componentType":5121,"count":2,"type":"MAT2","sparse":{{"count":1,"indices":{{"bufferView":0,"componentType":5121,"byteOffset":{indices}}},"values":{{"bufferView":1,"byteOffset":{values}}}}}}}"#
        )
    };
    for (indices, values, expected) in [(0, 0, 0), (1, 4, 0), (1, 2, 38), (2, 1, 38)] {
        assert_eq!(verdict_of(&model(16, views, &accessor(indices, values)), &[1; 16]), (expected, 0));
    }
}

#[test]
fn rules_41_to_46_graph() {
    let rows = [
        (r#""nodes":[{"children":[1]},{"children":[2,3]},{}]"#, (41, 1)),
        (r#""nodes":[{"children":[1,4294967295]},{}]"#, (41, 0)),
        (r#""nodes":[{"children":[3,3]},{"children":[2]},{"children":[2]},{}]"#, (42, 2)),
        (r#""nodes":[{"children":[1,1]},{}]"#, (42, 1)),
        (r#""nodes":[{},{"children":[2]},{"children":[3]},{"children":[1]}]"#, (43, 1)),
        (r#""nodes":[{},{"children":[0]},{"children":[1]}],"scenes":[{"nodes":[2]},{},{"nodes":[2]}]"#, (0, 0)),
        (r#""nodes":[{}],"scenes":[{"nodes":[0]},{"nodes":[0,0]},{"nodes":[1]}]"#, (44, 2)),
        (r#""scenes":[{"nodes":[0]}]"#, (44, 0)),
        (r#""nodes":[{},{"children":[0]}],"scenes":[{"nodes":[0]},{"nodes":[1,1]}]"#, (45, 1)),
        (r#""nodes":[{},{"children":[0]}],"scenes":[{"nodes":[1]},{"nodes":[1,0]}]"#, (46, 1)),
    ];
    for (members, expected) in rows {
        assert_eq!(verdict_of(&with(members), &[]), expected, "{members}");
    }
    // Nodes below a loop break rule 43 too: 0 hangs below the loop of 1 and 2.
    assert_eq!(verdict_of(&with(r#""nodes":[{},{"children":[2,0]},{"children":[1]}]"#), &[]), (43, 0));
}

#[test]
fn readings_refuse_in_order() {
    let file = glb(&sparse_model(SPARSE), &[0, 1, 2, 3, 4, 5, 6, 7, 1, 2, 0, 0, 90, 91, 92, 93]);
    let tables = check(&file).tables;
    assert_eq!(component(&file, &tables, 0, 7, 0), (0, 7));
    assert_eq!(component(&file, &tables, 1, 9, 9), (60, 0));
    assert_eq!(component(&file, &tables, 0, 8, 1), (61, 0));
    assert_eq!(component(&file, &tables, 0, 0, 1), (62, 0));
    assert_eq!(component(&file[..file.len() - 1], &tables, 0, 8, 0), (63, 0));
    assert_eq!(view(&file, &tables, 1), (0, (file.len() - 8) as u64, 4));
    assert_eq!(view(&file, &tables, 3), (67, 0, 0));
    assert_eq!(view(&file[..file.len() - 1], &tables, 1), (63, 0, 0));
    let mut strange = tables.clone();
    strange.view_records[1].target = Some(0);
    assert_eq!(component(&file, &strange, 0, 0, 0), (63, 0));
    assert_eq!(view(&file, &strange, 1).0, 0);
    strange.scenes = 9;
    assert_eq!(view(&file, &strange, 1).0, 63);
    strange.accessors = 200;
    assert_eq!(component(&file, &strange, 128, 0, 0), (60, 0));
}

#[test]
fn walk_goes_down_first() {
    let json = with(r#""nodes":[{"children":[3,1]},{},{},{"children":[4]},{}],"scenes":[{"nodes":[2,0]},{}]"#);
    let tables = check(&glb(&json, &[])).tables;
    let found = walk(&tables, 0, 5);
    assert_eq!((found.number, found.nodes), (0, vec![2, 0, 3, 4, 1]));
    assert_eq!(walk(&tables, 0, 4).number, 65);
    assert_eq!((walk(&tables, 1, 0).number, walk(&tables, 1, 0).nodes.len()), (0, 0));
    assert_eq!(walk(&tables, 2, 5).number, 64);
    let mut strange = tables.clone();
    strange.node_lists[2].start = 129;
    assert_eq!(walk(&strange, 0, 0).number, 66);
    strange = tables.clone();
    strange.children[0] = 4;
    assert_eq!(walk(&strange, 0, 9).number, 66);
}

#[test]
fn words_and_back() {
    let file = glb(&sparse_model(SPARSE), &[0, 1, 2, 3, 4, 5, 6, 7, 1, 2, 0, 0, 90, 91, 92, 93]);
    let tables = check(&file).tables;
    assert_eq!(Tables::from_words(&tables.to_words()), tables);
}
