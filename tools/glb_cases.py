#!/usr/bin/env python3
"""Writes small GLB files, good ones and at least three broken ones for each rule, with what is right for each.

  tools/glb_cases.py FOLDER

FOLDER gets NNN-rule-RR-name.glb, one file for each case; `expected.txt`, one line for each in the order of their
names; and `stdin`, all files one after the other, each preceded by its length (4 bytes, little-endian). They are the
same every time. The lines come from tools/glb_reader.py, which says there what they hold.

No file under 64 KB breaks rule 8, and none at all breaks rule 30: a byteStride that keeps rule 23 is a multiple of
every component size, and so is every element size."""
import copy
import json
import os
import re
import struct
import sys

from glb_reader import BIN, JSON, answers


def pad(data, filler):
    return data + filler * (-len(data) % 4)


def container(chunks, magic=0x46546C67, version=2, length=None):
    """A file of chunks, as they are."""
    body = b"".join(struct.pack("<II", len(data), kind) + data for kind, data in chunks)
    return struct.pack("<III", magic, version, 12 + len(body) if length is None else length) + body


def from_text(text, bin_=None):
    text = text if isinstance(text, bytes) else text.encode()
    chunks = [(JSON, pad(text, b" "))]
    return container(chunks if bin_ is None else chunks + [(BIN, pad(bin_, b"\0"))])


def from_model(model, bin_=None):
    return from_text(json.dumps(model, separators=(",", ":")), bin_)


EMPTY = {"asset": {"version": "2.0"}}


def hull():
    """A model with a bit of everything, and its buffer of 109 bytes."""
    indices, values = {"bufferView": 2, "componentType": 5123}, {"bufferView": 3, "byteOffset": 4}
    sparse = {"count": 3, "indices": indices, "values": values}
    model = {
        "asset": {"version": "2.0"},
        "buffers": [{"byteLength": 109}],
        "bufferViews": [
            {"buffer": 0, "byteLength": 48, "byteStride": 16, "target": 34962},
            {"buffer": 0, "byteOffset": 48, "byteLength": 24},
            {"buffer": 0, "byteOffset": 72, "byteLength": 6},
            {"buffer": 0, "byteOffset": 80, "byteLength": 28},
            {"buffer": 0, "byteOffset": 108, "byteLength": 1, "target": 34963},
        ],
        "accessors": [
            {"bufferView": 0, "componentType": 5126, "count": 3, "type": "VEC3", "byteOffset": 4},
            {"bufferView": 1, "componentType": 5122, "count": 4, "type": "VEC3", "normalized": True, "sparse": sparse},
            {"componentType": 5120, "count": 9, "type": "MAT3"},
            {"bufferView": 1, "componentType": 5121, "count": 2, "type": "MAT3"},
        ],
        "nodes": [{"children": [2, 1]}, {}, {"children": [4]}, {}, {}],
        "scenes": [{"nodes": [3, 0]}, {}],
        "scene": 0,
    }
    data = bytearray((37 * i + 11) % 256 for i in range(109))
    data[72:78] = struct.pack("<HHH", 0, 2, 3)
    return model, bytes(data)


def changed(change):
    """The hull model after a change to its tree."""
    model, data = hull()
    change(model)
    return from_model(model, data)


def set_in(*path_and_value):
    """The hull model with a member at a path put in or replaced."""
    *path, last, value = path_and_value

    def change(model):
        for step in path:
            model = model[step]
        model[last] = value

    return changed(change)


def drop_in(*path):
    *path, last = path

    def change(model):
        for step in path:
            model = model[step]
        del model[last]

    return changed(change)


def with_data(at, replacement):
    """The hull model with bytes of its buffer replaced."""
    model, data = hull()
    return from_model(model, data[:at] + replacement + data[at + len(replacement) :])


def spelled(old, new):
    """The hull model with a piece of its text replaced where it first stands."""
    model, data = hull()
    text = json.dumps(model, separators=(",", ":"))
    assert old in text, old
    return from_text(text.replace(old, new, 1), data)


def respelled(name, value):
    """The hull model with the first plain member of that name spelled otherwise."""
    model, data = hull()
    text = json.dumps(model, separators=(",", ":"))
    return from_text(re.sub('"%s":["\\w]+' % name, lambda _: '"%s":%s' % (name, value), text, count=1), data)


def text_with(members, bin_=None):
    """A text of `asset` and these members, as they are spelled."""
    return from_text('{"asset":{"version":"2.0"},%s}' % members, bin_)


def nested(levels, inner=""):
    return from_text('{"asset":{"version":"2.0"},"extras":%s%s%s}' % ("[" * (levels - 1), inner, "]" * (levels - 1)))


def good_cases():
    text = json.dumps(EMPTY, separators=(",", ":")).encode()
    model, data = hull()
    yield "c1", from_text(text)
    yield "hull", from_model(model, data)
    yield "spaced", from_text("\n\t" + json.dumps(model, indent=1) + "\r\n", data)
    yield "sorted", from_text(json.dumps(model, sort_keys=True), data)
    yield "more-chunks", container([(JSON, pad(text, b" ")), (BIN, b""), (1, b"abcd"), (1, b"")])
    yield "bin-ignored", container([(JSON, pad(text, b"\n")), (BIN, b"\1\2\3\4")])
    yield "unknown-chunk-1", container([(JSON, pad(text, b" ")), (7, b"")])
    yield "depth-32", nested(32)
    yield "depth-in-strings", nested(32, '"[[[[\\"[[["')
    yield "unread", text_with('"meshes":[1.5,-0,1e9,null],"extras":{"":{"a":1},"b":"\\u0000\\ud800"}')
    yield "not-ascii", text_with('"caf\u00e9":"\U0001F6E5"')
    yield "stride-252", text_with(
        '"buffers":[{"byteLength":256}],"bufferViews":[{"buffer":0,"byteLength":256,"byteStride":252}],'
        '"accessors":[{"bufferView":0,"componentType":5125,"count":2,"type":"SCALAR"}]', bytes(range(256)))
    yield "matrices", text_with(
        '"buffers":[{"byteLength":64}],"bufferViews":[{"buffer":0,"byteLength":64}],"accessors":['
        '{"bufferView":0,"componentType":5123,"count":2,"type":"MAT3","byteOffset":8},'
        '{"bufferView":0,"componentType":5120,"count":8,"type":"MAT2"}]', bytes(range(128, 192)))
    yield "two-scenes", text_with('"nodes":[{},{"children":[0,2]},{}],"scenes":[{"nodes":[1]},{"nodes":[1]}]')
    chain = "".join('{"children":[%d]},' % i for i in range(1, 128))
    yield "chain", text_with('"nodes":[%s{}],"scenes":[{"nodes":[0]}]' % chain)
    yield "version-2.10", text_with('"scene":0,"scenes":[{}]').replace(b'"2.0"}', b'"2.1"}')


def header_cases():
    text = pad(json.dumps(EMPTY).encode(), b" ")
    good = container([(JSON, text)])
    for size in (0, 12, 19):
        yield 1, f"size-{size}", good[:size]
    yield 2, "first", b"GlTF" + good[4:]
    yield 2, "zero", container([(JSON, text)], magic=0)
    yield 2, "reversed", container([(JSON, text)], magic=0x676C5446)
    for version in (0, 1, 3, 0x02000000):
        yield 3, f"{version}", container([(JSON, text)], version=version)
    for more in (-4, 1, 1 << 24):
        yield 4, f"{more}", container([(JSON, text)], length=len(good) + more)
    yield 4, "cut", good[:-4]
    for tail in (1, 4, 7):
        yield 5, f"tail-{tail}", container([(JSON, text)], length=len(good) + tail) + bytes(tail)
    for size in (len(text) - 1, len(text) + 4, 0xFFFFFFFC):
        yield 5, f"length-{size}", good[:12] + struct.pack("<I", size) + good[16:]
    yield 5, "third", container([(JSON, text), (1, b""), (1, b"abc")])
    yield 6, "bin-first", container([(BIN, text)])
    yield 6, "none-first", container([(0, text), (JSON, text)])
    yield 6, "second", container([(JSON, text), (JSON, text)])
    yield 6, "third", container([(JSON, text), (BIN, b""), (JSON, b"")])
    yield 7, "second-bin", container([(JSON, text), (BIN, b""), (BIN, b"")])
    yield 7, "late-bin", container([(JSON, text), (0, b""), (BIN, b"abcd")])
    yield 7, "fourth", container([(JSON, text), (BIN, b""), (9, b""), (BIN, b"")])


def text_cases():
    asset = '{"asset":{"version":"2.0"},'
    for number, piece in enumerate((b"\x80", b"\xc0\xaf", b"\xed\xa0\x80", b"\xe2\x82", b"\xf4\x90\x80\x80")):
        yield 9, f"{number}", from_text(asset.encode() + b'"x":"' + piece + b'"}')
    yield 10, "33", nested(33)
    yield 10, "open", from_text("[" * 33)
    yield 10, "objects", from_text('{"a":' * 40)
    yield 10, "after-string", from_text('"\\\\"' + "[" * 33)
    values = ("01", "1.", "+1", "tru", "[1,]", '"\t"', '"\\x"', '"\\u12g4"', "1}\0", '{"a" 1}', "{a:1}")
    texts = ["", "[]", "{}{}", "{},", asset[:-1], asset + "}", "\ufeff" + asset + '"x":1}']
    for number, text in enumerate(texts + [asset + '"x":%s}' % value for value in values]):
        yield 11, f"{number}", from_text(text)
    for number, members in enumerate(('"a\\u0062":1', '"x":[{"\\n":1}]', '"x":{"a":1,"a":2},"\\\\":1')):
        yield 12, f"{number}", text_with(members)
    repeats = ('"asset":1', '"x":[{"a":1,"b":2,"a":3}]', '"":1,"":1', '"x":{"y":{"z":1,"z":1}}')
    for number, members in enumerate(repeats):
        yield 13, f"{number}", text_with(members)
    versions = ("2.0", '"2."', '"2.\\u0030"', '"12.0"', '"2.0x"', '"2.0","minVersion":null')
    versions += ('"2.1","minVersion":"2.1"', '"2.0","minVersion":"2.00"')
    for number, value in enumerate(["1", "null", "[]", "{}"] + ['{"version":%s}' % version for version in versions]):
        yield 14, f"{number}", from_text('{"asset":%s}' % value)
    yield 14, "absent", from_text("{}")
    for number, value in enumerate(("null", "[]", '["KHR_draco_mesh_compression"]')):
        yield 15, f"{number}", text_with('"extensionsRequired":%s' % value)


def kind_cases():
    wrong = ("1.0", "1e2", "-0", "null", "4294967296", '"1"', "[1]")
    view_names = ("byteLength", "buffer", "byteOffset", "byteStride", "target")
    accessor_names = ("bufferView", "componentType", "count", "type", "normalized")
    for number, name in enumerate((*view_names, *accessor_names, "scene")):
        value = "3" if name == "type" else wrong[number % len(wrong)]
        yield 16, name, respelled(name, value)
    yield 16, "child", spelled('"children":[2', '"children":[-2')
    yield 16, "sparse-count", spelled('"count":3,"indices"', '"count":3.0,"indices"')
    sparse = ("accessors", 1, "sparse")
    required = [("buffers", 0, "byteLength"), ("bufferViews", 1, "buffer"), ("bufferViews", 2, "byteLength")]
    required += [("accessors", 2, name) for name in ("componentType", "count", "type")]
    required += [(*sparse, name) for name in ("count", "indices", "values")]
    required += [(*sparse, "indices", name) for name in ("bufferView", "componentType")] + [(*sparse, "values", "bufferView")]
    for number, path in enumerate(required):
        yield 16, f"without-{number}", drop_in(*path)
    for name, value in (("buffers", []), ("nodes", {}), ("scenes", [1]), ("accessors", None), ("bufferViews", 0)):
        yield 16, f"list-{name}", set_in(name, value)
    yield 16, "children-empty", set_in("nodes", 1, "children", [])
    yield 16, "roots-null", set_in("scenes", 1, "nodes", None)
    yield 16, "sparse-array", set_in(*sparse, [])
    yield 16, "values-number", set_in(*sparse, "values", 1)
    yield 16, "past-capacity", text_with('"scenes":[%s0]' % ("{}," * 8))


def document_cases():
    view, accessor = {"buffer": 0, "byteLength": 1}, {"componentType": 5121, "count": 1, "type": "SCALAR"}
    lists = (("buffers", 2, {"byteLength": 1}), ("bufferViews", 65, view), ("accessors", 129, accessor))
    for name, count, record in (*lists, ("nodes", 129, {}), ("scenes", 9, {})):
        yield 17, name, from_model(dict(EMPTY, **{name: [record] * count}), b"\1")
    for number, value in enumerate((None, "hull.bin", "")):
        yield 18, f"{number}", set_in("buffers", 0, "uri", value)
    one = dict(EMPTY, buffers=[{"byteLength": 4}])
    yield 19, "no-bin", from_model(one)
    yield 19, "other-chunk", container([(JSON, pad(json.dumps(one).encode(), b" ")), (1, b"abcd")])
    yield 19, "short", from_model(dict(EMPTY, buffers=[{"byteLength": 5}]), b"abcd")
    yield 19, "long", from_model(one, b"abcd\0\0\0\0")
    yield 19, "zero", from_model(dict(EMPTY, buffers=[{"byteLength": 0}]), b"")
    for number, tail in enumerate((b"\1\0\0", b"\0\1\0", b"\0\0\x80")):
        model, data = hull()
        yield 20, f"{number}", from_model(model, data + tail)


def record_cases():
    for number, value in enumerate((1, 2, 4294967295)):
        yield 21, f"{number}", set_in("bufferViews", number, "buffer", value)
    yield 21, "no-buffer", from_model(dict(EMPTY, bufferViews=[{"buffer": 0, "byteLength": 1}]))
    for value in (0, 62, 4294967295):
        yield 22, f"length-{value}", set_in("bufferViews", 1, "byteLength", value)
    for value in (86, 4294967272, 4294967295):
        yield 22, f"offset-{value}", set_in("bufferViews", 1, "byteOffset", value)
    for value in (0, 2, 6, 254, 256):
        yield 23, f"{value}", set_in("bufferViews", 1, "byteStride", value)
    for value in (0, 34961, 34964):
        yield 24, f"{value}", set_in("bufferViews", 4, "target", value)
    yield 25, "5", set_in("accessors", 0, "bufferView", 5)
    yield 25, "max", set_in("accessors", 3, "bufferView", 4294967295)
    yield 25, "offset-0", set_in("accessors", 2, "byteOffset", 0)
    for value in (0, 5119, 5124, 5127):
        yield 26, f"{value}", set_in("accessors", 2, "componentType", value)
    for number, value in enumerate(("", "scalar", "VEC5", "MAT1", "VEC3 ")):
        yield 27, f"{number}", set_in("accessors", 2, "type", value)
    yield 27, "escaped", spelled('"type":"MAT3"', '"type":"MAT\\u0033"')
    for number in range(3):
        yield 28, f"{number}", set_in("accessors", number, "count", 0)
    yield 29, "float", set_in("accessors", 0, "normalized", True)
    for value in (5125, 5126):
        normalized = {"componentType": value, "normalized": True, "count": 1, "type": "VEC2"}
        yield 29, f"{value}", set_in("accessors", 2, normalized)
    for value in (4, 8):
        yield 31, f"float-{value}", set_in("bufferViews", 0, "byteStride", value)
    yield 31, "matrix", set_in("bufferViews", 1, "byteStride", 8)
    for value in (1, 2, 3):
        yield 32, f"float-{value}", set_in("accessors", 0, "byteOffset", value)
    yield 32, "matrix", set_in("accessors", 3, "byteOffset", 2)
    yield 32, "view", changed(lambda model: model["bufferViews"][1].update(byteOffset=47))
    yield 33, "count", set_in("accessors", 0, "count", 4)
    yield 33, "offset", set_in("accessors", 0, "byteOffset", 8)
    yield 33, "view", set_in("bufferViews", 0, "byteLength", 47)
    yield 33, "matrix", set_in("accessors", 3, "byteOffset", 4)
    yield 33, "huge", set_in("accessors", 0, "count", 4294967295)
    yield 33, "c2", fit_case("VEC2")
    yield 0, "c3", fit_case("SCALAR")


def fit_case(kind):
    """C2 and C3 of document 01."""
    return text_with(
        '"buffers":[{"byteLength":17756}],"bufferViews":[{"buffer":0,"byteLength":17136,"byteOffset":620}],'
        '"accessors":[{"bufferView":0,"byteOffset":4608,"componentType":5123,"count":5232,"type":"%s"}]' % kind, bytes(17756))


def sparse_cases():
    sparse = ("accessors", 1, "sparse")
    for value in (0, 5, 4294967295):
        yield 34, f"{value}", set_in(*sparse, "count", value)
    for part, value in (("indices", 5), ("values", 5), ("values", 4294967295)):
        yield 35, f"{part}-{value}", set_in(*sparse, part, "bufferView", value)
    yield 36, "indices-stride", set_in("bufferViews", 2, "byteStride", 4)
    yield 36, "values-target", set_in("bufferViews", 3, "target", 34962)
    yield 36, "values-stride", set_in("bufferViews", 3, "byteStride", 8)
    for value in (5120, 5122, 5126):
        yield 37, f"{value}", set_in(*sparse, "indices", "componentType", value)
    yield 38, "indices", set_in(*sparse, "indices", "byteOffset", 1)
    yield 38, "values", set_in(*sparse, "values", "byteOffset", 3)
    yield 38, "view", set_in("bufferViews", 2, "byteOffset", 71)
    matrix = copy.deepcopy(hull()[0]["accessors"][1]["sparse"])
    matrix["values"]["byteOffset"] = 2
    yield 38, "matrix", set_in("accessors", 2, "sparse", matrix)
    yield 39, "indices", set_in(*sparse, "count", 4)
    yield 39, "values", set_in(*sparse, "values", "byteOffset", 12)
    yield 39, "wide", set_in(*sparse, "indices", "componentType", 5125)
    yield 39, "huge", set_in(*sparse, "values", "byteOffset", 4294967294)
    for indices in ((0, 2, 2), (2, 0, 3), (0, 2, 4), (0, 2, 65535), (3, 3, 3)):
        yield 40, "-".join(map(str, indices)), with_data(72, struct.pack("<HHH", *indices))


def graph_cases():
    for value in (5, 128, 65536, 4294967295):
        yield 41, f"{value}", set_in("nodes", 4, "children", [value])
    yield 41, "second", set_in("nodes", 0, "children", [2, 1, 5])
    yield 42, "twice-in-one", set_in("nodes", 0, "children", [2, 1, 2])
    yield 42, "two-parents", set_in("nodes", 1, "children", [4])
    yield 42, "c9", text_with('"nodes":[{"children":[2]},{"children":[2]},{}]')
    yield 42, "smallest", text_with('"nodes":[{"children":[3,3]},{"children":[2]},{"children":[2]},{}]')
    yield 42, "many", text_with('"nodes":[{"children":[%s]},{}]' % ",".join(["1"] * 300))
    yield 43, "c8", text_with('"nodes":[{"children":[0]}]')
    yield 43, "three", text_with('"nodes":[{},{"children":[2]},{"children":[3]},{"children":[1]}]')
    yield 43, "below", text_with('"nodes":[{},{"children":[2,0]},{"children":[1]}]')
    for number, roots in enumerate(([5], [3, 128], [0, 4294967295])):
        yield 44, f"{number}", set_in("scenes", 1, "nodes", roots)
    yield 44, "no-nodes", text_with('"scenes":[{"nodes":[0]}]')
    for number, roots in enumerate(([3, 3], [0, 3, 0], [1, 0, 1])):
        yield 45, f"{number}", set_in("scenes", 1, "nodes", roots)
    yield 45, "many", text_with('"nodes":[{}],"scenes":[{"nodes":[%s]}]' % ",".join(["0"] * 1100))
    for number, roots in enumerate(([1], [3, 0, 4], [2, 3])):
        yield 46, f"{number}", set_in("scenes", number % 2, "nodes", roots)
    yield 47, "c12", text_with('"scene":0')
    for value in (2, 8, 4294967295):
        yield 47, f"{value}", set_in("scene", value)


def all_cases():
    for name, file in good_cases():
        yield 0, name, file
    for family in (header_cases, text_cases, kind_cases, document_cases, record_cases, sparse_cases, graph_cases):
        yield from family()


def main():
    folder = sys.argv[1]
    os.makedirs(folder, exist_ok=True)
    lines, joined, counts = [], b"", {}
    for number, (rule, name, file) in enumerate(all_cases()):
        verdict, line = answers(file)
        assert verdict == rule, f"{name} is meant for rule {rule}, and the reader says {verdict}"
        assert len(file) < 65536, name
        counts[rule] = counts.get(rule, 0) + 1
        lines.append(line + "\n")
        joined += struct.pack("<I", len(file)) + file
        with open(os.path.join(folder, f"{number:03}-rule-{rule:02}-{name}.glb"), "wb") as out:
            out.write(file)
    few = [rule for rule in range(1, 48) if rule not in (8, 30) and counts.get(rule, 0) < 3]
    assert not few, f"fewer than three cases: {few}"
    with open(os.path.join(folder, "expected.txt"), "w", encoding="ascii") as out:
        out.writelines(lines)
    with open(os.path.join(folder, "stdin"), "wb") as out:
        out.write(joined)
    print(f"{len(lines)} cases, {counts[0]} good, {len(joined)} bytes in all")


if __name__ == "__main__":
    main()
