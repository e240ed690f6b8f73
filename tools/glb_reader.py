"""A reader of GLB hull models, written from document 01, which shares nothing with the library.

It serves tools/glb_cases.py: `answers` gives the verdict of a file, and a line with what it reads from it."""
import re
import struct

JSON, BIN = 0x4E4F534A, 0x004E4942

COMPONENT_SIZES = {5120: 1, 5121: 1, 5122: 2, 5123: 2, 5125: 4, 5126: 4}
FORMATS = {5120: "<b", 5121: "<B", 5122: "<h", 5123: "<H", 5125: "<I", 5126: "<I"}
COMPONENTS = {"SCALAR": 1, "VEC2": 2, "VEC3": 3, "VEC4": 4, "MAT2": 4, "MAT3": 9, "MAT4": 16}
ELEMENT_BYTES = {
    1: dict(SCALAR=1, VEC2=2, VEC3=3, VEC4=4, MAT2=8, MAT3=12, MAT4=16),
    2: dict(SCALAR=2, VEC2=4, VEC3=6, VEC4=8, MAT2=8, MAT3=24, MAT4=32),
    4: dict(SCALAR=4, VEC2=8, VEC3=12, VEC4=16, MAT2=16, MAT3=36, MAT4=64),
}
TOKEN = re.compile(
    r"[ \t\n\r]*(?:(?P<mark>[][{}:,])|(?P<word>true|false|null)"
    r"|(?P<number>-?(?:0|[1-9][0-9]*)(?:\.[0-9]+)?(?:[eE][-+]?[0-9]+)?)"
    r'|(?P<string>"(?:[^"\\\x00-\x1f]|\\["\\/bfnrt]|\\u[0-9a-fA-F]{4})*")|(?P<end>\Z))'
)


class Broken(Exception):
    """A rule is broken: its number and the item."""


class Text(str):
    """A JSON string as it is spelled."""


class Number(str):
    """A JSON number as it is spelled."""


class Members(list):
    """A JSON object: pairs of name and value."""

    def get(self, name):
        return next((value for key, value in self if key == name), None)

    def has(self, name):
        return any(key == name for key, _ in self)


NULL = object()


def require(rule, holds, item=0):
    if not holds:
        raise Broken(rule, item)


def require_each(rule, holds):
    """The item is the first that does not hold."""
    for item, good in enumerate(holds):
        require(rule, good, item)


def read_chunks(file):
    require(1, 20 <= len(file) <= 16777216)
    magic, version, length = struct.unpack_from("<III", file)
    require(2, magic == 0x46546C67)
    require(3, version == 2)
    require(4, length == len(file))
    chunks, at = [], 12
    while at < len(file):
        require(5, at + 8 <= len(file), len(chunks))
        size, kind = struct.unpack_from("<II", file, at)
        require(5, size % 4 == 0 and at + 8 + size <= len(file), len(chunks))
        chunks.append((kind, at + 8, size))
        at += 8 + size
    require_each(6, [(kind == JSON) == (i == 0) for i, (kind, _, _) in enumerate(chunks)])
    require_each(7, [kind != BIN or i == 1 for i, (kind, _, _) in enumerate(chunks)])
    require(8, chunks[0][2] <= 65536)
    return chunks


def depth(text):
    """Rule 10's count: what stands in strings is taken out first, an unclosed one to the end of the text."""
    level = greatest = 0
    for mark in re.sub(r'"(?:[^"\\]|\\.)*(?:"|\\?\Z)', "", text, flags=re.S):
        level = level + 1 if mark in "[{" else max(level - 1, 0) if mark in "]}" else level
        greatest = max(greatest, level)
    return greatest


def parse(text):
    """The JSON value of a text by its tokens."""
    tokens, at = [], 0
    while not tokens or tokens[-1][0] != "end":
        match = TOKEN.match(text, at)
        require(11, match is not None)
        tokens.append((match.lastgroup, match.group(match.lastgroup)))
        at = match.end()
    tokens.reverse()
    value = parse_value(tokens)
    require(11, tokens.pop()[0] == "end" and isinstance(value, Members))
    return value


def parse_value(tokens):
    kind, spelling = tokens.pop()
    if kind == "word":
        return {"true": True, "false": False, "null": NULL}[spelling]
    if kind == "number":
        return Number(spelling)
    if kind == "string":
        return Text(spelling[1:-1])
    require(11, spelling in ("[", "{") and kind == "mark")
    values = Members() if spelling == "{" else []
    close = ("mark", "}" if spelling == "{" else "]")
    if tokens[-1] == close:
        tokens.pop()
        return values
    while True:
        if spelling == "{":
            kind, name = tokens.pop()
            require(11, kind == "string" and tokens.pop() == ("mark", ":"))
            values.append((name[1:-1], parse_value(tokens)))
        else:
            values.append(parse_value(tokens))
        after = tokens.pop()
        if after == close:
            return values
        require(11, after == ("mark", ","))


def objects_of(value):
    """All objects at and under a value."""
    if isinstance(value, Members):
        yield value
        for _, member in value:
            yield from objects_of(member)
    elif isinstance(value, list):
        for element in value:
            yield from objects_of(element)


def integer(value):
    require(16, isinstance(value, Number) and re.fullmatch("[0-9]+", value) and int(value) <= 4294967295)
    return int(value)


def fields(record, required, optional=()):
    """The integers of a record: those required and those that are there."""
    require(16, isinstance(record, Members) and all(record.has(name) for name in required))
    return {name: integer(record.get(name)) for name in (*required, *optional) if record.has(name)}


def records(root, name):
    """A non-empty array of objects; none where it is absent."""
    if not root.has(name):
        return []
    value = root.get(name)
    require(16, isinstance(value, list) and not isinstance(value, Members) and value)
    require(16, all(isinstance(record, Members) for record in value))
    return value


def integers(record, name):
    if not record.has(name):
        return None
    value = record.get(name)
    require(16, isinstance(value, list) and not isinstance(value, Members) and value)
    return [integer(element) for element in value]


def read_accessor(record):
    found = fields(record, ("componentType", "count"), ("bufferView", "byteOffset"))
    kind = record.get("type")
    require(16, isinstance(kind, Text))
    found["type"] = kind
    found["normalized"] = record.get("normalized") if record.has("normalized") else False
    require(16, isinstance(found["normalized"], bool))
    if record.has("sparse"):
        sparse = record.get("sparse")
        found["sparse"] = fields(sparse, ("count",))
        found["sparse"]["indices"] = fields(sparse.get("indices"), ("bufferView", "componentType"), ("byteOffset",))
        found["sparse"]["values"] = fields(sparse.get("values"), ("bufferView",), ("byteOffset",))
    return found


def read_members(root):
    """Rules 14 to 16."""
    asset = root.get("asset")
    require(14, isinstance(asset, Members))
    version, least = asset.get("version"), asset.get("minVersion")
    require(14, isinstance(version, Text) and re.fullmatch(r"2\.[0-9]+", version))
    require(14, not asset.has("minVersion") or isinstance(least, Text) and least == "2.0")
    require(15, not root.has("extensionsRequired"))
    model = {"buffers": [dict(fields(b, ("byteLength",)), uri=b.has("uri")) for b in records(root, "buffers")]}
    optional = ("byteOffset", "byteStride", "target")
    model["views"] = [fields(view, ("buffer", "byteLength"), optional) for view in records(root, "bufferViews")]
    model["accessors"] = [read_accessor(record) for record in records(root, "accessors")]
    model["nodes"] = [integers(node, "children") or [] for node in records(root, "nodes")]
    model["scenes"] = [integers(scene, "nodes") or [] for scene in records(root, "scenes")]
    model["scene"] = integer(root.get("scene")) if root.has("scene") else None
    return model


def offset(record):
    return record.get("byteOffset", 0)


def fits(views, part, size, align, count, stride=None):
    """The rules of alignment and of room: both answers."""
    view = views[part["bufferView"]]
    aligned = offset(part) % align == 0 and (offset(part) + offset(view)) % align == 0
    return aligned, offset(part) + (stride or size) * (count - 1) + size <= view["byteLength"]


def layout(accessor):
    """Component size, element bytes and alignment."""
    size = COMPONENT_SIZES[accessor["componentType"]]
    kind = accessor["type"]
    return size, ELEMENT_BYTES[size][kind], 4 if kind.startswith("MAT") else size


def stride_of(accessor, views):
    return views[accessor["bufferView"]].get("byteStride", layout(accessor)[1])


def sparse_indices(accessor, views, data):
    indices = accessor["sparse"]["indices"]
    start = offset(views[indices["bufferView"]]) + offset(indices)
    kind = indices["componentType"]
    size = COMPONENT_SIZES[kind]
    return [struct.unpack_from(FORMATS[kind], data, start + size * k)[0] for k in range(accessor["sparse"]["count"])]


def check_records(model, data):
    """Rules 21 to 40."""
    views, accessors, buffers = model["views"], model["accessors"], model["buffers"]
    length = buffers[0]["byteLength"] if buffers else 0
    require_each(21, [view["buffer"] < len(buffers) for view in views])
    require_each(22, [view["byteLength"] > 0 and offset(view) + view["byteLength"] <= length for view in views])
    require_each(23, [view.get("byteStride", 4) in range(4, 253, 4) for view in views])
    require_each(24, [view.get("target", 34962) in (34962, 34963) for view in views])
    dense = ["bufferView" in a for a in accessors]
    require_each(25, [a["bufferView"] < len(views) if d else "byteOffset" not in a for a, d in zip(accessors, dense)])
    require_each(26, [a["componentType"] in COMPONENT_SIZES for a in accessors])
    require_each(27, [a["type"] in COMPONENTS for a in accessors])
    require_each(28, [a["count"] > 0 for a in accessors])
    require_each(29, [not (a["normalized"] and a["componentType"] in (5125, 5126)) for a in accessors])
    require_each(30, [not d or stride_of(a, views) % layout(a)[0] == 0 for a, d in zip(accessors, dense)])
    require_each(31, [not d or stride_of(a, views) >= layout(a)[1] for a, d in zip(accessors, dense)])
    placed = [
        fits(views, a, *layout(a)[1:], a["count"], stride_of(a, views)) if d else (True, True)
        for a, d in zip(accessors, dense)
    ]
    require_each(32, [aligned for aligned, _ in placed])
    require_each(33, [room for _, room in placed])
    sparse = [a.get("sparse") for a in accessors]
    require_each(34, [not s or 0 < s["count"] <= a["count"] for a, s in zip(accessors, sparse)])
    parts = [[s["indices"], s["values"]] if s else [] for s in sparse]
    require_each(35, [all(part["bufferView"] < len(views) for part in both) for both in parts])
    plain = [not {"byteStride", "target"} & set(view) for view in views]
    require_each(36, [all(plain[part["bufferView"]] for part in both) for both in parts])
    require_each(37, [not s or s["indices"]["componentType"] in (5121, 5123, 5125) for s in sparse])
    tight = []
    for a, s in zip(accessors, sparse):
        if s:
            size = COMPONENT_SIZES[s["indices"]["componentType"]]
            indices = fits(views, s["indices"], size, size, s["count"])
            values = fits(views, s["values"], *layout(a)[1:], s["count"])
            tight.append((indices[0] and values[0], indices[1] and values[1]))
        else:
            tight.append((True, True))
    require_each(38, [aligned for aligned, _ in tight])
    require_each(39, [room for _, room in tight])
    found = [sparse_indices(a, views, data) if s else [] for a, s in zip(accessors, sparse)]
    require_each(40, [i == sorted(set(i)) and all(k < a["count"] for k in i) for a, i in zip(accessors, found)])


def check_graph(model):
    """Rules 41 to 47."""
    nodes, scenes = model["nodes"], model["scenes"]
    children = [child for own in nodes for child in own]
    require_each(41, [all(child < len(nodes) for child in own) for own in nodes])
    require_each(42, [children.count(node) < 2 for node in range(len(nodes))])
    # What hangs under a node without a parent is reached from above; the rest goes round.
    reached = [node for node in range(len(nodes)) if node not in children]
    for node in reached:
        reached.extend(nodes[node])
    require_each(43, [node in reached for node in range(len(nodes))])
    require_each(44, [all(root < len(nodes) for root in roots) for roots in scenes])
    require_each(45, [len(set(roots)) == len(roots) for roots in scenes])
    require_each(46, [not set(roots) & set(children) for roots in scenes])
    require(47, model["scene"] is None or model["scene"] < len(scenes))


def check(file):
    """The model of an accepted file, with its buffer's place; Broken otherwise."""
    chunks = read_chunks(file)
    start, size = chunks[0][1:]
    try:
        text = file[start : start + size].decode("utf-8")
    except UnicodeDecodeError:
        raise Broken(9, 0) from None
    require(10, depth(text) <= 32)
    root = parse(text)
    every = list(objects_of(root))
    require(12, not any("\\" in name for members in every for name, _ in members))
    require(13, all(len({name for name, _ in members}) == len(members) for members in every))
    model = read_members(root)
    capacities = dict(buffers=1, views=64, accessors=128, nodes=128, scenes=8)
    require(17, all(len(model[name]) <= most for name, most in capacities.items()))
    model["start"], data = 0, b""
    if model["buffers"]:
        buffer = model["buffers"][0]
        require(18, not buffer["uri"])
        require(19, buffer["byteLength"] > 0 and len(chunks) > 1 and chunks[1][0] == BIN)
        model["start"], size = chunks[1][1:]
        data = file[model["start"] : model["start"] + size]
        require(19, buffer["byteLength"] <= size <= buffer["byteLength"] + 3)
        require(20, not any(data[buffer["byteLength"] :]))
    check_records(model, data)
    check_graph(model)
    model["data"] = data
    return model


def component(model, accessor, element, number):
    """Number and value."""
    if accessor >= len(model["accessors"]):
        return 60, 0
    a = model["accessors"][accessor]
    if element >= a["count"]:
        return 61, 0
    if number >= COMPONENTS[a["type"]]:
        return 62, 0
    views, (size, bytes_, _) = model["views"], layout(a)
    inside = number * size
    if a["type"].startswith("MAT"):
        rows = int(a["type"][3])
        inside = number // rows * (rows * size + -rows * size % 4) + number % rows * size
    place = None
    if "bufferView" in a:
        place = offset(views[a["bufferView"]]) + offset(a) + stride_of(a, views) * element
    if "sparse" in a and element in (found := sparse_indices(a, views, model["data"])):
        values = a["sparse"]["values"]
        place = offset(views[values["bufferView"]]) + offset(values) + bytes_ * found.index(element)
    if place is None:
        return 0, 0
    return 0, struct.unpack_from(FORMATS[a["componentType"]], model["data"], place + inside)[0]


def view(model, number):
    """Number, start and length."""
    if number >= len(model["views"]):
        return 67, 0, 0
    found = model["views"][number]
    return 0, model["start"] + offset(found), found["byteLength"]


def walk(model, scene, room):
    """Number, count and nodes."""
    if scene >= len(model["scenes"]):
        return 64, 0
    found, todo = [], model["scenes"][scene][::-1]
    while todo:
        found.append(todo.pop())
        todo += model["nodes"][found[-1]][::-1]
    return (0, len(found), *found) if len(found) <= room else (65, 0)


QUESTIONS = (
    (component, (0, 0, 0)),
    (component, (0, 1, 0)),
    (component, (0, 2, 1)),
    (component, (1, 0, 0)),
    (component, (1, 3, 2)),
    (component, (0, 4294967295, 0)),
    (view, (0,)),
    (view, (1,)),
    (walk, (0, 16)),
    (walk, (1, 2)),
)


def answers(file):
    """Verdict and line of a file. The line has twelve parts between bars: verdict and item; the five counts; six
    components (number, value); two views (number, start, length); two walks (number, count, nodes)."""
    verdict = (0, 0)
    model = dict(buffers=[], views=[], accessors=[], nodes=[], scenes=[])
    try:
        model = check(file)
    except Broken as broken:
        verdict = broken.args
    counts = [len(model[name]) for name in ("buffers", "views", "accessors", "nodes", "scenes")]
    parts = [verdict, counts, *(question(model, *inputs) for question, inputs in QUESTIONS)]
    return verdict[0], " | ".join(" ".join(map(str, part)) for part in parts)
