#!/usr/bin/env python3
"""Packs sample models into GLB files.

  pack.py FOLDER OUT

Every .glb under FOLDER is copied to OUT as it is. Every .gltf becomes a .glb: its buffers, from data: URIs or files beside
it, are joined to one (each at a multiple of 4), and the views are moved accordingly. What cannot be packed is named."""
import base64
import json
import os
import shutil
import struct
import sys
import urllib.parse


def load_buffer(uri, folder):
    """The bytes of a buffer's URI."""
    if uri.startswith("data:"):
        head, body = uri.split(",", 1)
        return base64.b64decode(body) if head.endswith(";base64") else urllib.parse.unquote_to_bytes(body)
    with open(os.path.join(folder, urllib.parse.unquote(uri)), "rb") as file:
        return file.read()


def join_buffers(model, folder):
    """Joins the model's buffers to one without a URI; answers its bytes."""
    data = bytearray()
    starts = []
    for buffer in model.get("buffers", []):
        data += bytes(-len(data) % 4)
        starts.append(len(data))
        data += load_buffer(buffer["uri"], folder)[: buffer["byteLength"]]
    for view in model.get("bufferViews", []):
        start = starts[view["buffer"]]
        view["buffer"] = 0
        if start:
            view["byteOffset"] = view.get("byteOffset", 0) + start
    if starts:
        model["buffers"] = [{"byteLength": len(data)}]
    return bytes(data)


def chunk(kind, data, filler):
    data += filler * (-len(data) % 4)
    return struct.pack("<I4s", len(data), kind) + data


def pack(path):
    """The GLB file of a .gltf file."""
    with open(path, encoding="utf-8") as file:
        model = json.load(file)
    data = join_buffers(model, os.path.dirname(path))
    text = json.dumps(model, ensure_ascii=False, separators=(",", ":")).encode()
    body = chunk(b"JSON", text, b" ") + (chunk(b"BIN\0", data, b"\0") if data else b"")
    return struct.pack("<4sII", b"glTF", 2, 12 + len(body)) + body


def main():
    folder, out = sys.argv[1:3]
    os.makedirs(out, exist_ok=True)
    taken = set()
    for root, folders, names in os.walk(folder):
        folders.sort()
        if os.path.abspath(root).startswith(os.path.abspath(out)):
            continue
        for name in sorted(names):
            stem, ending = os.path.splitext(name)
            if ending.lower() not in (".glb", ".gltf"):
                continue
            unique, number = stem, 1
            while unique in taken:
                number += 1
                unique = f"{stem}-{number}"
            taken.add(unique)
            source, target = os.path.join(root, name), os.path.join(out, unique + ".glb")
            if ending.lower() == ".glb":
                shutil.copyfile(source, target)
                continue
            try:
                packed = pack(source)
            except (OSError, ValueError, KeyError, IndexError, TypeError) as error:
                print(f"not packed: {name}: {type(error).__name__}: {error}")
                continue
            with open(target, "wb") as file:
                file.write(packed)


if __name__ == "__main__":
    main()
