#!/usr/bin/env python3
"""Writes crates/text_cases/stdin and stdout: JSON texts, and what each gives by a reader of its own.

Run in the project's root: tools/text_cases.py
A line of stdin is a text, with ~hh for a byte that is no plain ASCII character or is a tilde. A line of stdout is the
number of the smallest broken rule of 9 to 13 (0 if none) and the place in the text. This reader is written from
RFC 8259, RFC 3629 and document 01 alone, and shares nothing with the proved one.
"""
import sys
from pathlib import Path


class Stop(Exception):
    pass


def whole_characters(s):
    """The length of the longest start that is whole UTF-8 characters (the table of RFC 3629)."""
    at = 0
    while at < len(s):
        a = s[at]
        if a <= 0x7F:
            ranges = []
        elif 0xC2 <= a <= 0xDF:
            ranges = [(0x80, 0xBF)]
        elif a == 0xE0:
            ranges = [(0xA0, 0xBF), (0x80, 0xBF)]
        elif 0xE1 <= a <= 0xEC or 0xEE <= a <= 0xEF:
            ranges = [(0x80, 0xBF)] * 2
        elif a == 0xED:
            ranges = [(0x80, 0x9F), (0x80, 0xBF)]
        elif a == 0xF0:
            ranges = [(0x90, 0xBF), (0x80, 0xBF), (0x80, 0xBF)]
        elif 0xF1 <= a <= 0xF3:
            ranges = [(0x80, 0xBF)] * 3
        elif a == 0xF4:
            ranges = [(0x80, 0x8F), (0x80, 0xBF), (0x80, 0xBF)]
        else:
            return at
        if len(s) < at + 1 + len(ranges):
            return at
        if any(not lo <= s[at + 1 + k] <= hi for k, (lo, hi) in enumerate(ranges)):
            return at
        at += 1 + len(ranges)
    return at


def first_too_deep(s, levels=32):
    """The place of the bracket that takes the depth count past the levels, or None."""
    depth, string, hidden = 0, False, False
    for at, b in enumerate(s):
        if hidden:
            hidden = False
        elif string:
            if b == 0x5C:
                hidden = True
            elif b == 0x22:
                string = False
        elif b == 0x22:
            string = True
        elif b in b"{[":
            depth += 1
            if depth > levels:
                return at
        elif b in b"}]":
            depth = max(0, depth - 1)
    return None


class Reader:
    """A reader of one text: raises Stop(place) at the first byte with which no text with an object goes on."""

    def __init__(self, s):
        self.s, self.at, self.names = s, 0, []

    def peek(self):
        return self.s[self.at] if self.at < len(self.s) else None

    def fail(self):
        raise Stop(self.at)

    def take(self, allowed):
        if self.peek() is None or self.peek() not in allowed:
            self.fail()
        self.at += 1

    def space(self):
        while self.peek() is not None and self.peek() in b" \t\n\r":
            self.at += 1

    def text(self):
        self.space()
        if self.peek() != 0x7B:
            self.fail()
        self.value()
        self.space()
        if self.at < len(self.s):
            self.fail()

    def value(self):
        b = self.peek()
        if b == 0x7B:
            self.object()
        elif b == 0x5B:
            self.array()
        elif b == 0x22:
            self.string()
        elif b is not None and b in b"-0123456789":
            self.number()
        elif b is not None and b in b"tfn":
            for c in {0x74: b"true", 0x66: b"false", 0x6E: b"null"}[b]:
                self.take([c])
        else:
            self.fail()

    def digits(self):
        self.take(b"0123456789")
        while self.peek() is not None and self.peek() in b"0123456789":
            self.at += 1

    def number(self):
        if self.peek() == 0x2D:
            self.at += 1
        if self.peek() == 0x30:
            self.at += 1
        else:
            self.digits()
        if self.peek() == 0x2E:
            self.at += 1
            self.digits()
        if self.peek() is not None and self.peek() in b"eE":
            self.at += 1
            if self.peek() is not None and self.peek() in b"+-":
                self.at += 1
            self.digits()

    def string(self):
        start = self.at
        self.take(b'"')
        while True:
            b = self.peek()
            if b is None or b < 0x20:
                self.fail()
            self.at += 1
            if b == 0x22:
                return self.s[start + 1 : self.at - 1]
            if b == 0x5C:
                if self.peek() == 0x75:
                    self.at += 1
                    for _ in range(4):
                        self.take(b"0123456789abcdefABCDEF")
                else:
                    self.take(b'"\\/bfnrt')

    def array(self):
        self.take(b"[")
        self.space()
        if self.peek() == 0x5D:
            self.at += 1
            return
        while True:
            self.value()
            self.space()
            if self.peek() == 0x5D:
                self.at += 1
                return
            self.take(b",")
            self.space()

    def object(self):
        owner = object()
        self.take(b"{")
        self.space()
        if self.peek() == 0x7D:
            self.at += 1
            return
        while True:
            place = self.at
            name = self.string()
            self.names.append((owner, name, place))
            self.space()
            self.take(b":")
            self.space()
            self.value()
            self.space()
            if self.peek() == 0x7D:
                self.at += 1
                return
            self.take(b",")
            self.space()


def verdict(s):
    end = whole_characters(s)
    if end < len(s):
        return 9, end
    deep = first_too_deep(s)
    if deep is not None:
        return 10, deep
    reader = Reader(s)
    try:
        reader.text()
    except Stop as stop:
        return 11, stop.args[0]
    for _, name, place in reader.names:
        if b"\\" in name:
            return 12, place
    seen = set()
    for owner, name, place in reader.names:
        if (owner, name) in seen:
            return 13, place
        seen.add((owner, name))
    return 0, 0


def nested(n, inside=b"", array=True):
    """n levels in all, the outer one an object."""
    return b'{"a":' + b"[" * (n - 1) + inside + b"]" * (n - 1) + b"}" if array else b'{"a":' * n + b"1" + b"}" * n


def texts():
    yield from (b"", b" ", b"{}", b" {} ", b"\t\n\r {}\r\n\t ", b"{ }", b"{\n}", b"{}x", b"{}{}", b"{},", b"{}\x00", b"\x00", b"{", b"}", b"[", b"]", b"[]", b"[{}]", b"null", b"true",
                b"false", b"1", b'"a"', b'"', b"-", b"t", b"x", b"{}}", b"{]", b"[}", b"\xef\xbb\xbf{}", b"\x0c{}", b"\x0b{}", b"//\n{}", b"{}/**/", b"{}#", b"(", b"{\x00}", b"\xc2\xa0{}", b"\xe2\x80\xa8{}")
    values = [b"null", b"true", b"false", b"nul", b"nulL", b"nullx", b"True", b"NULL", b"tru", b"tru}", b"falsy", b"fals", b"none", b"undefined", b"NaN", b"Infinity", b"-Infinity",
              b"0", b"-0", b"1", b"10", b"123456789012345678901234567890", b"-1", b"+1", b"01", b"-01", b"00", b"0x10", b"1.", b"1.0", b"1.5e3", b".5", b"-.5", b"-", b"--1", b"- 1", b"1.e1", b"1e", b"1e+", b"1E-",
              b"1e5", b"1E5", b"1e+5", b"1e-05", b"1e5.5", b"1.2.3", b"1 2", b"1,", b"0e0", b"0.0e-0", b"0.00000001", b"1a", b"1_0", b"0b1", b"\xef\xbc\x91",
              b'""', b'"a"', b'"', b'"a', b"'a'", b'"a\nb"', b'"a\tb"', b'"\x00"', b'"\x1f"', b'"\x20"', b'"\x7f"', b'"\\""', b'"\\\\"', b'"\\/"', b'"\\b\\f\\n\\r\\t"', b'"\\a"', b'"\\v"', b'"\\\'"', b'"\\0"', b'"\\x41"',
              b'"\\u0041"', b'"\\u00e9"', b'"\\uABCD\\uabcd"', b'"\\u004"', b'"\\u00G1"', b'"\\u"', b'"\\u12"', b'"\\u12', b'"\\ud800"', b'"\\udc00"', b'"\\ud83d\\ude00"', b'"\\u0000"', b'"\\uFFFF"', b'"\\', b'"\\"', b'"\\U0041"', b'"\\\n"',
              b'"\xc3\xa9"', b'"\xe2\x82\xac"', b'"\xf0\x9f\x98\x80"', b'"\xef\xbf\xbf"', b'"\xf4\x8f\xbf\xbf"',
              b"[]", b"[ ]", b"[1]", b"[1,2]", b"[ 1 , 2 ]", b"[1,]", b"[,1]", b"[,]", b"[1,,2]", b"[1 2]", b"[1", b"[1,", b"[1}", b"[[]", b"[[],[]]", b'["a":1]', b"[1]]", b"[null,true,false,0,\"\",[],{}]", b"[\n1\n]", b"[1;2]",
              b"{}", b'{"b":1}', b'{"b":1,}', b'{,"b":1}', b'{"b"}', b'{"b":}', b'{"b",1}', b'{"b" 1}', b'{b:1}', b"{'b':1}", b'{1:1}', b'{"b"::1}', b'{"b":1 "c":2}', b'{"b":1,"c":2}', b'{"b":1;"c":2}', b'{"b" : 1 , "c" : 2}', b'{"b":{"c":{}}}', b'{null:1}', b'{"b":1,,"c":2}',
              b"\xff", b"\xe9", b'"\xff"', b'"\xc0\x80"', b'"\xc1\xbf"', b'"\xe0\x80\x80"', b'"\xe0\x9f\xbf"', b'"\xe0\xa0\x80"', b'"\xed\x9f\xbf"', b'"\xed\xa0\x80"', b'"\xed\xbf\xbf"', b'"\xee\x80\x80"', b'"\xf0\x80\x80\x80"', b'"\xf0\x8f\xbf\xbf"', b'"\xf0\x90\x80\x80"',
              b'"\xf4\x90\x80\x80"', b'"\xf5\x80\x80\x80"', b'"\x80"', b'"\xbf"', b'"\xc3"', b'"\xe2\x82"', b'"\xf0\x9f\x98"', b'"\xc3(\"', b'"\xe2(\xa1"', b'"\xe2\x82(\"']
    for v in values:
        yield b'{"a":' + v + b"}"
    yield from (b'{"a":1', b'{"a":"\xe2\x82', b'{"a":[1,2', b'{"a":{"b"', b'{"a', b'{"a"', b'{"a":', b'{"a": ', b'{"a":1,', b'{"a":-', b'{"a":1.', b'{"a":t', b'{"a":1}\xff', b'{"a":01}\xc0', b'{"a":x}\xed\xa0\x80')
    for n in (31, 32, 33, 34):
        yield nested(n)
        yield nested(n, b"1")
        yield nested(n, array=False)
    yield b'{"a":"' + b"[" * 40 + b'"}'
    yield b'{"a":"' + b"]" * 5 + b'","b":' + b"[" * 31 + b"]" * 31 + b"}"
    yield b'{"a":"\\"' + b"{" * 40 + b'"}'
    yield b'{"a":"\\\\","b":' + b"[" * 32 + b"]" * 32 + b"}"
    yield b"[" * 33
    yield b"]" * 10 + b"[" * 33
    yield b"]" * 10 + b"[" * 32
    yield b"x" + b"[" * 33
    yield b"\\" + b"{" * 33
    yield b'{"a":[' + b"{}," * 40 + b"1]}"
    yield from (b'{"\\u0061":1}', b'{"a\\n":1}', b'{"a":{"\\"":1}}', b'{"a":[{"b":1},{"\\\\":2}]}', b'{"a":"\\n"}', b'{"a":1,"a\\/":2}', b'{"a":"b\\\\","c":1}', b'{"":1}', b'{"":1,"":2}',
                b'{"a":1,"a":2}', b'{"a":1,"b":2,"a":3}', b'{"a":{"a":1}}', b'{"a":{"b":1,"b":2}}', b'{"a":[{"b":1},{"b":2}]}', b'{"a":[{"b":1,"b":2}],"a":3}', b'{"a":{"b":1},"b":{"a":1}}', b'{"b":{"a":1},"a":{"b":1},"b":1}',
                b'{"a":1,"A":2}', b'{"a":1,"a ":2}', b'{"a":1, "aa":2, "aaa":3, "aa":4}', b'{"\xc3\xa9":1,"e\xcc\x81":2}', b'{"\xc3\xa9":1,"\xc3\xa9":2}', b'{"a":"b","b":"a"}', b'{"a":["a","a"],"b":["a","a"]}',
                b'{"a":1,"\\u0061":2}', b'{"a":1,"a":2,"\\u0061":3}', b'{"x":{"a":1,"b":{"a":2,"a":3},"a":4}}', b'{"x":[],"y":{},"x":null}', b'{"a":":","b":":"}', b'{"a":"\\":","a":1}')
    yield b"{" + b",".join(b'"n%d":%d' % (k, k) for k in range(60)) + b"}"
    yield b"{" + b",".join(b'"n%d":%d' % (k % 50, k) for k in range(60)) + b"}"
    yield b'{"asset":{"version":"2.0"},"bufferViews":[{"buffer":0,"byteLength":12},{"buffer":0,"byteOffset":12,"byteLength":12}]} '


def spelled(s):
    return "".join(chr(b) if 0x20 <= b < 0x7F and b != 0x7E else "~%02x" % b for b in s)


def main():
    crate = Path("crates/text_cases")
    if not crate.is_dir():
        sys.exit("text_cases.py: run it in the project's root")
    cases = list(texts())
    (crate / "stdin").write_text("".join(spelled(s) + "\n" for s in cases))
    (crate / "stdout").write_text("".join("%d %d\n" % verdict(s) for s in cases))
    print("%d texts" % len(cases))


if __name__ == "__main__":
    main()
