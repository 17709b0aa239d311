#!/usr/bin/env python3
"""A slow, plain judge of Thrift messages in the Binary, Compact and JSON protocols.

    slow_judge.py FROM TO [--limit F] < FRAMES     converts a framed stream, slowly
    slow_judge.py --cases FILE...                  judges worked cases, kept as JSON files

FROM and TO are binary, compact or json. The first form writes the framed plain
spellings of the messages that pass to the standard output, a line for each other
frame to the standard error, and ends with 0, 1 (a frame was refused) or 3 (the
stream itself is at fault). It is what `thrift_gate convert` has to do, written from
the public rules alone: the Apache Thrift specifications of the Binary and Compact
protocols, RFC 8259 for JSON text and RFC 4648 for base64.

A case file holds {"cases": [..]}, each case with the program's "words" and the
"input", "output", "report" and "status" that belong to them. Cases other than
`convert` without an IDL are passed over.

How a fault is found. A frame is read item by item: a kind, a size, a varint, a mark,
a piece of a string. An item whose bytes are good leads on to the next one. An item
that the frame's end cuts short is no fault of its own as long as some good item
begins with its bytes; then the frame is truncated, and the place is its length.
Any other item is the fault, and the place is the item's first byte. A struct, map,
set or list at depth 257 is a fault before its first byte is looked at.
"""
import json
import re
import sys
from typing import Any, Callable, List, Optional, Tuple

from message_model import (BASE64, BINARY_KINDS, BLOB, COMPACT_KINDS, CONTAINERS, DEPTH, JSON_KINDS, LIMIT, MOST,
                           NO_NUMBERS, NOTHING_KNOWN, PROTOCOLS, RANGES, TEXT, TYPES, Message, Schema, Type, Value,
                           framed, part, under, values_of)
from spelling import WRITERS

sys.setrecursionlimit(10_000)

TRUNCATED, TRAILING, TOO_DEEP = "G1 truncated", "G2 trailing bytes", "G3 too deep"
BAD_KIND, BAD_BOOL, BAD_SIZE = "G4 bad kind", "G5 bad bool", "G6 bad size"
BAD_VERSION, BAD_TYPE, BAD_VARINT = "G7 bad version", "G8 bad type", "G9 bad varint"
BAD_ID, BAD_NUMBER, BAD_STRING = "G10 bad id", "G11 bad number", "G12 bad string"
BAD_BASE64, BAD_TOKEN = "G13 bad base64", "G14 bad token"
DOUBLE, UNKNOWN_STRING, NOT_UTF8, UUID = "U1 double", "U2 unknown string", "U3 not UTF-8", "U4 uuid"



class Fault(Exception):
    def __init__(self, place: int, text: str):
        super().__init__(place, text)
        self.place, self.text = place, text


def is_utf8(text: bytes) -> bool:
    try:
        text.decode("utf-8")
        return True
    except UnicodeDecodeError:
        return False


class Reader:
    """What the three readers share: a frame, a place in it, and items of a fixed length."""

    def __init__(self, frame: bytes, schema: Schema = NOTHING_KNOWN):
        self.frame, self.schema = frame, schema
        self.at = 0
        self.header_whole = False

    def cut(self) -> Fault:
        return Fault(len(self.frame), TRUNCATED)

    def item(self, length: int, begins_good: Callable[[bytes], bool], text: str) -> bytes:
        """An item of some bytes; begins_good says whether a good one begins with these."""
        got = self.frame[self.at:self.at + length]
        if got and not begins_good(got):
            raise Fault(self.at, text)
        if len(got) < length:
            raise self.cut()
        self.at += length
        return got

    def fixed(self, length: int) -> bytes:
        return self.item(length, lambda got: True, "")

    def byte(self, good: Any, text: str) -> int:
        return self.item(1, lambda got: got[0] in good, text)[0]

    def may_enter(self, kind: str, depth: int) -> int:
        """The depth of a value of this kind inside something of the given depth."""
        if kind in CONTAINERS:
            depth += 1
        if depth > DEPTH:
            raise Fault(self.at, TOO_DEEP)
        return depth

    def behind_header(self, name: bytes, kind: int, seq: int, place: int) -> Message:
        """The body of a message whose header was read, and the frame's end."""
        self.header_whole = True
        declared = self.schema.body(kind, name)
        body = self.struct(declared, 1)
        self.ended()
        return Message(name, kind, seq, body, place, declared)

    def ended(self) -> None:
        if self.at < len(self.frame):
            raise Fault(self.at, TRAILING)


FIELD_CODES = frozenset(BINARY_KINDS) | {0}


class BinaryReader(Reader):
    def message(self) -> Message:
        if self.frame[:1] >= b"\x80":
            self.item(2, lambda got: b"\x80\x01".startswith(got), BAD_VERSION)
            self.fixed(1)
            kind = self.byte(TYPES, BAD_TYPE)
            place, name = self.at, self.string()
        else:
            place, name = self.at, self.string()
            kind = self.byte(TYPES, BAD_TYPE)
        seq = self.integer(4)
        return self.behind_header(name, kind, seq, place)

    def integer(self, length: int) -> int:
        return int.from_bytes(self.fixed(length), "big", signed=True)

    def size(self, only_zero: bool = False) -> int:
        got = self.item(4, lambda got: not any(got) if only_zero else got[0] < 0x80, BAD_SIZE)
        return int.from_bytes(got, "big")

    def string(self) -> bytes:
        return self.fixed(self.size())

    def struct(self, declared: Type, depth: int) -> List[Tuple[int, Value]]:
        fields = []
        while True:
            code = self.byte(FIELD_CODES, BAD_KIND)
            if code == 0:
                return fields
            number = self.integer(2)
            fields.append((number, self.value(BINARY_KINDS[code], part(declared, number), depth)))

    def value(self, kind: str, declared: Type, depth: int) -> Value:
        depth = self.may_enter(kind, depth)
        declared = under(declared, kind)
        place = self.at
        if kind == "bool":
            data: Any = self.byte((0, 1), BAD_BOOL) == 1
        elif kind in RANGES:
            data = self.integer({"i8": 1, "i16": 2, "i32": 4, "i64": 8}[kind])
        elif kind == "double":
            data = self.fixed(8)
        elif kind == "uuid":
            data = self.fixed(16)
        elif kind == "string":
            data = self.string()
        elif kind == "struct":
            data = self.struct(declared, depth)
        elif kind == "map":
            key = self.byte(FIELD_CODES, BAD_KIND)
            value = self.byte(FIELD_CODES, BAD_KIND)
            size = self.size(only_zero=key == 0 or value == 0)
            data = None if size == 0 else self.pairs(BINARY_KINDS[key], BINARY_KINDS[value], size, declared, depth)
        else:
            element = BINARY_KINDS[self.byte(BINARY_KINDS, BAD_KIND)]
            data = element, [self.value(element, part(declared, 1), depth) for _ in range(self.size())]
        return Value(kind, data, place, declared)

    def pairs(self, key: str, value: str, size: int, declared: Type, depth: int) -> tuple:
        pairs = []
        for _ in range(size):
            left = self.value(key, part(declared, 1), depth)
            pairs.append((left, self.value(value, part(declared, 2), depth)))
        return key, value, pairs


def unzigzag(number: int) -> int:
    return number >> 1 if number % 2 == 0 else -(number >> 1) - 1


LIST_BYTES = frozenset(high << 4 | low for high in range(16) for low in COMPACT_KINDS)
FIELD_BYTES = LIST_BYTES | {0}
MAP_BYTES = frozenset(high << 4 | low for high in COMPACT_KINDS for low in COMPACT_KINDS)
TYPE_BYTES = frozenset(kind << 5 | 1 for kind in TYPES)


class CompactReader(Reader):
    def message(self) -> Message:
        self.byte((0x82,), BAD_VERSION)
        if self.at < len(self.frame) and self.frame[self.at] & 0x1F != 1:
            raise Fault(self.at, BAD_VERSION)
        kind = self.byte(TYPE_BYTES, BAD_TYPE) >> 5
        seq = self.varint(32)
        seq = seq - 2**32 if seq > MOST else seq
        place, name = self.at, self.string()
        return self.behind_header(name, kind, seq, place)

    def varint(self, bits: int) -> int:
        """A ULEB128 number of so many bits, in at most ten bytes for 64 bits and else in five."""
        place, number = self.at, 0
        for step in range(10 if bits == 64 else 5):
            if place + step == len(self.frame):
                raise self.cut()
            byte = self.frame[place + step]
            number |= (byte & 0x7F) << 7 * step
            if number >= 2**bits:
                break
            if byte < 0x80:
                self.at = place + step + 1
                return number
        raise Fault(place, BAD_VARINT)

    def size(self) -> int:
        place, size = self.at, self.varint(32)
        if size > MOST:
            raise Fault(place, BAD_SIZE)
        return size

    def string(self) -> bytes:
        return self.fixed(self.size())

    def struct(self, declared: Type, depth: int) -> List[Tuple[int, Value]]:
        fields, number = [], 0
        while True:
            place, head = self.at, self.byte(FIELD_BYTES, BAD_KIND)
            if head == 0:
                return fields
            if head >> 4:
                number += head >> 4
                if number > 32767:
                    raise Fault(place, BAD_ID)
            else:
                number = unzigzag(self.varint(16))
            low = head & 0x0F
            if low in (1, 2):
                value = Value("bool", low == 1, self.at, under(part(declared, number), "bool"))
            else:
                value = self.value(COMPACT_KINDS[low], part(declared, number), depth)
            fields.append((number, value))

    def value(self, kind: str, declared: Type, depth: int) -> Value:
        depth = self.may_enter(kind, depth)
        declared = under(declared, kind)
        place = self.at
        if kind == "bool":
            data: Any = self.byte((0, 1, 2), BAD_BOOL) == 1
        elif kind == "i8":
            data = int.from_bytes(self.fixed(1), "big", signed=True)
        elif kind in RANGES:
            data = unzigzag(self.varint(int(kind[1:])))
        elif kind == "double":
            data = self.fixed(8)[::-1]
        elif kind == "uuid":
            data = self.fixed(16)
        elif kind == "string":
            data = self.string()
        elif kind == "struct":
            data = self.struct(declared, depth)
        elif kind == "map":
            size = self.size()
            data = None if size == 0 else self.pairs(size, declared, depth)
        else:
            head = self.byte(LIST_BYTES, BAD_KIND)
            element = COMPACT_KINDS[head & 0x0F]
            size = self.size() if head >> 4 == 15 else head >> 4
            data = element, [self.value(element, part(declared, 1), depth) for _ in range(size)]
        return Value(kind, data, place, declared)

    def pairs(self, size: int, declared: Type, depth: int) -> tuple:
        kinds = self.byte(MAP_BYTES, BAD_KIND)
        key, value = COMPACT_KINDS[kinds >> 4], COMPACT_KINDS[kinds & 0x0F]
        pairs = []
        for _ in range(size):
            left = self.value(key, part(declared, 1), depth)
            pairs.append((left, self.value(value, part(declared, 2), depth)))
        return key, value, pairs


WHITE = b" \t\r\n"
DIGITS = re.compile(rb"[0-9-]*")
WHOLE = re.compile(rb"0|-?[1-9][0-9]*")
NUMBER_RUN = re.compile(rb"[0-9+\-.eE]*")
NUMBER = re.compile(rb"-?(0|[1-9][0-9]*)(\.[0-9]+)?([eE][+-]?[0-9]+)?")
ESCAPES = {ord(c): ord(m) for c, m in zip('"\\/bfnrt', '"\\/\b\f\n\r\t')}
ESCAPE = re.compile(rb'\\(?:["\\/bfnrt]|u(?![dD][89a-fA-F])[0-9a-fA-F]{4}'
                    rb'|u[dD][89abAB][0-9a-fA-F]{2}\\u[dD][c-fC-F][0-9a-fA-F]{2})')


def is_whole(run: bytes, low: int, high: int) -> bool:
    return WHOLE.fullmatch(run) is not None and len(run) <= 20 and low <= int(run) <= high


def begins_whole(run: bytes, low: int, high: int) -> bool:
    return not run or run == b"-" and low < 0 or is_whole(run, low, high)


def is_number(run: bytes) -> bool:
    return NUMBER.fullmatch(run) is not None


def begins_number(run: bytes) -> bool:
    return is_number(run) or is_number(run + b"0")


def base64_unused(digits: bytes) -> int:
    """The unused bits after the last whole byte of some base64 digits."""
    return BASE64.index(digits[-1]) & (0, 0, 15, 3)[len(digits) % 4] if digits else 0


def is_base64(text: bytes) -> bool:
    digits = text.rstrip(b"=")
    padding = len(text) - len(digits)
    return (all(c in BASE64 for c in digits) and len(digits) % 4 != 1 and base64_unused(digits) == 0
            and padding in (0, -len(digits) % 4))


def begins_base64(text: bytes) -> bool:
    digits = text.rstrip(b"=")
    padding = len(text) - len(digits)
    if not all(c in BASE64 for c in digits):
        return False
    return padding == 0 or (len(digits) % 4 in (2, 3) and base64_unused(digits) == 0
                            and padding <= -len(digits) % 4)


def base64_bytes(text: bytes) -> bytes:
    bits = number = 0
    out = bytearray()
    for c in text.rstrip(b"="):
        number, bits = (number << 6 | BASE64.index(c)) & 0x3FFF, bits + 6
        if bits >= 8:
            bits -= 8
            out.append(number >> bits & 0xFF)
    return bytes(out)


def character_length(first: int) -> int:
    """How many bytes a UTF-8 character with this first byte has; 1 where none begins so."""
    return 2 if 0xC2 <= first <= 0xDF else 3 if 0xE0 <= first <= 0xEF else 4 if 0xF0 <= first <= 0xF4 else 1


def begins_character(got: bytes) -> bool:
    if got[0] < 0x80:
        return True
    if character_length(got[0]) == 1:
        return False
    low, high = {0xE0: (0xA0, 0xBF), 0xED: (0x80, 0x9F), 0xF0: (0x90, 0xBF), 0xF4: (0x80, 0x8F)}.get(
        got[0], (0x80, 0xBF))
    return (len(got) < 2 or low <= got[1] <= high) and all(0x80 <= c <= 0xBF for c in got[2:])


def begins_escape(got: bytes) -> bool:
    """Whether an escape begins with these bytes: one of three escapes then completes them."""
    return any(ESCAPE.fullmatch(got + whole[len(got):]) for whole in (b"\\n", b"\\u0000", b"\\uD800\\uDC00"))


class JsonReader(Reader):
    def message(self) -> Message:
        self.mark(b"[")
        self.integer(1, 1, BAD_VERSION)
        self.mark(b",")
        place, name = self.white(), self.string()
        self.mark(b",")
        kind = self.integer(1, 4, BAD_TYPE)
        self.mark(b",")
        seq = self.integer(*RANGES["i32"], BAD_NUMBER)
        self.mark(b",")
        self.header_whole = True
        declared = self.schema.body(kind, name)
        body = self.struct(declared, 1)
        self.mark(b"]")
        self.white()
        self.ended()
        return Message(name, kind, seq, body, place, declared)

    def white(self) -> int:
        while self.at < len(self.frame) and self.frame[self.at] in WHITE:
            self.at += 1
        return self.at

    def mark(self, good: bytes) -> int:
        self.white()
        return self.byte(good, BAD_TOKEN)

    def run(self, form: "re.Pattern[bytes]", good: Callable[[bytes], bool],
            begins_good: Callable[[bytes], bool], text: str) -> bytes:
        """A number that isn't quoted: the longest run of its characters has to be good."""
        place = self.white()
        run = form.match(self.frame, place).group()
        if not good(run):
            if place + len(run) == len(self.frame) and begins_good(run):
                raise self.cut()
            raise Fault(place, text)
        self.at += len(run)
        return run

    def quoted(self, good: Callable[[bytes], bool], begins_good: Callable[[bytes], bool], text: str) -> bytes:
        """A whole quoted item without escapes, up to the next quote."""
        place = self.white()
        self.byte(b'"', text)
        end = self.frame.find(b'"', place + 1)
        inside = self.frame[place + 1:end if end > 0 else len(self.frame)]
        if not (good if end > 0 else begins_good)(inside):
            raise Fault(place, text)
        if end < 0:
            raise self.cut()
        self.at = end + 1
        return inside

    def integer(self, low: int, high: int, text: str, quoted: bool = False) -> int:
        def good(run: bytes) -> bool:
            return is_whole(run, low, high)

        def begun(run: bytes) -> bool:
            return begins_whole(run, low, high)
        return int(self.quoted(good, begun, text) if quoted else self.run(DIGITS, good, begun, text))

    def kind(self) -> str:
        return JSON_KINDS[self.quoted(lambda name: name in JSON_KINDS,
                                      lambda got: any(name.startswith(got) for name in JSON_KINDS), BAD_KIND)]

    def double(self, key: bool) -> bytes:
        """A number or one of three words, as text: the words in quotes, a number where it is a key."""
        if not key and self.frame[self.at:self.at + 1] != b'"':
            return self.run(NUMBER_RUN, is_number, begins_number, BAD_NUMBER)
        return self.quoted(
            lambda got: got in NO_NUMBERS or key and is_number(got),
            lambda got: any(word.startswith(got) for word in NO_NUMBERS) or key and begins_number(got), BAD_NUMBER)

    def string(self) -> bytes:
        """A JSON string, piece by piece, as the bytes that it means."""
        self.white()
        self.byte(b'"', BAD_STRING)
        out = b""
        while True:
            if self.at == len(self.frame):
                raise self.cut()
            first = self.frame[self.at]
            if first == ord('"'):
                self.at += 1
                return out
            if first == ord("\\"):
                out += self.escape()
            elif first < 0x20:
                raise Fault(self.at, BAD_STRING)
            else:
                out += self.item(character_length(first), begins_character, BAD_STRING)

    def escape(self) -> bytes:
        unit = self.frame[self.at + 2:self.at + 4].upper()
        if self.frame[self.at + 1:self.at + 2] != b"u":
            return bytes([ESCAPES[self.item(2, begins_escape, BAD_STRING)[1]]])
        high = unit[:1] == b"D" and unit[1:] in (b"8", b"9", b"A", b"B")
        got = self.item(12 if high else 6, begins_escape, BAD_STRING)
        point = int(got[2:6], 16)
        if high:
            point = 0x10000 + ((point - 0xD800) << 10) + int(got[8:12], 16) - 0xDC00
        return chr(point).encode("utf-8")

    def struct(self, declared: Type, depth: int) -> List[Tuple[int, Value]]:
        self.mark(b"{")
        fields: List[Tuple[int, Value]] = []
        if self.mark(b'"}') == ord("}"):
            return fields
        self.at -= 1  # the quote belongs to the id
        while True:
            number = self.integer(*RANGES["i16"], BAD_ID, quoted=True)
            self.mark(b":")
            self.mark(b"{")
            kind = self.kind()
            self.mark(b":")
            fields.append((number, self.value(kind, part(declared, number), depth)))
            self.mark(b"}")
            if self.mark(b",}") == ord("}"):
                return fields

    def value(self, kind: str, declared: Type, depth: int, key: bool = False) -> Value:
        place = self.white()
        depth = self.may_enter(kind, depth)
        declared = under(declared, kind)
        if kind == "bool":
            data: Any = self.integer(0, 1, BAD_BOOL, quoted=key) == 1
        elif kind in RANGES:
            data = self.integer(*RANGES[kind], BAD_NUMBER, quoted=key)
        elif kind == "double":
            data = self.double(key)
        elif kind == "string":
            data = (base64_bytes(self.quoted(is_base64, begins_base64, BAD_BASE64)) if declared == BLOB
                    else self.string())
        elif kind == "struct":
            data = self.struct(declared, depth)
        elif kind == "map":
            data = self.map(declared, depth)
        else:
            self.mark(b"[")
            element = self.kind()
            self.mark(b",")
            elements = []
            for _ in range(self.integer(0, MOST, BAD_SIZE)):
                self.mark(b",")
                elements.append(self.value(element, part(declared, 1), depth))
            self.mark(b"]")
            data = element, elements
        return Value(kind, data, place, declared)

    def map(self, declared: Type, depth: int) -> Optional[tuple]:
        self.mark(b"[")
        key = self.kind()
        self.mark(b",")
        value = self.kind()
        self.mark(b",")
        size = self.integer(0, MOST, BAD_SIZE)
        self.mark(b",")
        self.mark(b"{")
        pairs = []
        for i in range(size):
            if i:
                self.mark(b",")
            left = self.value(key, part(declared, 1), depth, key=True)
            self.mark(b":")
            pairs.append((left, self.value(value, part(declared, 2), depth)))
        self.mark(b"}")
        self.mark(b"]")
        return (key, value, pairs) if pairs else None


READERS = {"binary": BinaryReader, "compact": CompactReader, "json": JsonReader}


def bar_of(v: Value, to_json: bool) -> Optional[str]:
    """Why a value can't go to JSON, or from JSON to anywhere."""
    if v.kind == "double":
        return DOUBLE
    if v.kind == "string":
        return UNKNOWN_STRING if v.type is None else NOT_UTF8 if to_json and v.type == TEXT and not is_utf8(
            v.data) else None
    kinds = (v.kind,) if v.kind == "uuid" else v.data[:1] if v.kind in ("list", "set") else (
        v.data[:2] if v.kind == "map" and v.data else ())
    return UUID if to_json and "uuid" in kinds else None


def first_bar(source: str, target: str, m: Message) -> Optional[Tuple[int, str]]:
    if "json" not in (source, target):
        return None
    if target == "json" and not is_utf8(m.name):
        return m.name_place, NOT_UTF8
    for _, field in m.body:
        for v in values_of(field):
            bar = bar_of(v, target == "json")
            if bar:
                return v.place, bar
    return None


def verdict(source: str, target: str, frame: bytes, schema: Schema = NOTHING_KNOWN) -> tuple:
    """("passed", bytes), or "refused" or "unread" with a place and the cause's text."""
    reader = READERS[source](frame, schema)
    try:
        m = reader.message()
    except Fault as fault:
        return "refused" if reader.header_whole else "unread", fault.place, fault.text
    bar = first_bar(source, target, m)
    return ("refused", *bar) if bar else ("passed", WRITERS[target]().message(m))


def convert(source: str, target: str, stream: bytes, limit: int = LIMIT,
            schema: Schema = NOTHING_KNOWN) -> Tuple[bytes, bytes, int]:
    """The output, the report and the status of a whole stream of frames."""
    output, report, at, frames = [], [], 0, 0
    while at + 4 <= len(stream):
        length = int.from_bytes(stream[at:at + 4], "big", signed=True)
        if not 0 <= length <= limit:
            report.append("stream: frame %d: length %d\n" % (frames + 1, length))
            break
        if at + 4 + length > len(stream):
            break
        frames += 1
        answer = verdict(source, target, stream[at + 4:at + 4 + length], schema)
        if answer[0] == "passed":
            output.append(framed(answer[1]))
        else:
            report.append("frame %d: at %d: %s\n" % (frames, *answer[1:]))
        at += 4 + length
    status = 1 if report else 0
    if at < len(stream):
        status = 3
        if not (report and report[-1].startswith("stream")):
            report.append("stream: %d bytes after frame %d\n" % (len(stream) - at, frames))
    return b"".join(output), "".join(report).encode(), status


def pieces(parts: list) -> bytes:
    """The bytes of a case: hexadecimal text, {"text": T}, or {"repeat": T, "times": N}."""
    return b"".join(bytes.fromhex(p) if isinstance(p, str) else
                    (p["text"] if "text" in p else p["repeat"] * p["times"]).encode() for p in parts)


def judge_cases(names: List[str]) -> int:
    passed, failed = 0, 0
    for name in names:
        with open(name, encoding="utf-8") as file:
            cases = json.load(file)["cases"]
        for case in cases:
            words = case.get("words", [])
            if (case.get("kind", "plain") != "plain" or "output" not in case or "last" in case
                    or "stdin" in case or "stdout" in case or len(words) not in (3, 5) or words[0] != "convert"
                    or not {words[1], words[2]} <= set(PROTOCOLS) or words[3:4] not in ([], ["--limit"])):
                continue
            want = pieces(case["output"]), case["report"].encode(), case["status"]
            got = convert(words[1], words[2], pieces(case["input"]), int(words[4]) if words[4:] else LIMIT)
            if got == want:
                passed += 1
            else:
                failed += 1
                print("%s: %s\n  want %r\n  got  %r" % (case["id"], case["name"], want, got))
    print("%d passed, %d failed" % (passed, failed))
    return 1 if failed else 0


def main(words: List[str]) -> int:
    if words[:1] == ["--cases"] and words[1:]:
        return judge_cases(words[1:])
    if len(words) not in (2, 4) or not set(words[:2]) <= set(PROTOCOLS) or words[2:3] not in ([], ["--limit"]):
        sys.stderr.write(__doc__)
        return 2
    output, report, status = convert(words[0], words[1], sys.stdin.buffer.read(), int(words[3]) if words[3:] else LIMIT)
    sys.stdout.buffer.write(output)
    sys.stderr.buffer.write(report)
    return status


if __name__ == "__main__":
    sys.exit(main(sys.argv[1:]))
