"""The plain spelling of a message in the Binary, Compact and JSON protocols.

Plain are: in Binary the strict header; in Compact the shortest varints, the short form
of a field where the id is 1 to 15 above the one before it, the short form of a list
under 15 elements, the kind 1 and the bytes 1 and 2 for bools; in JSON no whitespace,
no escape that isn't needed and base64 without padding. The small methods are the places
where a spelling has a choice, so that a class derived from these can choose otherwise.
"""
from typing import List, Tuple

from message_model import (BASE64, BINARY_CODES, BLOB, COMPACT_CODES, JSON_NAMES, NO_NUMBERS, RANGES,
                           Message, Type, Value, fillers)

Fields = List[Tuple[int, Value]]


class BinaryWriter:
    """The plain spelling; the methods with free forms are there to be written otherwise."""

    def message(self, m: Message) -> bytes:
        return self.header(m) + self.struct(m.body)

    def header(self, m: Message) -> bytes:
        return b"\x80\x01\x00" + bytes([m.kind]) + self.string(m.name) + m.seq.to_bytes(4, "big", signed=True)

    def string(self, text: bytes) -> bytes:
        return len(text).to_bytes(4, "big") + text

    def struct(self, fields: Fields) -> bytes:
        return b"".join(bytes([BINARY_CODES[v.kind]]) + n.to_bytes(2, "big", signed=True) + self.value(v)
                        for n, v in fields) + b"\0"

    def filler_codes(self, declared: Type) -> bytes:
        return bytes(BINARY_CODES[kind] for kind in fillers(declared))

    def value(self, v: Value) -> bytes:
        if v.kind == "bool":
            return bytes([v.data])
        if v.kind in RANGES:
            return v.data.to_bytes(int(v.kind[1:]) // 8, "big", signed=True)
        if v.kind in ("double", "uuid"):
            return v.data
        if v.kind == "string":
            return self.string(v.data)
        if v.kind == "struct":
            return self.struct(v.data)
        if v.kind == "map":
            if v.data is None:
                return self.filler_codes(v.type) + bytes(4)
            key, value, pairs = v.data
            return (bytes([BINARY_CODES[key], BINARY_CODES[value]]) + len(pairs).to_bytes(4, "big")
                    + b"".join(self.value(left) + self.value(right) for left, right in pairs))
        element, values = v.data
        return bytes([BINARY_CODES[element]]) + len(values).to_bytes(4, "big") + b"".join(map(self.value, values))


class CompactWriter:
    def message(self, m: Message) -> bytes:
        return (bytes([0x82, m.kind << 5 | 1]) + self.varint(m.seq % 2**32, 32) + self.string(m.name)
                + self.struct(m.body))

    def varint(self, number: int, bits: int) -> bytes:
        out = bytearray()
        while number >= 0x80:
            out.append(number & 0x7F | 0x80)
            number >>= 7
        return bytes(out + bytes([number]))

    def zigzag(self, number: int, bits: int) -> bytes:
        return self.varint(2 * number if number >= 0 else -2 * number - 1, bits)

    def string(self, text: bytes) -> bytes:
        return self.varint(len(text), 32) + text

    def short_field(self, step: int) -> bool:
        return 1 <= step <= 15

    def short_list(self, size: int) -> bool:
        return size < 15

    def bool_code(self) -> int:
        return 1

    def false(self) -> int:
        return 2

    def code(self, kind: str) -> int:
        return self.bool_code() if kind == "bool" else COMPACT_CODES[kind]

    def struct(self, fields: Fields) -> bytes:
        out, before = b"", 0
        for number, v in fields:
            code = (1 if v.data else 2) if v.kind == "bool" else COMPACT_CODES[v.kind]
            if self.short_field(number - before):
                out += bytes([(number - before) << 4 | code])
            else:
                out += bytes([code]) + self.zigzag(number, 16)
            out += b"" if v.kind == "bool" else self.value(v)
            before = number
        return out + b"\0"

    def value(self, v: Value) -> bytes:
        if v.kind == "bool":
            return bytes([1 if v.data else self.false()])
        if v.kind == "i8":
            return bytes([v.data % 256])
        if v.kind in RANGES:
            return self.zigzag(v.data, int(v.kind[1:]))
        if v.kind == "double":
            return v.data[::-1]
        if v.kind == "uuid":
            return v.data
        if v.kind == "string":
            return self.string(v.data)
        if v.kind == "struct":
            return self.struct(v.data)
        if v.kind == "map":
            if v.data is None:
                return self.varint(0, 32)
            key, value, pairs = v.data
            return (self.varint(len(pairs), 32) + bytes([self.code(key) << 4 | self.code(value)])
                    + b"".join(self.value(left) + self.value(right) for left, right in pairs))
        element, values = v.data
        size = len(values)
        head = (bytes([size << 4 | self.code(element)]) if self.short_list(size)
                else bytes([0xF0 | self.code(element)]) + self.varint(size, 32))
        return head + b"".join(map(self.value, values))


PLAIN_ESCAPES = {'"': '\\"', "\\": "\\\\", "\b": "\\b", "\f": "\\f", "\n": "\\n", "\r": "\\r", "\t": "\\t"}


class JsonWriter:
    def message(self, m: Message) -> bytes:
        return self.join(b"[", b"1", b",", self.text(m.name), b",", b"%d" % m.kind, b",", b"%d" % m.seq, b",",
                         self.struct(m.body), b"]")

    def join(self, *tokens: bytes) -> bytes:
        return b"".join(tokens)

    def character(self, c: str) -> str:
        return PLAIN_ESCAPES.get(c) or ("\\u%04x" % ord(c) if c < " " else c)

    def text(self, text: bytes) -> bytes:
        return ('"' + "".join(map(self.character, text.decode("utf-8"))) + '"').encode("utf-8")

    def blob(self, data: bytes) -> bytes:
        bits = "".join(format(byte, "08b") for byte in data)
        bits += "0" * (-len(bits) % 6)
        return b'"' + bytes(BASE64[int(bits[i:i + 6], 2)] for i in range(0, len(bits), 6)) + b'"'

    def separated(self, parts: List[bytes]) -> bytes:
        return self.join(*[token for p in parts for token in (b",", p)][1:])

    def struct(self, fields: Fields) -> bytes:
        parts = [self.join(b'"%d"' % number, b":", b"{", b'"' + JSON_NAMES[v.kind] + b'"', b":", self.value(v), b"}")
                 for number, v in fields]
        return self.join(b"{", self.separated(parts), b"}")

    def pair(self, left: Value, right: Value) -> bytes:
        key = self.value(left)
        if left.kind in RANGES or left.kind in ("bool", "double") and not key.startswith(b'"'):
            key = b'"' + key + b'"'
        return self.join(key, b":", self.value(right))

    def value(self, v: Value) -> bytes:
        if v.kind == "bool":
            return b"1" if v.data else b"0"
        if v.kind in RANGES:
            return b"%d" % v.data
        if v.kind == "double":
            return b'"' + v.data + b'"' if v.data in NO_NUMBERS else v.data
        if v.kind == "string":
            return self.blob(v.data) if v.type == BLOB else self.text(v.data)
        if v.kind == "struct":
            return self.struct(v.data)
        if v.kind == "map":
            key, value = v.data[:2] if v.data else ("i8" if k == "uuid" else k for k in fillers(v.type))
            pairs = v.data[2] if v.data else []
            return self.join(b"[", b'"' + JSON_NAMES[key] + b'"', b",", b'"' + JSON_NAMES[value] + b'"', b",",
                             b"%d" % len(pairs), b",", b"{",
                             self.separated([self.pair(left, right) for left, right in pairs]), b"}", b"]")
        element, values = v.data
        return self.join(b"[", self.separated([b'"' + JSON_NAMES[element] + b'"', b"%d" % len(values),
                                               *map(self.value, values)]), b"]")


WRITERS = {"binary": BinaryWriter, "compact": CompactWriter, "json": JsonWriter}
