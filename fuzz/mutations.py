"""Frames that are almost right: free spellings, edits, cuts, hostile sizes and deep nesting."""
import random
import re
from typing import Callable, Iterator, List

from message_model import BASE64, BLOB, JSON_KINDS, Message, Type
from sample_messages import Trees, every_call
from spelling import WRITERS, BinaryWriter, CompactWriter, JsonWriter


class LooseBinary(BinaryWriter):
    """Binary with the old header at times, any unused byte and any kinds of an empty map."""

    def __init__(self, r: random.Random):
        self.r = r

    def header(self, m: Message) -> bytes:
        if self.r.random() < 0.3:
            return self.string(m.name) + bytes([m.kind]) + m.seq.to_bytes(4, "big", signed=True)
        plain = super().header(m)
        return plain[:2] + bytes([self.r.choice((0, 1, 255))]) + plain[3:]

    def filler_codes(self, declared: Type) -> bytes:
        return bytes(self.r.choice((0, 2, 3, 4, 6, 8, 10, 11, 12, 13, 14, 15, 16)) for _ in range(2))


class LooseCompact(CompactWriter):
    """Compact with padded varints, long forms where short ones would do, and other bool bytes."""

    def __init__(self, r: random.Random):
        self.r = r

    def varint(self, number: int, bits: int) -> bytes:
        plain = super().varint(number, bits)
        room = (10 if bits == 64 else 5) - len(plain)
        if not room or self.r.random() < 0.8:
            return plain
        more = self.r.randint(1, room)
        return plain[:-1] + bytes([plain[-1] | 0x80]) + b"\x80" * (more - 1) + b"\0"

    def short_field(self, step: int) -> bool:
        return super().short_field(step) and self.r.random() < 0.8

    def short_list(self, size: int) -> bool:
        return super().short_list(size) and self.r.random() < 0.8

    def bool_code(self) -> int:
        return self.r.choice((1, 2))

    def false(self) -> int:
        return self.r.choice((0, 2))


class LooseJson(JsonWriter):
    """JSON with whitespace between tokens, escapes that aren't needed and padded base64."""

    def __init__(self, r: random.Random):
        self.r = r
        self.white = r.choice((0.0, 0.0, 0.2))

    def join(self, *tokens: bytes) -> bytes:
        if not self.white:
            return b"".join(tokens)
        return b"".join(self.r.choice((b" ", b"\t", b"\r\n")) + t if self.r.random() < self.white else t
                        for t in tokens)

    def character(self, c: str) -> str:
        if self.r.random() < 0.9:
            return super().character(c)
        if c == "/":
            return "\\/"
        units = c.encode("utf-16-be").hex()
        return "".join("\\u" + self.r.choice((str.upper, str.lower))(units[i:i + 4]) for i in range(0, len(units), 4))

    def blob(self, data: bytes) -> bytes:
        plain = super().blob(data)
        return plain[:-1] + b"=" * (-(len(plain) - 2) % 4) + b'"' if self.r.random() < 0.5 else plain


LOOSE = {"binary": LooseBinary, "compact": LooseCompact, "json": LooseJson}

HOSTILE = {
    "binary": [b"\xff\xff\xff\xff", b"\x7f\xff\xff\xff", b"\x80\0\0\0", b"\0\xff\xff\xff", b"\0\0\0\0", b"\0\0\1\0",
               b"\0\0\0", b"\x0f\0\1", b"\x0d\0\1\0\0", b"\x80\1\0\1", b"\0\1\0\0\0\0"],
    "compact": [b"\xff\xff\xff\xff\x07", b"\xff\xff\xff\xff\x08", b"\xff\xff\xff\xff\x0f", b"\xff\xff\xff\xff\x10",
                b"\xff\xff\xff\xff\xff\1", b"\x80\x80\x80\x80\0", b"\x80\x80\x80\x80\x80\0", b"\x80", b"\xff\xff\3",
                b"\xff\xff\4", b"\xff\xff\xff\0", b"\xff\xff\x83\x80\0", b"\xff" * 9 + b"\1", b"\xff" * 9 + b"\2",
                b"\xf8", b"\xf1\x80\0", b"\x1b\0", b"\x82\x21", b"\x05\xfe\xff\3"],
    "json": [b"{", b"}", b"[", b"]", b",", b":", b'"', b"\\", b"-", b"0", b"00", b"-0", b"1.5", b"1e5", b"2147483647",
             b"2147483648", b"-2147483649", b"9223372036854775808", b"-9223372036854775808", b"128", b"-129", b"32768",
             b'"32768"', b'"-32768"', b'"01"', b'" 1"', b'"1', b"true", b"null", b"NaN", b'"NaN"', b'"-Infinity"',
             b'"Inf"', b"1.", b".5", b"1e", b"1e+", b"-1.5E-7", b"+1", b'""', b'"uid"', b'"i8', b'"i128"', b"\0",
             b"\x1f", b"\x7f", b"\xc3\x28", b"\xe2\x82", b"\xf0\x9f\x99\x82", b"\xed\xa0\x80", b"\xf4\x90\x80\x80",
             b"\xc0\x80", b"\xff", b"\\u0041", b"\\u00e9", b"\\uD83D\\uDE42", b"\\uD83D", b"\\uDE42", b"\\uD83D\\u0041",
             b"\\uD8", b"\\uD83D\\U", b"\\u00g0", b"\\x", b"\\/", b"\\b", b" ", b"\n", b"\x0c", b"\xc2\xa0",
             b"9" * 40, b"=", b"=="]
            + [b'"' + name + b'"' for name in JSON_KINDS],
}
JSON_TOKEN = re.compile(rb'"(?:[^"\\]|\\.)*"|[0-9+\-.eE]+|[\[\]{},:]|[ \t\r\n]+', re.S)


def token_edit(r: random.Random, body: bytes) -> bytes:
    """One token of a JSON text dropped, doubled, swapped, replaced or changed within."""
    spans = [found.span() for found in JSON_TOKEN.finditer(body)]
    if not spans:
        return body
    at = r.randrange(len(spans))
    start, end = spans[at]
    token, form = body[start:end], r.randrange(7)
    if form == 0:
        token = b""
    elif form == 1:
        token += token
    elif form == 2:
        token = r.choice(HOSTILE["json"])
    elif form == 3:
        other = r.choice(spans)
        token = body[other[0]:other[1]]
    elif form == 4:
        inside = r.randint(0, len(token))
        token = token[:inside] + r.choice(HOSTILE["json"]) + token[inside:]
    elif form == 5:
        inside = r.randrange(len(token))
        token = token[:inside] + bytes([r.choice(BASE64 + b"=-_")]) + token[inside + 1:]
    else:
        inside = r.randrange(len(token))
        token = token[:inside] + token[inside + 1:]
    return body[:start] + token + body[end:]


def byte_change(r: random.Random, body: bytes) -> bytes:
    if not body:
        return body
    at = r.randrange(len(body))
    flip = 1 << r.randrange(8) if r.random() < 0.5 else r.randint(1, 255)
    return body[:at] + bytes([body[at] ^ flip]) + body[at + 1:]


def cut(r: random.Random, body: bytes) -> bytes:
    return body[:r.randint(0, len(body))]


def insertion(r: random.Random, body: bytes) -> bytes:
    at = r.randint(0, len(body))
    return body[:at] + r.randbytes(r.choice((1, 1, 2, 4))) + body[at:]


def deletion(r: random.Random, body: bytes) -> bytes:
    at = r.randint(0, len(body))
    return body[:at] + body[at + r.choice((1, 1, 2, 4)):]


def doubled(r: random.Random, body: bytes) -> bytes:
    at, end = sorted((r.randint(0, len(body)), r.randint(0, len(body))))
    return body[:end] + body[at:]


def hostile(protocol: str) -> Callable[[random.Random, bytes], bytes]:
    def edit(r: random.Random, body: bytes) -> bytes:
        part, at = r.choice(HOSTILE[protocol]), r.randint(0, len(body))
        return body[:at] + part + body[at + (len(part) if r.random() < 0.7 else 0):]
    return edit


def deep(r: random.Random, protocol: str) -> bytes:
    """A call whose body nests some 250 to 300 levels of containers, whole or cut short."""
    levels = r.choice((253, 254, 255, 256, 257, r.randint(1, 300)))
    kinds = ("struct", "list", "set", "map", "key")
    steps = [r.choice(kinds) for _ in range(levels)] if r.random() < 0.7 else [r.choice(kinds)] * levels
    codes = {"binary": (12, 15, 14, 13, 13, 3), "compact": (12, 9, 10, 11, 11, 3),
             "json": (b'"rec"', b'"lst"', b'"set"', b'"map"', b'"map"', b'"i8"')}[protocol]
    code = dict(zip(kinds + ("leaf",), codes))
    inner, opened, closed = steps[1:] + ["leaf"], [], []
    if protocol == "json":
        head, field, leaf = b'[1,"d",1,1,{"1":{%s:' % code[steps[0]], b'{"1":{%s:', b"7"
        forms = {"struct": (field, b"}}"), "list": (b"[%s,1,", b"]"), "set": (b"[%s,1,", b"]"),
                 "map": (b'["i8",%s,1,{"7":', b"}]"), "key": (b'[%s,"i8",1,{', b":7}]")}
        for step, kind in zip(steps, inner):
            opened.append(forms[step][0] % code[kind])
            closed.append(forms[step][1])
        leaf = b'"7"' if steps[-1] == "key" else leaf
        body = head + b"".join(opened) + leaf + b"".join(reversed(closed)) + b"}}]"
    else:
        binary = protocol == "binary"
        for step, kind in zip(steps, inner):
            c = code[kind]
            if step == "struct":
                opened.append(bytes((c, 0, 1)) if binary else bytes((0x10 | c,)))
            elif step in ("list", "set"):
                opened.append(bytes((c, 0, 0, 0, 1)) if binary else bytes((0x10 | c,)))
            elif step == "map":
                opened.append(bytes((3, c, 0, 0, 0, 1, 7)) if binary else bytes((1, 0x30 | c, 7)))
            else:
                opened.append(bytes((c, 3, 0, 0, 0, 1)) if binary else bytes((1, c << 4 | 3)))
            closed.append(b"\0" if step == "struct" else b"\7" if step == "key" else b"")
        first = code[steps[0]]
        head = (b"\x80\1\0\1\0\0\0\1d\0\0\0\1" + bytes((first, 0, 1)) if binary
                else b"\x82\x21\1\1d" + bytes((0x10 | first,)))
        body = head + b"".join(opened) + b"\7" + b"".join(reversed(closed)) + b"\0"
    form = r.randrange(4)
    return cut(r, body) if form == 0 else byte_change(r, body) if form == 1 else body


def noise(r: random.Random, bases: List[bytes], protocol: str) -> bytes:
    """Random bytes, alone or behind the beginning of a message."""
    front = cut(r, r.choice(bases)) if r.random() < 0.7 else b""
    if protocol == "json":
        return front + b"".join(r.choice(HOSTILE["json"]) for _ in range(r.randint(0, 12)))
    return front + r.randbytes(r.randint(0, 30))


def spellings(r: random.Random, protocol: str, count: int) -> List[bytes]:
    """Whole messages: the sample calls and random trees, plain and in free spellings."""
    as_json = protocol == "json"
    trees, out = Trees(r, as_json), [WRITERS[protocol]().message(m) for m in every_call(as_json)]
    while len(out) < count:
        m = trees.every_kind(len(out)) if len(out) % 50 == 0 else trees.message()
        writer = WRITERS[protocol]() if r.random() < 0.3 else LOOSE[protocol](r)
        out.append(writer.message(m))
    return out


def single_edits(bases: List[bytes]) -> Iterator[bytes]:
    """Every change of one byte, every cut, every deletion of a byte and some insertions."""
    for body in bases:
        for at in range(len(body) + 1):
            yield body[:at]
            for new in (0, 1, 0x0B, 0x22, 0x5C, 0x7F, 0x80, 0xFF):
                yield body[:at] + bytes([new]) + body[at:]
            if at < len(body):
                yield body[:at] + body[at + 1:]
                for new in range(256):
                    if new != body[at]:
                        yield body[:at] + bytes([new]) + body[at + 1:]


def mutated(protocol: str, r: random.Random, count: int) -> Iterator[bytes]:
    """So many mutated bodies: up to half are single edits of small calls, the rest at random."""
    small = [WRITERS[protocol]().message(m) for m in every_call(protocol == "json")]
    small += [b for b in spellings(r, protocol, 60) if len(b) < 150][len(small):]
    step = max(1, 2 * sum(265 * len(body) for body in small) // max(1, count))
    start = r.randrange(step)
    made = 0
    for number, body in enumerate(single_edits(small)):
        if number % step == start:
            if made == count // 2:
                break
            made += 1
            yield body
    bases = spellings(r, protocol, 400)
    edits = [byte_change, byte_change, cut, insertion, deletion, doubled, hostile(protocol), hostile(protocol)]
    edits += [token_edit] * 8 if protocol == "json" else []
    while made < count:
        made += 1
        if made % 97 == 0:
            yield deep(r, protocol)
        elif made % 31 == 0:
            yield noise(r, bases, protocol)
        else:
            body = r.choice(bases)
            for _ in range(r.choice((0, 1, 1, 1, 1, 1, 2, 3))):
                body = r.choice(edits)(r, body)
            yield body
