"""What has to hold of any judge: of a message and its fronts, and of a fault and its place.

Nothing here says what the right answer for one frame is. It says how the answers for a
frame, its fronts and its continuations belong together.
"""
import base64
import json
import random
import re
from typing import Callable, Iterable, Iterator, List, Optional, Tuple

import slow_judge
from message_model import PROTOCOLS, Message, Schema
from mutations import LOOSE
from sample_messages import SHOP, Trees
from slow_judge import TOO_DEEP, TRAILING, TRUNCATED, verdict
from spelling import WRITERS

Read = Tuple[Optional[Message], Optional[Tuple[int, str]]]

def read(source: str, frame: bytes, schema: Schema) -> Read:
    try:
        return slow_judge.READERS[source](frame, schema).message(), None
    except slow_judge.Fault as fault:
        return None, (fault.place, fault.text)


def brute(what: str, good: Callable[[bytes], bool], begins: Callable[[bytes], bool], letters: Iterable[bytes],
          most: int, more: int) -> Iterator[str]:
    """begins(s) has to say whether some good string begins with s, for all strings over these letters."""
    strings = [[b""]]
    for _ in range(most):
        strings.append([s + letter for s in strings[-1] for letter in letters])
    fronts = {s[:n] for level in strings for s in level if good(s) for n in range(len(s) + 1)}
    for level in strings[:most - more + 1]:
        for s in level:
            if begins(s) != (s in fronts):
                yield "%s: %r %s" % (what, s, "begins nothing good" if begins(s) else "begins something good")


def each(letters: bytes) -> List[bytes]:
    return [bytes([c]) for c in letters]


def is_integer(s: bytes, low: int, high: int) -> bool:
    try:
        return str(int(s)).encode() == s and low <= int(s) <= high
    except ValueError:
        return False


def is_number(s: bytes) -> bool:
    try:
        return isinstance(json.loads(s), (int, float)) and s.strip() == s
    except ValueError:
        return False


def is_base64(s: bytes) -> bool:
    try:
        whole = s if b"=" in s else s + b"=" * (-len(s) % 4)
        return base64.b64encode(base64.b64decode(whole, validate=True)) == whole
    except ValueError:
        return False


def is_character(s: bytes) -> bool:
    try:
        return len(s.decode("utf-8")) == 1
    except UnicodeDecodeError:
        return False


def is_escape(s: bytes) -> bool:
    try:
        return len(s) > 1 and is_character(json.loads(b'"%s"' % s).encode())
    except ValueError:
        return False


def is_varint(s: bytes, bits: int) -> bool:
    return (0 < len(s) <= (10 if bits == 64 else 5) and s[-1] < 0x80 and all(c >= 0x80 for c in s[:-1])
            and sum((c & 0x7F) << 7 * n for n, c in enumerate(s)) < 2**bits)


def takes(reader: type, step: Callable[[slow_judge.Reader], object], s: bytes) -> bool:
    """Whether a step of a reader takes exactly these bytes, or wants more of them."""
    one = reader(s)
    try:
        step(one)
    except slow_judge.Fault as fault:
        return fault.text == TRUNCATED
    return one.at == len(s)


def item_flaws() -> Iterator[str]:
    """Each kind of item over short strings: which of them begin something good."""
    for low, high in ((-128, 127), (0, 1), (1, 4), (1, 1), (-32768, 32767)):
        yield from brute("an integer from %d to %d" % (low, high), lambda s: is_integer(s, low, high),
                         lambda s: slow_judge.begins_whole(s, low, high), each(b"-01278"), 5, 1)
    yield from brute("a number", is_number, slow_judge.begins_number, each(b"-+0.e5"), 6, 1)
    yield from brute("base64", is_base64, slow_judge.begins_base64, each(b"AQBE=_"), 6, 2)
    yield from brute("a character", is_character, lambda s: not s or (
        len(s) <= slow_judge.character_length(s[0]) and slow_judge.begins_character(s)), each(
            b"\x20\x7f\x80\x8f\x90\x9f\xa0\xbf\xc1\xc2\xdf\xe0\xed\xee\xef\xf0\xf1\xf4\xf5"), 4, 0)
    for bits in (16, 32):
        yield from brute("a varint of %d bits" % bits, lambda s: is_varint(s, bits), lambda s: takes(
            slow_judge.CompactReader, lambda one: one.varint(bits), s), each(b"\0\1\3\4\x0f\x10\x80\x83\x84\xff"), 5, 0)
    nine = b"\xff" * 7
    yield from brute("the last bytes of a varint of 64 bits", lambda s: is_varint(nine + s, 64), lambda s: takes(
        slow_judge.CompactReader, lambda one: one.varint(64), nine + s), each(b"\0\1\2\x7f\x80\x81\xff"), 4, 1)
    for zero in (False, True):
        yield from brute("a Binary size", lambda s: len(s) == 4 and (not any(s) if zero else s[0] < 0x80),
                         lambda s: takes(slow_judge.BinaryReader, lambda one: one.size(zero), s),
                         each(b"\0\1\x7f\x80\xff"), 4, 0)
    units = ("0041", "D83D", "dBFF", "DE42", "Dfff", "dc00", "D7ff", "00G0")
    escapes = ["\\" + chr(c) for c in range(128)] + ["\\u" + unit for unit in units]
    escapes += ["\\u" + high + u + low for high in units[1:3] for low in units for u in ("\\u", "\\U")]
    wholes = [s.encode() for s in escapes]
    fronts = {s[:n] for s in wholes if is_escape(s) for n in range(1, len(s) + 1)}
    for s in {s[:n] for s in wholes for n in range(1, len(s) + 1)}:
        if slow_judge.begins_escape(s) != (s in fronts):
            yield "an escape: %r" % s


def spelling_flaws(source: str, r: random.Random, count: int) -> Iterator[str]:
    """A message in a free spelling has to be read as what its plain spelling says."""
    trees = Trees(r, source == "json")
    for _ in range(count):
        m = trees.message()
        plain, loose = WRITERS[source]().message(m), LOOSE[source](r).message(m)
        for body in (plain, loose):
            got, fault = read(source, body, SHOP)
            if got is None or WRITERS[source]().message(got) != plain:
                yield "%s isn't read as %s but as %s" % (body.hex(), plain.hex(), fault or got)


def flaws(source: str, body: bytes, schema: Schema, r: random.Random) -> Iterator[str]:
    m, fault = read(source, body, schema)
    length = r.randint(0, len(body))
    before = read(source, body[:length], schema)[1]
    if fault is None:
        white = source == "json" and not body[length:].strip(b" \t\r\n")
        if length < len(body) and not white and before != (length, TRUNCATED):
            yield "a message's front of %d bytes gives %s" % (length, before)
        if read(source, body + b"\0", schema)[1] != (len(body), TRAILING):
            yield "a byte after the message isn't found to be too much"
        yield from round_flaws(source, body, schema)
        return
    place, text = fault
    at_place = read(source, body[:place], schema)[1]
    if text == TRUNCATED:
        if place != len(body) or before != (length, text):
            yield "a truncated frame has the fault %s, its front of %d bytes %s" % (fault, length, before)
    elif text == TRAILING:
        if at_place is not None:
            yield "before a trailing byte stands %s" % (at_place,)
    elif at_place != ((place, text) if text == TOO_DEEP else (place, TRUNCATED)):
        yield "at the place of %s the front gives %s" % (fault, at_place)
    elif length > place and before not in (fault, (length, TRUNCATED)):
        yield "the front of %d bytes gives %s, the frame %s" % (length, before, fault)
    elif read(source, body + r.randbytes(3), schema)[1] != fault:
        yield "with more bytes %s isn't the fault any more" % (fault,)


def round_flaws(source: str, body: bytes, schema: Schema) -> Iterator[str]:
    """A translation of a translation has to be the direct one, where neither is barred."""
    for target in PROTOCOLS:
        there = verdict(source, target, body, schema)
        for back in PROTOCOLS if there[0] == "passed" else ():
            again, direct = verdict(target, back, there[1], schema), verdict(source, back, body, schema)
            if again[0] == "passed" and again != direct:
                yield "%s by way of %s gives %s, not %s" % (back, target, again, direct)
