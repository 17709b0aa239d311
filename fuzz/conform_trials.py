#!/usr/bin/env python3
"""Compares what `conform` says of messages with a plain reading of the rules, and hands it hostile ones.

    fuzz/conform_trials.py [NAME ..]

Without names it does all of these, in turn:

    random      messages of every declared form with up to three changes each, in the three protocols: an id or a kind that isn't
                declared, a field twice or missing, a union with none or two, no member, no UTF-8; each line is compared
    faults      the same frames cut and changed byte by byte: where `show` tells a fault, `conform` tells the same line
    deep        structs in structs, 256 levels and one more, with a breach at the bottom, whose path has 256 steps
    repeated    100,000 fields of one id, of unions too, and a struct of 5,000 fields in reverse order
    maps        maps whose keys and values are structs, with a breach in the last key and in the last value

The program is crates/thrift_gate/out/thrift_gate or what THRIFT_GATE names. The status is 0 where nothing differed, else 1.
"""
import os
import random
import subprocess
import sys
import tempfile
import time
from typing import Any, Dict, List, NamedTuple, Optional, Tuple

from message_model import BLOB, PROTOCOLS, RANGES, TEXT, Message, Value, framed
from sample_messages import double, whole, words
from spelling import WRITERS

HERE = os.path.dirname(os.path.abspath(__file__))
GATE = os.environ.get("THRIFT_GATE", os.path.join(HERE, "../crates/thrift_gate/out/thrift_gate"))
GREATEST = 16_384_000
SLOWEST = 5.0

IDL = """enum Colour { RED = 1, GREEN = 5, NONE = -3 }
typedef Colour Paint
struct Point { 1: required i32 x, 2: required i32 y, 3: optional Paint paint }
union Either { 1: i64 number, 2: string text, 3: Point point }
struct Node { 1: optional Node next, 2: optional Colour colour, 3: optional list<Node> nodes }
struct Shape {
  5: required string name, 1: required list<Point> points, 2: optional map<Point, Either> marks, 3: optional set<Colour> colours,
  4: bool closed, 6: double area, 7: binary seal, 8: i8 level, 9: i16 layer, optional list<list<string>> lines
}
exception Trouble { 1: required string why }
service Drawing {
  Shape draw(1: Shape shape, 2: Either choice, 3: Node tree) throws (1: Trouble trouble),
  void clear()
}
"""

COLOUR = ("enum", (1, 5, -3))
Struct = NamedTuple("Struct", [("union", bool), ("fields", List[Tuple[int, tuple, bool]])])
STRUCTS: Dict[str, Struct] = {
    "Point": Struct(False, [(1, ("i32",), True), (2, ("i32",), True), (3, COLOUR, False)]),
    "Either": Struct(True, [(1, ("i64",), False), (2, TEXT, False), (3, ("struct", "Point"), False)]),
    "Node": Struct(False, [(1, ("struct", "Node"), False), (2, COLOUR, False), (3, ("list", ("struct", "Node")), False)]),
    "Shape": Struct(False, [
        (5, TEXT, True), (1, ("list", ("struct", "Point")), True), (2, ("map", ("struct", "Point"), ("struct", "Either")), False),
        (3, ("set", COLOUR), False), (4, ("bool",), False), (6, ("double",), False), (7, BLOB, False), (8, ("i8",), False),
        (9, ("i16",), False), (-1, ("list", ("list", TEXT)), False)]),
    "Trouble": Struct(False, [(1, TEXT, True)]),
    "draw arguments": Struct(False, [(1, ("struct", "Shape"), False), (2, ("struct", "Either"), False), (3, ("struct", "Node"), False)]),
    "draw result": Struct(False, [(0, ("struct", "Shape"), False), (1, ("struct", "Trouble"), False)]),
    "clear arguments": Struct(False, []),
    "clear result": Struct(False, []),
    "failure": Struct(False, [(1, TEXT, False), (2, ("i32",), False)]),
}
"""What the IDL declares. In a result every field is optional."""

Breach = Tuple[List[str], str]


# ---- the rules

def kind_of(declared: tuple) -> str:
    return "i32" if declared[0] == "enum" else declared[0]


def body_of(message: Message) -> Optional[str]:
    """The struct that is declared for a message's body."""
    if message.kind == 3:
        return "failure"
    before, colon, after = message.name.partition(b":")
    if colon and before != b"Drawing":
        return None
    name = (after if colon else message.name).decode("latin-1")
    found = name + (" result" if message.kind == 2 else " arguments")
    return found if found in STRUCTS else None


def below(step: str, found: Optional[Breach]) -> Optional[Breach]:
    return ([step] + found[0], found[1]) if found else None


def breach_of(declared: tuple, value: Value) -> Optional[Breach]:
    """The first breach of a value that has the kind of its type."""
    form = declared[0]
    if form == "enum":
        return None if value.data in declared[1] else ([], "M7 not a member")
    if declared == TEXT:
        try:
            value.data.decode("utf-8")
            return None
        except UnicodeDecodeError:
            return [], "M8 not UTF-8"
    if form == "struct":
        return breach_of_fields(declared[1], value.data)
    if form in ("list", "set"):
        kind, values = value.data
        if kind != kind_of(declared[1]):
            return [], "M3 wrong kind"
        for place, each in enumerate(values):
            found = below("item[%d]" % place, breach_of(declared[1], each))
            if found:
                return found
    if form == "map" and value.data:
        key, part, pairs = value.data
        if (key, part) != (kind_of(declared[1]), kind_of(declared[2])):
            return [], "M3 wrong kind"
        for place, (left, right) in enumerate(pairs):
            found = (below("key[%d]" % place, breach_of(declared[1], left))
                     or below("value[%d]" % place, breach_of(declared[2], right)))
            if found:
                return found
    return None


def breach_of_fields(name: str, fields: List[Tuple[int, Value]]) -> Optional[Breach]:
    struct = STRUCTS[name]
    types = {number: declared for number, declared, _ in struct.fields}
    seen = set()
    for number, value in fields:
        step = str(number)
        if number not in types:
            return [step], "M2 unknown field"
        if value.kind != kind_of(types[number]):
            return [step], "M3 wrong kind"
        if number in seen:
            return [step], "M4 repeated field"
        found = below(step, breach_of(types[number], value))
        if found:
            return found
        seen.add(number)
    for number, _, required in struct.fields:
        if required and number not in seen:
            return [str(number)], "M5 missing field"
    if struct.union and len(fields) != 1:
        return [], "M6 union"
    return None


def line_of(number: int, message: Message) -> str:
    body = body_of(message)
    found = breach_of_fields(body, message.body) if body else ([], "M1 unknown method")
    return "frame %d: at %s: %s" % (number, "/".join(found[0]) or ".", found[1]) if found else "frame %d: meets" % number


# ---- messages

class Maker:
    """Messages that meet the IDL, and changes of them. It keeps the lists of fields and the leaves that may be changed."""

    def __init__(self, r: random.Random, for_json: bool):
        self.r, self.for_json = r, for_json
        self.structs: List[Tuple[str, list]] = []

    def value(self, declared: tuple, levels: int) -> Value:
        r, form = self.r, declared[0]
        if form == "enum":
            return Value("i32", r.choice(declared[1]))
        if form in RANGES:
            return whole(r, form)
        if form == "bool":
            return Value("bool", r.random() < 0.5)
        if form == "double":
            return double(r, self.for_json)
        if form == "string":
            return Value("string", words(r, 0, 2) if declared == TEXT else r.randbytes(r.randint(0, 5)), 0, declared)
        if form == "struct":
            return Value("struct", self.fields(declared[1], levels - 1))
        size = r.choice((0, 1, 2, 3)) if levels > 0 else 0
        if form == "map":
            pairs = [(self.value(declared[1], levels - 1), self.value(declared[2], levels - 1)) for _ in range(size)]
            return Value("map", (kind_of(declared[1]), kind_of(declared[2]), pairs) if pairs else None)
        return Value(form, (kind_of(declared[1]), [self.value(declared[1], levels - 1) for _ in range(size)]))

    def fields(self, name: str, levels: int) -> list:
        r, struct = self.r, STRUCTS[name]
        flat = [f for f in struct.fields if f[1][0] not in ("struct", "list", "map", "set") or levels > 0 or f[2]]
        chosen = [r.choice(flat)] if struct.union else [f for f in flat if f[2] or r.random() < 0.6]
        if r.random() < 0.3:
            r.shuffle(chosen)
        made = [(number, self.value(declared, levels)) for number, declared, _ in chosen]
        self.structs.append((name, made))
        return made

    def message(self, seq: int) -> Message:
        r = self.r
        kind = r.choice((1, 1, 1, 2, 3, 4))
        name = r.choice((b"draw", b"draw", b"draw", b"Drawing:draw", b"clear", b"Other:draw", b"erase"))
        m = Message(name, kind, seq, [])
        body = body_of(m)
        fields = self.fields(body, 4) if body else []
        return m._replace(body=fields)

    def change(self) -> None:
        """One change to some struct of the message that was made last."""
        if not self.structs:
            return
        r = self.r
        name, fields = r.choice(self.structs)
        struct, at = STRUCTS[name], r.randrange(len(fields)) if fields else 0
        form = r.randrange(7)
        if form == 0:
            fields.insert(at, (r.choice((4, 40, -7)), whole(r, "i16")))
        elif form == 1 and fields:
            fields[at] = (fields[at][0], whole(r, "i64") if fields[at][1].kind != "i64" else whole(r, "i8"))
        elif form == 2 and fields:
            fields.insert(r.randrange(at, len(fields)) + 1, fields[at])
        elif form == 3 and fields:
            del fields[at]
        elif form == 4:
            more = r.choice(struct.fields) if struct.fields else None
            if more:
                fields.append((more[0], self.value(more[1], 1)))
        else:
            self.spoil(name, fields)

    def spoil(self, name: str, fields: list) -> None:
        """A value that breaks its type where it stands."""
        r = self.r
        types = {number: declared for number, declared, _ in STRUCTS[name].fields}
        for at in r.sample(range(len(fields)), len(fields)):
            number, value = fields[at]
            declared = types.get(number)
            if declared and declared[0] == "enum":
                fields[at] = (number, Value("i32", r.choice((0, 2, 2**31 - 1))))
                return
            if declared == TEXT and not self.for_json:
                fields[at] = (number, Value("string", b"a\xffb", 0, TEXT))
                return
            if declared and declared[0] in ("list", "set") and value.kind == declared[0]:
                fields[at] = (number, Value(declared[0], ("i8", [whole(r, "i8") for _ in range(r.choice((0, 2)))])))
                return
            if declared and declared[0] == "map" and value.kind == "map":
                fields[at] = (number, Value("map", ("i32", "i32", [(whole(r, "i32"), whole(r, "i32"))])))
                return


# ---- runs

class Trials:
    def __init__(self) -> None:
        self.flaws = 0
        self.folder = tempfile.mkdtemp()
        self.idl = os.path.join(self.folder, "drawing.thrift")
        open(self.idl, "w").write(IDL)

    def flaw(self, what: str) -> None:
        self.flaws += 1
        if self.flaws <= 20:
            print("  " + what)

    def run(self, command: str, protocol: str, stream: bytes, idl: Optional[str] = None) -> Tuple[int, List[str], List[str], float]:
        begin = time.monotonic()
        done = subprocess.run([GATE, command, protocol, "--idl", idl or self.idl, "--limit", str(GREATEST)], input=stream, capture_output=True, timeout=600)
        took = time.monotonic() - begin
        return done.returncode, done.stdout.decode("latin-1").splitlines(), done.stderr.decode("latin-1").splitlines(), took

    def compare(self, protocol: str, messages: List[Message], idl: Optional[str] = None) -> float:
        writer = WRITERS[protocol]()
        stream = b"".join(framed(writer.message(m)) for m in messages)
        code, output, report, took = self.run("conform", protocol, stream, idl)
        wanted = [line_of(number + 1, m) for number, m in enumerate(messages)]
        met = [line for line in wanted if line.endswith(": meets")]
        broken = [line for line in wanted if not line.endswith(": meets")]
        for name, got, want in (("output", output, met), ("report", report, broken)):
            if got != want:
                first = next((pair for pair in zip(got + ["(nothing)"], want + ["(nothing)"]) if pair[0] != pair[1]), ("", ""))
                self.flaw("%s: the %s has %.200s instead of %.200s" % (protocol, name, *first))
        if code != (1 if broken else 0):
            self.flaw("%s: status %d" % (protocol, code))
        return took

    def random(self) -> None:
        told: Dict[str, int] = {}
        for protocol in PROTOCOLS:
            messages = []
            for seq in range(4000):
                maker = Maker(random.Random(seq * 7 + 1), protocol == "json")
                messages.append(maker.message(seq))
                for _ in range(maker.r.randrange(4) if seq % 4 else 0):
                    maker.change()
            self.compare(protocol, messages)
            for m in messages:
                text = line_of(1, m).rpartition(": ")[2]
                told[text] = told.get(text, 0) + 1
        print("  " + ", ".join("%s %d" % pair for pair in sorted(told.items())))

    def faults(self) -> None:
        for protocol in PROTOCOLS:
            r, frames = random.Random(5), []
            for seq in range(300):
                frame = bytearray(WRITERS[protocol]().message(Maker(r, protocol == "json").message(seq)))
                for _ in range(10):
                    one = bytearray(frame)
                    one[r.randrange(len(one))] = r.randrange(256)
                    frames.append(bytes(one[:r.randrange(len(one))] if r.random() < 0.3 else one))
            stream = b"".join(map(framed, frames))
            shown, found = self.run("show", protocol, stream), self.run("conform", protocol, stream)
            faults = [line for line in found[2] if ": M" not in line]
            if faults != shown[2]:
                self.flaw("%s: the faults of conform are not those of show" % protocol)
            if len(found[1]) + len(found[2]) != len(frames):
                self.flaw("%s: %d lines of %d frames" % (protocol, len(found[1]) + len(found[2]), len(frames)))
            print("  %s: %d frames, %d with a fault" % (protocol, len(frames), len(faults)))

    def deep(self) -> None:
        sys.setrecursionlimit(10_000)
        for protocol in PROTOCOLS:
            messages = [self.nested(levels, colour) for levels in (1, 100, 255) for colour in (5, 4)]
            self.compare(protocol, messages)
            code, output, report, _ = self.run("conform", protocol, framed(WRITERS[protocol]().message(self.nested(256, 4))))
            if code != 1 or output or len(report) != 1 or not report[0].endswith(": G3 too deep"):
                self.flaw("%s: 257 levels: %s %s" % (protocol, code, report))

    def nested(self, levels: int, colour: int) -> Message:
        node = [(2, Value("i32", colour))]
        for _ in range(levels - 1):
            node = [(1, Value("struct", node))]
        return Message(b"draw", 1, levels, [(3, Value("struct", node))])

    def repeated(self) -> None:
        many = 100_000
        one = (4, Value("bool", True))
        shape = [(5, Value("string", b"a", 0, TEXT)), (1, Value("list", ("struct", []))), one]
        messages = [Message(b"draw", 1, 1, [(1, Value("struct", shape + [one] * many))]),
                    Message(b"draw", 1, 2, [(2, Value("struct", [(1, Value("i64", 7))] * many))]),
                    Message(b"draw", 1, 3, [(2, Value("struct", [(1, Value("i64", 7)), (2, Value("string", b"", 0, TEXT))]))])]
        self.timed([(protocol, self.compare(protocol, messages)) for protocol in PROTOCOLS])
        wide = os.path.join(self.folder, "wide.thrift")
        count = 5000
        open(wide, "w").write("struct Wide { %s }\nservice Drawing { void draw(1: Wide wide) }\n" % ", ".join("%d: required i8 f%d" % (n, n) for n in range(1, count + 1)))
        kept = STRUCTS["draw arguments"]
        STRUCTS["Wide"] = Struct(False, [(n, ("i8",), True) for n in range(1, count + 1)])
        STRUCTS["draw arguments"] = Struct(False, [(1, ("struct", "Wide"), False)])
        fields = [(n, Value("i8", 1)) for n in range(count, 0, -1)]
        messages = [Message(b"draw", 1, 1, [(1, Value("struct", fields))])] * 10 + [Message(b"draw", 1, 1, [(1, Value("struct", fields[:-1]))])]
        self.timed([(protocol, self.compare(protocol, messages, wide)) for protocol in PROTOCOLS])
        STRUCTS["draw arguments"] = kept

    def timed(self, runs: List[Tuple[str, float]]) -> None:
        print("  " + ", ".join("%s %.2f s" % run for run in runs))
        for protocol, took in runs:
            if took > SLOWEST:
                self.flaw("%s: %.1f seconds" % (protocol, took))

    def maps(self) -> None:
        count = 2000

        def point(x: int, colour: Any) -> Value:
            return Value("struct", [(1, Value("i32", x)), (2, Value("i32", -x))] + ([(3, Value("i32", colour))] if colour is not None else []))

        def shape(last_key: Value, last_value: Value) -> Message:
            pairs = [(point(n, 1), Value("struct", [(3, point(n, -3))])) for n in range(count)] + [(last_key, last_value)]
            marks = Value("map", ("struct", "struct", pairs))
            fields = [(5, Value("string", b"a", 0, TEXT)), (1, Value("list", ("struct", []))), (2, marks)]
            return Message(b"draw", 1, 1, [(1, Value("struct", fields))])

        good = Value("struct", [(1, Value("i64", 1))])
        messages = [shape(point(1, 1), good), shape(point(1, 2), good), shape(point(1, 1), Value("struct", [])),
                    shape(Value("struct", [(1, Value("i32", 1))]), good), shape(point(1, 1), Value("struct", [(3, point(1, 9))]))]
        self.timed([(protocol, self.compare(protocol, messages)) for protocol in PROTOCOLS])


def main(names: List[str]) -> int:
    known = ("random", "faults", "deep", "repeated", "maps")
    if any(name not in known for name in names):
        sys.stderr.write(__doc__)
        return 2
    trials = Trials()
    for name in names or known:
        print(name)
        getattr(trials, name)()
    print("%d flaws" % trials.flaws)
    return 1 if trials.flaws else 0


if __name__ == "__main__":
    sys.exit(main(sys.argv[1:]))
