"""Messages to try a gateway with: the calls of a shop, and trees of every kind at random."""
import random
import struct
from typing import List

from message_model import BLOB, TEXT, APPLICATION_EXCEPTION, RANGES, Message, Schema, Type, Value, part, under

I8, I16, I32, I64 = ("i8",), ("i16",), ("i32",), ("i64",)
ORDER: Type = ("struct", {1: I8, 2: I16, 3: I32, 4: I64, 5: ("bool",), 6: TEXT, 7: TEXT, 8: BLOB,
                          9: ("list", I32), 10: ("map", TEXT, I64)})
SHOP = Schema(b"Shop", {
    b"place": (("struct", {1: ORDER, 2: TEXT}), ("struct", {0: ORDER})),
    b"find": (("struct", {1: I64, 2: TEXT, 3: I16, 4: I8, 5: I32, 6: ("list", TEXT), 7: ("map", I32, TEXT)}),
              ("struct", {0: ORDER})),
    b"log": (("struct", {1: TEXT, 2: I32}), ("struct", {})),
})
"""What shop.thrift declares."""

WORDS = ("amber birch cedar delta ember fjord grove haven inlet juniper kelp larch maple north ochre pine quay "
         "reed slate tide umber vale willow yarrow zephyr Grüße naïve café “quoted” tab\there 東京 🙂").split(" ")
KINDS = ("bool", "i8", "i16", "i32", "i64", "double", "string", "struct", "map", "set", "list", "uuid")
EDGES = (0, 1, 2, 7, 63, 64, 127, 128, 255, 256, 8191, 8192, 32767, 32768, 65535, 2**31 - 1, 2**31, 2**63 - 1)


def words(r: random.Random, least: int, most: int) -> bytes:
    return " ".join(r.choice(WORDS) for _ in range(r.randint(least, most))).encode()


def whole(r: random.Random, kind: str) -> Value:
    low, high = RANGES[kind]
    number = r.choice((-1, 1)) * (r.choice(EDGES) if r.random() < 0.5 else r.getrandbits(r.randint(1, 63)))
    return Value(kind, max(low, min(high, number)))


def text(r: random.Random, least: int = 1, most: int = 3) -> Value:
    return Value("string", words(r, least, most))


def order(r: random.Random) -> Value:
    marks = [whole(r, "i32") for _ in range(r.randint(2, 8))]
    prices = [(text(r, 1, 1), whole(r, "i64")) for _ in range(r.randint(1, 3))]
    return Value("struct", [
        (1, whole(r, "i8")), (2, whole(r, "i16")), (3, whole(r, "i32")), (4, whole(r, "i64")),
        (5, Value("bool", r.random() < 0.5)), (6, text(r, 1, 2)), (7, text(r, 1, 2)),
        (8, Value("string", r.randbytes(r.randint(0, 9)), 0, BLOB)), (9, Value("list", ("i32", marks))),
        (10, Value("map", ("string", "i64", prices)))])


def shop_message(r: random.Random, seq: int) -> Message:
    """A call or a reply of the shop, of 50 to 300 bytes in Binary."""
    form = r.randrange(4)
    if form == 0:
        return Message(b"place", 1, seq, [(1, order(r)), (2, text(r, 1, 4))])
    if form == 1:
        notes = [(whole(r, "i32"), text(r, 1, 2)) for _ in range(r.randint(1, 3))]
        return Message(b"find", 1, seq, [
            (1, whole(r, "i64")), (2, text(r)), (3, whole(r, "i16")), (4, whole(r, "i8")), (5, whole(r, "i32")),
            (6, Value("list", ("string", [text(r, 1, 1) for _ in range(r.randint(2, 5))]))),
            (7, Value("map", ("i32", "string", notes)))])
    return Message(r.choice((b"place", b"find")), 2, seq, [(0, order(r))])


def failure_message(r: random.Random, seq: int) -> Message:
    """An exception of which about half the bytes are text. Its message is a text without an IDL too, so it goes to JSON."""
    marks = [whole(r, "i32") for _ in range(r.randint(2, 6))]
    counts = [(whole(r, "i16"), whole(r, "i64")) for _ in range(r.randint(1, 2))]
    return Message(words(r, 2, 3), 3, seq, [
        (1, text(r, 8, 16)), (2, whole(r, "i32")), (3, Value("bool", r.random() < 0.5)), (4, whole(r, "i64")),
        (5, Value("list", ("i32", marks))), (6, Value("map", ("i16", "i64", counts)))])


def plain_calls() -> List[Message]:
    """Ten calls that hold whole numbers and strings alone."""
    r = random.Random(10)
    names = (b"ping", b"add", b"find", b"log", b"name", b"count", b"store", b"move", b"mark", b"end")
    shapes = ("", "i32 i32", "i64 string i16", "string i32", "string", "i8 i16 i32 i64", "string string i64",
              "i16 i16 string i8", "i64 i64", "string i8 string i16 string i32 string i64")
    return [Message(name, 1, number + 1, [
        (at + 1, text(r) if kind == "string" else whole(r, kind)) for at, kind in enumerate(shape.split())])
        for number, (name, shape) in enumerate(zip(names, shapes))]


def every_call(as_json: bool) -> List[Message]:
    """The plain calls, a few of the shop and, but for JSON, one with a double and a uuid."""
    r = random.Random(20)
    calls = plain_calls() + [shop_message(r, seq) for seq in range(4)]
    if not as_json:
        body = [(1, double(r, False)), (2, Value("uuid", r.randbytes(16))), (9, Value("map", None))]
        calls.append(Message(b"rest", 4, 9, body))
    return calls


def double(r: random.Random, as_text: bool) -> Value:
    number = r.choice((0.0, 1.0, -2.5, 3.14159, 1e300, 5e-324, float("inf"), float("nan"), r.uniform(-1e6, 1e6)))
    if not as_text:
        return Value("double", struct.pack(">d", number))
    return Value("double", r.choice((b"0", b"-0.5", b"1.5e3", b"12E-7", b"7e+02", b"NaN", b"-Infinity", b"Infinity")))


class Trees:
    """Random values of every kind. For JSON doubles are text, strings are UTF-8, and there is no uuid."""

    def __init__(self, r: random.Random, for_json: bool = False, schema: Schema = SHOP):
        self.r, self.for_json, self.schema = r, for_json, schema
        self.kinds = KINDS[:-1] if for_json else KINDS

    def kind(self, declared: Type, levels: int) -> str:
        if declared and self.r.random() < 0.95:
            return declared[0]
        return self.r.choice([k for k in self.kinds if levels > 0 or k not in ("struct", "map", "set", "list")])

    def value(self, kind: str, declared: Type, levels: int) -> Value:
        r, declared = self.r, under(declared, kind)
        if kind == "bool":
            return Value(kind, r.random() < 0.5, 0, declared)
        if kind in RANGES:
            return whole(r, kind)
        if kind == "double":
            return double(r, self.for_json)
        if kind == "uuid":
            return Value(kind, r.randbytes(16))
        if kind == "string":
            as_bytes = declared == BLOB or not self.for_json and r.random() < 0.2
            data = r.randbytes(r.randint(0, 7)) if as_bytes else words(r, 0, 3)
            return Value(kind, data, 0, declared)
        if kind == "struct":
            return Value(kind, self.fields(declared, levels), 0, declared)
        size = r.choice((0, 0, 1, 1, 2, 3, 3, 15 if levels < 2 else 4))
        if kind == "map":
            sides = [self.kind(part(declared, i), levels) for i in (1, 2)]
            pairs = [tuple(self.value(k, part(declared, i + 1), levels - 1) for i, k in enumerate(sides))
                     for _ in range(size)]
            return Value(kind, (*sides, pairs) if pairs else None, 0, declared)
        element = self.kind(part(declared, 1), levels)
        values = [self.value(element, part(declared, 1), levels - 1) for _ in range(size)]
        return Value(kind, (element, values), 0, declared)

    def fields(self, declared: Type, levels: int) -> list:
        r = self.r
        ids = [n for n in declared[1] if r.random() < 0.8] if declared else []
        ids += [r.choice((n, n + r.randint(1, 15), r.randint(-32768, 32767)))
                for n in (r.randint(0, 20),) for _ in range(r.randint(0, 2))]
        out = []
        for n in ids:
            inner = part(declared, n)
            out.append((n, self.value(self.kind(inner, levels), inner, levels - 1)))
        return out

    def message(self) -> Message:
        """One message with a body of up to four levels; most are of the shop, some are exceptions."""
        r = self.r
        kind = r.choice((1, 1, 1, 2, 2, 3, 4))
        name = r.choice((b"place", b"find", b"log", b"Shop:find", b"Other:find", b"", words(r, 1, 1)))
        if not self.for_json and r.random() < 0.05:
            name = r.randbytes(3)
        declared = APPLICATION_EXCEPTION if kind == 3 else self.schema.body(kind, name)
        seq = whole(r, "i32").data
        return Message(name, kind, seq, self.fields(declared, r.randint(0, 4)), 0, declared)

    def every_kind(self, seq: int) -> Message:
        """A call that holds a value of each kind, and containers of each kind of element."""
        body = [(n + 1, self.value(kind, None, 2)) for n, kind in enumerate(self.kinds)]
        for kind in self.kinds:
            body.append((body[-1][0] + 1, Value("list", (kind, [self.value(kind, None, 1) for _ in range(2)]))))
            pairs = [(self.value(kind, None, 1), self.value("set", None, 1))]
            pairs = [(left, Value("set", (kind, [self.value(kind, None, 0)]))) for left, _ in pairs]
            body.append((body[-1][0] + 20, Value("map", (kind, "set", pairs))))
        return Message(b"every", 1, seq, body)
