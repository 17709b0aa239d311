"""What a Thrift message is, apart from any protocol: kinds, types, values.

Values are of the kinds bool, i8, i16, i32, i64, double, string, struct, map, set, list
and uuid. The data of a struct is a list of (id, value), of a list or set a pair
(element kind, values), of a map None where it is empty and else (key kind, value kind,
pairs), of a double, a string and a uuid its bytes.

A type says what is declared at a position; None is a position of which nothing is
known. ("string", "text") and ("string", "blob") are the two kinds of string,
("struct", {id: type}), ("list", type), ("set", type) and ("map", type, type) are made
of other types, and every other type is its kind alone, as ("i32",).
"""
from typing import Any, Dict, Iterator, List, NamedTuple, Optional, Tuple

DEPTH = 256
LIMIT = 262_144
MOST = 2**31 - 1
PROTOCOLS = ("binary", "compact", "json")
CONTAINERS = ("struct", "map", "set", "list")
TYPES = {1: "call", 2: "reply", 3: "exception", 4: "oneway"}

BINARY_KINDS = {2: "bool", 3: "i8", 4: "double", 6: "i16", 8: "i32", 10: "i64", 11: "string",
                12: "struct", 13: "map", 14: "set", 15: "list", 16: "uuid"}
COMPACT_KINDS = {1: "bool", 2: "bool", 3: "i8", 4: "i16", 5: "i32", 6: "i64", 7: "double", 8: "string",
                 9: "list", 10: "set", 11: "map", 12: "struct", 13: "uuid"}
JSON_KINDS = {b"tf": "bool", b"i8": "i8", b"dbl": "double", b"i16": "i16", b"i32": "i32", b"i64": "i64",
              b"str": "string", b"rec": "struct", b"map": "map", b"set": "set", b"lst": "list"}
BINARY_CODES = {kind: code for code, kind in BINARY_KINDS.items()}
COMPACT_CODES = dict({kind: code for code, kind in COMPACT_KINDS.items()}, bool=1)
JSON_NAMES = {kind: name for name, kind in JSON_KINDS.items()}
RANGES = {kind: (-(2**(bits - 1)), 2**(bits - 1) - 1)
          for kind, bits in (("i8", 8), ("i16", 16), ("i32", 32), ("i64", 64))}

NO_NUMBERS = (b"NaN", b"Infinity", b"-Infinity")
BASE64 = b"ABCDEFGHIJKLMNOPQRSTUVWXYZabcdefghijklmnopqrstuvwxyz0123456789+/"

Type = Optional[tuple]
TEXT: Type = ("string", "text")
BLOB: Type = ("string", "blob")
APPLICATION_EXCEPTION: Type = ("struct", {1: TEXT, 2: ("i32",)})


class Schema(NamedTuple):
    """The methods of one service: the types of their arguments and of their results."""
    service: bytes
    methods: Dict[bytes, Tuple[Type, Type]]

    def body(self, kind: int, name: bytes) -> Type:
        """The type of a message's body: by its name, with or without `service:` before it."""
        if kind == 3:
            return APPLICATION_EXCEPTION
        before, colon, after = name.partition(b":")
        if colon and before != self.service:
            return None
        args, result = self.methods.get(after if colon else name, (None, None))
        return result if kind == 2 else args


NOTHING_KNOWN = Schema(b"", {})


class Value(NamedTuple):
    kind: str
    data: Any
    place: int = 0
    type: Type = None


class Message(NamedTuple):
    name: bytes
    kind: int
    seq: int
    body: List[Tuple[int, Value]]
    name_place: int = 0
    type: Type = None


def under(declared: Type, kind: str) -> Type:
    return declared if declared is not None and declared[0] == kind else None


def part(declared: Type, which: Any) -> Type:
    """The type of a field, element, key or value below a declared type."""
    if declared is None:
        return None
    return declared[1].get(which) if declared[0] == "struct" else declared[which]


def fillers(declared: Type) -> Tuple[str, str]:
    """The kinds that an empty map is written with: the declared ones, else i8."""
    left, right = part(declared, 1), part(declared, 2)
    return (left[0] if left else "i8", right[0] if right else "i8")


def values_of(v: Value) -> Iterator[Value]:
    """A value and all inside it, in the order in which they are written."""
    yield v
    if v.kind == "struct":
        inside = [field for _, field in v.data]
    elif v.kind == "map":
        inside = [side for pair in (v.data[2] if v.data else []) for side in pair]
    else:
        inside = v.data[1] if v.kind in ("list", "set") else []
    for each in inside:
        yield from values_of(each)


def framed(body: bytes) -> bytes:
    return len(body).to_bytes(4, "big") + body
