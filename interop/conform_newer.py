#!/usr/bin/env python3
"""Has `conform` check what Apache Thrift's Python library writes for a newer IDL against the older one.

    interop/conform_newer.py

The older IDL is notes.thrift with a few structs more, as below. The messages are those of senders that have gone on: one that changed nothing,
one with a field more, one whose field has another type, one that leaves a field out that the older IDL requires, one with a new member of an
enum, one with a new kind of a union, one with a new method, replies and failures. Each is written in Binary, Compact and JSON, and the lines of
`conform` are compared with those that are to be expected. The program is crates/thrift_gate/out/thrift_gate or what THRIFT_GATE names.

The status is 0 where all was as expected, 1 where not, and 77 where the library isn't there (Debian: python3-thrift).
"""
import os
import subprocess
import sys
import tempfile
from typing import Any, Callable, Dict, List, Tuple

from apache_notes import FACTORIES, TApplicationException, TMessageType, TTransport, TType

HERE = os.path.dirname(os.path.abspath(__file__))
GATE = os.environ.get("THRIFT_GATE", os.path.join(HERE, "../crates/thrift_gate/out/thrift_gate"))

OLDER = """enum Mood { CALM = 1, EAGER = 2 }
union Mark { 1: i32 line, 2: string word }
struct Note { 1: required string text, 2: i32 priority, 3: Mood mood, 4: list<Mark> marks, 5: map<string, bool> flags }
exception Full { 1: i64 room }
service Notes {
  i64 add(1: Note note) throws (1: Full full),
  oneway void forget(1: string word)
}
"""

Writes = Callable[[Any], None]


def struct(*fields: Tuple[int, int, Writes]) -> Writes:
    """Writes a struct with these fields: an id, a kind, and what writes the value."""
    def write(protocol: Any) -> None:
        protocol.writeStructBegin("")
        for number, kind, value in fields:
            protocol.writeFieldBegin("", kind, number)
            value(protocol)
            protocol.writeFieldEnd()
        protocol.writeFieldStop()
        protocol.writeStructEnd()
    return write


def text(value: str) -> Writes:
    return lambda protocol: protocol.writeString(value)


def i32(value: int) -> Writes:
    return lambda protocol: protocol.writeI32(value)


def i64(value: int) -> Writes:
    return lambda protocol: protocol.writeI64(value)


def listed(kind: int, *values: Writes) -> Writes:
    def write(protocol: Any) -> None:
        protocol.writeListBegin(kind, len(values))
        for value in values:
            value(protocol)
        protocol.writeListEnd()
    return write


def flags(values: Dict[str, bool]) -> Writes:
    def write(protocol: Any) -> None:
        protocol.writeMapBegin(TType.STRING, TType.BOOL, len(values))
        for word, value in values.items():
            protocol.writeString(word)
            protocol.writeBool(value)
        protocol.writeMapEnd()
    return write


def note(*changes: Tuple[int, int, Writes]) -> Writes:
    """The arguments of `add` with a note, in which these fields stand in the place of those with the same ids, or behind the others."""
    fields = {1: (1, TType.STRING, text("milk")), 2: (2, TType.I32, i32(3)), 3: (3, TType.I32, i32(2)),
              4: (4, TType.LIST, listed(TType.STRUCT, struct((1, TType.I32, i32(7))), struct((2, TType.STRING, text("two"))))),
              5: (5, TType.MAP, flags({"red": True, "late": False}))}
    fields.update({change[0]: change for change in changes})
    return struct((1, TType.STRUCT, struct(*fields.values())))


def failure(protocol: Any) -> None:
    TApplicationException(TApplicationException.INTERNAL_ERROR, "no").write(protocol)


CALL, REPLY, EXCEPTION, ONEWAY = TMessageType.CALL, TMessageType.REPLY, TMessageType.EXCEPTION, TMessageType.ONEWAY

MESSAGES: List[Tuple[str, int, Writes, str]] = [
    ("add", CALL, note(), "meets"),
    ("add", CALL, note((5, TType.MAP, flags({}))), "meets"),
    ("add", CALL, note((6, TType.STRING, text("kitchen"))), "at 1/6: M2 unknown field"),
    ("add", CALL, note((2, TType.I64, i64(3))), "at 1/2: M3 wrong kind"),
    ("add", CALL, note((4, TType.LIST, listed(TType.STRING, text("two")))), "at 1/4: M3 wrong kind"),
    ("add", CALL, struct((1, TType.STRUCT, struct((2, TType.I32, i32(1))))), "at 1/1: M5 missing field"),
    ("add", CALL, note((3, TType.I32, i32(3))), "at 1/3: M7 not a member"),
    ("add", CALL, note((4, TType.LIST, listed(TType.STRUCT, struct((1, TType.I32, i32(7))), struct((3, TType.I64, i64(1)))))), "at 1/4/item[1]/3: M2 unknown field"),
    ("add", CALL, note((4, TType.LIST, listed(TType.STRUCT, struct()))), "at 1/4/item[0]: M6 union"),
    ("remove", CALL, struct((1, TType.I64, i64(1))), "at .: M1 unknown method"),
    ("forget", ONEWAY, struct((1, TType.STRING, text("milk"))), "meets"),
    ("add", REPLY, struct((0, TType.I64, i64(9))), "meets"),
    ("add", REPLY, struct((1, TType.STRUCT, struct((1, TType.I64, i64(0))))), "meets"),
    ("add", REPLY, struct((2, TType.STRUCT, struct((1, TType.STRING, text("late"))))), "at 2: M2 unknown field"),
    ("add", EXCEPTION, failure, "meets"),
]


def frames(protocol: str) -> bytes:
    """The messages as the library writes them over its framed transport."""
    sent = TTransport.TMemoryBuffer()
    framed = TTransport.TFramedTransport(sent)
    writer = FACTORIES[protocol]().getProtocol(framed)
    for number, (name, form, body, _) in enumerate(MESSAGES):
        writer.writeMessageBegin(name, form, number + 1)
        body(writer)
        writer.writeMessageEnd()
        framed.flush()
    return sent.getvalue()


def main() -> int:
    idl = os.path.join(tempfile.mkdtemp(), "older.thrift")
    open(idl, "w").write(OLDER)
    wanted = ["frame %d: %s" % (number + 1, line[-1]) for number, line in enumerate(MESSAGES)]
    flaws = 0
    for protocol in FACTORIES:
        done = subprocess.run([GATE, "conform", protocol, "--idl", idl], input=frames(protocol), capture_output=True, timeout=60)
        met, broken = done.stdout.decode().splitlines(), done.stderr.decode().splitlines()
        for got, want in ((met, [w for w in wanted if w.endswith("meets")]), (broken, [w for w in wanted if not w.endswith("meets")])):
            for line in sorted(set(got) ^ set(want)):
                flaws += 1
                print("%s: %s %s" % (protocol, "not expected:" if line in got else "missing:", line))
        print("%s: %d messages, %d meet the older IDL" % (protocol, len(wanted), len(met)))
    return 1 if flaws or not wanted else 0


if __name__ == "__main__":
    sys.exit(main())
