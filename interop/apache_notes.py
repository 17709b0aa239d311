"""The messages of notes.thrift, written and read by Apache Thrift's own Python library.

The compiler's generated code would do the same; here the few methods are spelled out, so that the
library alone is needed (Debian: python3-thrift).
"""
import sys
from typing import Any, Dict, List, Tuple

try:
    from thrift.protocol.TBinaryProtocol import TBinaryProtocolFactory
    from thrift.protocol.TCompactProtocol import TCompactProtocolFactory
    from thrift.protocol.TJSONProtocol import TJSONProtocolFactory
    from thrift.Thrift import TApplicationException, TMessageType, TType
    from thrift.transport import TSocket, TTransport
except ImportError:
    print("skipped: Apache Thrift's Python library isn't there (Debian: apt install python3-thrift)", file=sys.stderr)
    sys.exit(77)

FACTORIES = {"binary": TBinaryProtocolFactory, "compact": TCompactProtocolFactory, "json": TJSONProtocolFactory}
TRANSPORTS = {"framed": TTransport.TFramedTransportFactory, "buffered": TTransport.TBufferedTransportFactory}

# What is declared: the arguments of each method by id, and its result. A list and a map are pairs
# of their parts.
ARGUMENTS: Dict[str, Dict[int, Any]] = {
    "join": {1: ["text"], 2: "text"}, "count": {1: ["text"]}, "turn": {1: "blob"}, "forget": {1: "text"}}
RESULTS: Dict[str, Any] = {"join": "text", "count": ("text", "i32"), "turn": "blob", "forget": None}


def kind_of(declared: Any) -> int:
    if isinstance(declared, list):
        return TType.LIST
    if isinstance(declared, tuple):
        return TType.MAP
    return {"text": TType.STRING, "blob": TType.STRING, "i32": TType.I32}[declared]


def write_value(protocol: Any, declared: Any, value: Any) -> None:
    if isinstance(declared, list):
        protocol.writeListBegin(kind_of(declared[0]), len(value))
        for item in value:
            write_value(protocol, declared[0], item)
        protocol.writeListEnd()
    elif isinstance(declared, tuple):
        protocol.writeMapBegin(kind_of(declared[0]), kind_of(declared[1]), len(value))
        for key, item in value.items():
            write_value(protocol, declared[0], key)
            write_value(protocol, declared[1], item)
        protocol.writeMapEnd()
    elif declared == "text":
        protocol.writeString(value)
    elif declared == "blob":
        protocol.writeBinary(value)
    else:
        protocol.writeI32(value)


def read_value(protocol: Any, declared: Any) -> Any:
    if isinstance(declared, list):
        _, count = protocol.readListBegin()
        items = [read_value(protocol, declared[0]) for _ in range(count)]
        protocol.readListEnd()
        return items
    if isinstance(declared, tuple):
        _, _, count = protocol.readMapBegin()
        pairs = [(read_value(protocol, declared[0]), read_value(protocol, declared[1])) for _ in range(count)]
        protocol.readMapEnd()
        return dict(pairs)
    if declared == "text":
        return protocol.readString()
    return protocol.readBinary() if declared == "blob" else protocol.readI32()


def write_message(protocol: Any, name: str, form: int, number: int, declared: Dict[int, Any], fields: Dict[int, Any]) -> None:
    """Writes a message whose body has these fields, and sends it."""
    protocol.writeMessageBegin(name, form, number)
    protocol.writeStructBegin(name)
    for place, value in fields.items():
        protocol.writeFieldBegin("", kind_of(declared[place]), place)
        write_value(protocol, declared[place], value)
        protocol.writeFieldEnd()
    protocol.writeFieldStop()
    protocol.writeStructEnd()
    protocol.writeMessageEnd()
    protocol.trans.flush()


def read_fields(protocol: Any, declared: Dict[int, Any]) -> Dict[int, Any]:
    """Reads a body. Fields that aren't declared are passed over."""
    fields: Dict[int, Any] = {}
    protocol.readStructBegin()
    while True:
        _, kind, place = protocol.readFieldBegin()
        if kind == TType.STOP:
            break
        if place in declared and kind == kind_of(declared[place]):
            fields[place] = read_value(protocol, declared[place])
        else:
            protocol.skip(kind)
        protocol.readFieldEnd()
    protocol.readStructEnd()
    return fields


def read_answer(protocol: Any, name: str) -> Tuple[int, Any]:
    """The number and the result of the next answer. An Exception message is raised."""
    _, form, number = protocol.readMessageBegin()
    if form == TMessageType.EXCEPTION:
        fault = TApplicationException()
        fault.read(protocol)
        protocol.readMessageEnd()
        raise fault
    fields = read_fields(protocol, {0: RESULTS[name]} if RESULTS[name] is not None else {})
    protocol.readMessageEnd()
    return number, fields.get(0)


def address(text: str) -> Tuple[str, int]:
    host, _, port = text.rpartition(":")
    return host, int(port)


def words(text: List[str], usage: str) -> Tuple[str, Tuple[str, int], str]:
    """The protocol, the address, and `framed` or `buffered`."""
    found = text[1:] if len(text) == 4 else text[1:] + ["framed"]
    if len(found) != 3 or found[0] not in FACTORIES or found[2] not in TRANSPORTS:
        print(usage, file=sys.stderr)
        sys.exit(2)
    return found[0], address(found[1]), found[2]
