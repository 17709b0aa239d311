"""The messages that the scripts of this folder convert: *shop*, *drill*, *small* and *failures*, each a file of frames in each protocol.

The program is crates/thrift_gate/out/thrift_gate or what THRIFT_GATE names.
"""
import os
import subprocess
from typing import Dict, List, NamedTuple

HERE = os.path.dirname(os.path.abspath(__file__))
GATE = os.path.abspath(os.environ.get("THRIFT_GATE", os.path.join(HERE, "../crates/thrift_gate/out/thrift_gate")))
MAKE = os.path.join(HERE, "../fuzz/make_messages")
PAIRS = ["binary:compact", "compact:binary", "binary:binary", "compact:compact"]
JSON_PAIRS = ["binary:json", "json:binary"]
# A call with an i32, an i64 and a string, in Binary.
SMALL = b"\x80\x01\x00\x01\x00\x00\x00\x04call\x00\x00\x00\x07\x08\x00\x01\x00\x01\x11\x70\x0a\x00\x02\x00\x00\x00\x00\x07\x5b\xcd\x15\x0b\x00\x03\x00\x00\x00\x0dumber, ember.\x00"
DRILLED_BYTES = 290


class Messages(NamedTuple):
    """Messages of one kind: how many there are, and the file of each protocol."""

    name: str
    count: int
    files: Dict[str, str]


def count_frames(path: str) -> int:
    with open(path, "rb") as file:
        data = file.read()
    count = at = 0
    while at + 4 <= len(data):
        at += 4 + int.from_bytes(data[at:at + 4], "big")
        count += 1
    return count


def write(path: str, words: List[str]) -> str:
    with open(path, "wb") as output:
        subprocess.run(words, stdout=output, stderr=subprocess.DEVNULL, check=True)
    return path


def converted(path: str, source: str, target: str) -> str:
    """The same messages in another protocol, beside them."""
    other = f"{path}.{target}"
    with open(path, "rb") as given, open(other, "wb") as output:
        subprocess.run([GATE, "convert", source, target], stdin=given, stdout=output, check=True)
    return other


def make_messages(folder: str, megabytes: int, has_json: bool) -> List[Messages]:
    def place(name: str) -> str:
        return os.path.join(folder, name)

    def kind(name: str, binary: str, other: str) -> Messages:
        return Messages(name, count_frames(binary), {"binary": binary, other: converted(binary, "binary", other)})

    if has_json:
        return [kind("failures", write(place("failures"), [MAKE, "--failures", str(megabytes)]), "json")]
    with open(place("small"), "wb") as file:
        file.write((len(SMALL).to_bytes(4, "big") + SMALL) * (megabytes * 1_000_000 // 4 // len(SMALL)))
    shop = write(place("shop"), [MAKE, "--megabytes", str(megabytes)])
    drill = write(place("drill"), [GATE, "drill", "1", str(megabytes * 1_000_000 // DRILLED_BYTES)])
    return [kind(name, path, "compact") for name, path in (("shop", shop), ("drill", drill), ("small", place("small")))]
