#!/usr/bin/env python3
"""Compares what `--lines` makes of streams of lines with a plain reading of the rules.

    fuzz/line_trials.py [COUNT [SEED]]

It makes COUNT streams (500) from SEED (1): messages of JSON as they are written and with whitespace, lines of whitespace alone, empty lines,
CR before LF, lines that are no message, lines of the limit, one byte longer and far longer, and a last line with an LF or without. Each goes
through `convert json binary --lines in`, `convert json json --lines both` and `show json --lines in`, in pieces of random sizes. What is written
and reported and the status are compared with a cut into lines in Python, whose lines are handed to the program as frames, and which tells
the number of a line that is too long. What was written on lines is read again and has to stay as it is.

The program is crates/thrift_gate/out/thrift_gate or what THRIFT_GATE names. The status is 0 where nothing differed, else 1.
"""
import os
import random
import subprocess
import sys
import threading
from typing import List, NamedTuple, Optional, Tuple

HERE = os.path.dirname(os.path.abspath(__file__))
GATE = os.environ.get("THRIFT_GATE", os.path.join(HERE, "../crates/thrift_gate/out/thrift_gate"))
LIMIT = 1024
WHITE = b" \t\r"
PATIENCE = 60

Ran = NamedTuple("Ran", [("status", int), ("output", bytes), ("report", bytes)])
Cut = NamedTuple("Cut", [("messages", List[bytes]), ("too_long", bool)])


def run(words: List[str], given: bytes, pieces: Optional[random.Random] = None) -> Ran:
    """Runs a command. The input is handed over in pieces of random sizes where there is something to draw them from."""
    process = subprocess.Popen([GATE, *words], stdin=subprocess.PIPE, stdout=subprocess.PIPE, stderr=subprocess.PIPE)

    def feed() -> None:
        at = 0
        try:
            while at < len(given):
                size = pieces.choice([1, 2, 3, 7, 50, 1023, 1024, 1025, 5000]) if pieces else len(given)
                os.write(process.stdin.fileno(), given[at:at + size])
                at += size
        except BrokenPipeError:
            pass
        process.stdin.close()

    feeder = threading.Thread(target=feed)
    feeder.start()
    output, report = [], []
    readers = [threading.Thread(target=lambda: output.append(process.stdout.read())), threading.Thread(target=lambda: report.append(process.stderr.read()))]
    for reader in readers:
        reader.start()
    status = process.wait(PATIENCE)
    for thread in [feeder, *readers]:
        thread.join()
    return Ran(status, output[0], report[0])


def cut(stream: bytes) -> Cut:
    """The rules, read plainly: lines end at LF, the last one at the end; a line of whitespace alone is passed over."""
    lines = stream.split(b"\n")
    messages = []
    for line in lines:
        if len(line) > LIMIT:
            return Cut(messages, True)
        if line.strip(WHITE):
            messages.append(line)
    return Cut(messages, False)


def framed(messages: List[bytes]) -> bytes:
    return b"".join(len(message).to_bytes(4, "big") + message for message in messages)


def unframed(stream: bytes) -> List[bytes]:
    messages = []
    while stream:
        size = int.from_bytes(stream[:4], "big")
        messages.append(stream[4:4 + size])
        stream = stream[4 + size:]
    return messages


def expected(words: List[str], stream: bytes, output_lines: bool) -> Ran:
    """What the program writes of the same messages in frames, and how it would end."""
    found = cut(stream)
    ran = run(words, framed(found.messages))
    output = b"".join(message + b"\n" for message in unframed(ran.output)) if output_lines else ran.output
    if found.too_long:
        told = b"stream: frame %d: over %d bytes\n" % (len(found.messages) + 1, LIMIT)
        return Ran(3, output, ran.report + told)
    return Ran(ran.status, output, ran.report)


def message(draw: random.Random) -> bytes:
    name = "".join(draw.choice("abcdef\u00e4\u20ac") for _ in range(draw.randrange(1, 9)))
    fields = ",".join('"%d":{"%s":%d}' % (i + 1, draw.choice(["i8", "i16", "i32", "i64", "tf"]), draw.randrange(2)) for i in range(draw.randrange(5)))
    return ('[1,"%s",%d,%d,{%s}]' % (name, draw.randrange(1, 5), draw.randrange(-5, 1000), fields)).encode()


def spaced(draw: random.Random, text: bytes) -> bytes:
    """The same with whitespace between the tokens."""
    out = b""
    for byte in text:
        out += bytes([byte])
        if byte in b"[,{:" and draw.random() < 0.2:
            out += bytes(draw.choice(WHITE) for _ in range(draw.randrange(1, 4)))
    return bytes(draw.choice(WHITE) for _ in range(draw.randrange(3))) + out + bytes(draw.choice(WHITE) for _ in range(draw.randrange(3)))


def filled(draw: random.Random, size: int) -> bytes:
    """A message of so many bytes, by whitespace at its end or before it; or whitespace alone."""
    if draw.random() < 0.3:
        return bytes(draw.choice(WHITE) for _ in range(size))
    text = message(draw)
    room = b" " * (size - len(text))
    return room + text if draw.random() < 0.5 else text + room


def line(draw: random.Random, may_exceed: bool) -> bytes:
    kind = draw.randrange(20)
    if kind < 8:
        return message(draw)
    if kind < 12:
        return spaced(draw, message(draw))
    if kind < 14:
        return b""
    if kind < 16:
        return bytes(draw.choice(WHITE) for _ in range(draw.randrange(1, 6)))
    if kind < 17:
        return message(draw)[:draw.randrange(1, 12)]
    if kind < 18:
        return bytes(draw.choice(b"\x00\x0b\x0c\xff[]{}\"a1") for _ in range(draw.randrange(1, 20)))
    size = LIMIT if not may_exceed else draw.choice([LIMIT - 1, LIMIT, LIMIT, LIMIT + 1, LIMIT + 5, 9 * LIMIT])
    return filled(draw, size)


def stream(draw: random.Random) -> bytes:
    may_exceed = draw.random() < 0.3
    lines = [line(draw, may_exceed) for _ in range(draw.randrange(30))]
    ends = [draw.choice([b"\n", b"\n", b"\r\n"]) for _ in lines]
    if ends and draw.random() < 0.5:
        ends[-1] = b""
    return b"".join(text + end for text, end in zip(lines, ends))


COMMANDS: List[Tuple[List[str], str, bool]] = [
    (["convert", "json", "binary"], "in", False),
    (["convert", "json", "json"], "both", True),
    (["show", "json"], "in", False),
]


def trial(draw: random.Random) -> Optional[str]:
    given = stream(draw)
    for words, side, output_lines in COMMANDS:
        words = words + ["--limit", str(LIMIT)]
        wanted = expected(words, given, output_lines)
        got = run(words + ["--lines", side], given, draw)
        if got != wanted:
            return "%s --lines %s of %r\n  gave   %r\n  wanted %r" % (" ".join(words), side, given, got, wanted)
        if output_lines:
            again = run(words + ["--lines", "both"], got.output, draw)
            if again != Ran(0, got.output, b""):
                return "%r was read again as %r" % (got.output, again)
    return None


def main() -> int:
    count = int(sys.argv[1]) if len(sys.argv) > 1 else 500
    seed = int(sys.argv[2]) if len(sys.argv) > 2 else 1
    for number in range(count):
        told = trial(random.Random(seed * 1_000_003 + number))
        if told:
            print("stream %d: %s" % (number, told))
            return 1
    print("%d streams: ok" % count)
    return 0


if __name__ == "__main__":
    sys.exit(main())
