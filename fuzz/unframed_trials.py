#!/usr/bin/env python3
"""Tries how a running gateway treats peers without frames that send what they should not.

    unframed_trials.py [--threads N] [TRIAL..]

Without names all trials are run, in some seconds. With N each gateway has so many threads. Each starts a gateway from Binary to Binary with a limit of 1,024 bytes,

    crates/thrift_gate/out/thrift_gate serve binary binary LISTEN TARGET --limit 1024 --unframed SIDE ..

and sees what a peer gets for its bytes, the line of its session, and that another session goes on meanwhile.
THRIFT_GATE names another build of the program. The status is 0 where every trial went well.
"""
import contextlib
import random
import re
import socket
import sys
import time
from typing import Callable, Dict, Iterator, List, NamedTuple

import trials
from trials import COMMAND, LIMIT, Gateway, answers, call, calls, exception, exchange, gateway, gets, read_bytes, read_to_end, single, want

SMALLEST = len(call(0, 0)) - 4


def bare(number: int, size: int = 16) -> bytes:
    """A call without its length, whose one argument is a string of so many bytes."""
    return call(number, size)[4:]


def bare_calls(first: int, count: int) -> bytes:
    return b"".join(bare(number) for number in range(first, first + count))


@contextlib.contextmanager
def unframed(side: str, *serve: Callable[[socket.socket], None]) -> Iterator[Gateway]:
    with gateway(*serve, command="%s --unframed %s" % (COMMAND, side)) as gate:
        yield gate


def ask_bare(stream: socket.socket, sent: bytes) -> None:
    """Sends calls without lengths and reads their answers."""
    exchange(stream, sent, answers(sent))


def ends_with(gate: Gateway, sent: List[bytes], got: bytes, line: str, closes: bool = False) -> str:
    """What a new client gets for these pieces, the end behind it, and the line of its session."""
    found = gets(gate.connect, sent, closes)
    want(found == got, "it got %r" % found[:80])
    return gate.wait_for_line(r"session \d+: " + line)


def good_calls() -> str:
    """Calls without lengths, whole, in single bytes and many in a piece, are answered without lengths."""
    with unframed("client") as gate:
        stream = gate.connect()
        ask_bare(stream, bare_calls(0, 5000))
        for piece in single(bare_calls(0, 3)):
            stream.sendall(piece)
        want(read_bytes(stream, len(bare_calls(0, 3))) == answers(bare_calls(0, 3)), "other answers")
        stream.shutdown(socket.SHUT_WR)
        want(read_to_end(stream) == b"", "more bytes came")
        line = gate.wait_for_line("session 0: clean")
    return "`%s`" % line


def garbage() -> str:
    """Random bytes end their own session alone, with its line, and what they call for is answered before."""
    source, count = random.Random(1), 300
    with unframed("client") as gate:
        other = gate.connect()
        ask_bare(other, bare(1))
        for number in range(count):
            sent = bare_calls(0, number % 4) + source.randbytes(source.randrange(1, 3000))
            with gate.connect() as stream, contextlib.suppress(OSError):
                stream.sendall(sent)
                stream.shutdown(socket.SHUT_WR)
                want(read_to_end(stream).startswith(answers(bare_calls(0, number % 4))), "other answers")
            if number % 50 == 0:
                ask_bare(other, bare_calls(number, 100))
        ask_bare(other, bare_calls(0, 100))
        lines = gate.wait_for_lines(count)
        good = re.compile(r"session \d+: client fault: frame \d+: (length -1|at \d+: G\d+ [\w ]+|wrong way|ended inside)")
        odd = [line for line in lines if not good.fullmatch(line)]
        want(not odd, "such lines: %s" % odd[:3])
        want(len(lines) == count, "%d lines for %d clients" % (len(lines), count))
    return "%d clients, each with its fault: `%s`" % (count, lines[0])


def mutations() -> str:
    """Calls of which one byte is another: each is answered, refused or ends its session, and hurts no other."""
    source, count = random.Random(2), 300
    with unframed("client") as gate:
        other = gate.connect()
        for number in range(count):
            sent = bytearray(bare_calls(0, 3))
            sent[source.randrange(len(sent))] = source.randrange(256)
            with gate.connect() as stream, contextlib.suppress(OSError):
                stream.sendall(sent)
                stream.shutdown(socket.SHUT_WR)
                read_to_end(stream)
            if number % 50 == 0:
                ask_bare(other, bare_calls(number, 100))
        ask_bare(other, bare_calls(0, 100))
        ends = [re.sub(r"session \d+: |\d+", "", line) for line in gate.wait_for_lines(count)]
        want(len(ends) == count, "%d lines for %d clients" % (len(ends), count))
    return "%d clients, %d of them clean" % (count, ends.count("clean"))


def endless_message() -> str:
    """A message that never ends is given up at the limit, and gets no answer."""
    with unframed("client") as gate:
        other = gate.connect()
        head = bare(1, 0)[:SMALLEST - 5] + b"\x3f\xff\xff\xff"
        sent = head + b"a" * (LIMIT - len(head))
        line = ends_with(gate, [bare(0), sent + b"a" * 5000], answers(bare(0)), "client fault: frame 2: length -1")
        ends_with(gate, single(sent), b"", "client fault: frame 1: length -1")
        ask_bare(other, bare_calls(0, 100))
    return "`%s`" % line


def to_the_limit() -> str:
    """A message of exactly the limit is answered, and one of a byte more isn't."""
    fits, passes = bare(0, LIMIT - SMALLEST), bare(0, LIMIT - SMALLEST + 1)
    want((len(fits), len(passes)) == (LIMIT, LIMIT + 1), "other lengths")
    with unframed("client") as gate:
        stream = gate.connect()
        ask_bare(stream, fits + fits)
        for piece in single(fits):
            stream.sendall(piece)
        want(read_bytes(stream, LIMIT) == answers(fits), "other answers")
        line = ends_with(gate, [fits + passes], answers(fits), "client fault: frame 2: length -1")
        ends_with(gate, single(passes), b"", "client fault: frame 1: length -1")
        ask_bare(stream, bare(1))
    return "1,024 bytes pass; 1,025: `%s`" % line


def bad_kind() -> str:
    """A call that breaks the grammar is answered by its number, and its session ends; nothing behind it is read."""
    sent = bare(7)[:-1] + b"\x05"
    with unframed("client") as gate:
        other = gate.connect()
        got = answers(bare(6)) + exception(7, b"G4 bad kind")
        line = ends_with(gate, [bare(6) + sent + bare_calls(8, 9)], got, "client fault: frame 3: length -1")
        ends_with(gate, single(sent), exception(7, b"G4 bad kind"), "client fault: frame 2: length -1")
        ask_bare(other, bare_calls(0, 100))
    return "`%s`" % line


def ends_inside() -> str:
    """A client that ends inside a message gets the answers before it; one that stops there is waited for."""
    with unframed("client") as gate:
        silent, other = gate.connect(), gate.connect()
        silent.sendall(bare(0)[:9])
        line = ends_with(gate, [bare_calls(0, 2) + bare(2)[:-1]], answers(bare_calls(0, 2)), "client fault: frame 3: ended inside", closes=True)
        time.sleep(1)
        before = gate.seconds()
        ask_bare(other, bare_calls(0, 100))
        want(gate.seconds() - before < 0.5, "it took processor time")
        silent.sendall(bare(0)[9:])
        want(read_bytes(silent, len(bare(0))) == answers(bare(0)), "other answers")
    return "`%s`; the one that stopped went on later" % line


def other_form() -> str:
    """Frames to a side without them, and the other way round, end the session by its second message."""
    with unframed("client") as gate:
        framed = ends_with(gate, [calls(0, 2)], b"", r"client fault: frame 1: at \d+: G\d+ [\w ]+")
        alone = ends_with(gate, [call(0)], b"", "client fault: frame 1: ended inside", closes=True)
    with unframed("upstream") as gate:
        without = ends_with(gate, [bare(0)], b"", r"client fault: frame 1: length -\d+")
    return "`%s`, one frame alone `%s`, without frames `%s`" % (framed, alone, without)


class Answer(NamedTuple):
    """What an upstream sends to the first call of so many, what the client gets, and its session's line."""

    sent: bytes
    calls: int
    got: bytes
    line: str


BAD_ANSWERS = [
    Answer(answers(bare(0))[:-1] + b"\x05", 1, exception(0, b"G4 bad kind"), "unsolicited: answer 2 to 1 calls"),
    Answer(answers(bare(0))[:-1] + b"\x05", 2, exception(0, b"G4 bad kind"), "upstream fault: frame 2: length -1"),
    Answer(answers(bare(0, LIMIT)), 1, b"", "upstream fault: frame 1: length -1"),
    Answer(answers(bare(0))[:9], 1, b"", "upstream fault: frame 1: ended inside"),
    Answer(answers(bare(0)) * 2, 1, answers(bare(0)), "unsolicited: answer 2 to 1 calls"),
    Answer(b"\x00" * 5000, 1, b"", r"upstream fault: frame 1: at \d+: G\d+ [\w ]+"),
    Answer(bare(0), 1, b"", "upstream fault: frame 1: wrong way"),
]


def bad_upstream() -> str:
    """An upstream that breaks the grammar, sends too much or ends inside an answer ends its own session alone."""
    given = iter(BAD_ANSWERS)

    def serve(stream: socket.socket) -> None:
        answer = next(given)
        read_bytes(stream, answer.calls * len(bare(0)))
        stream.sendall(answer.sent)
        stream.shutdown(socket.SHUT_WR)
        read_to_end(stream)

    lines = []
    with unframed("both", serve) as gate:
        for number, answer in enumerate(BAD_ANSWERS):
            with gate.connect() as stream:
                stream.sendall(bare_calls(0, answer.calls))
                found = read_bytes(stream, len(answer.got))
                with contextlib.suppress(OSError):
                    stream.shutdown(socket.SHUT_WR)
                found += read_to_end(stream)
                want(found == answer.got, "answer %d: it got %r" % (number, found[:80]))
            lines.append(gate.wait_for_line("session %d: (%s)" % (number, answer.line)))
    return ", ".join("`%s`" % line for line in lines)


TRIALS: Dict[str, Callable[[], str]] = {trial.__name__: trial for trial in (
    good_calls, garbage, mutations, endless_message, to_the_limit, bad_kind, ends_inside, other_form, bad_upstream)}


if __name__ == "__main__":
    sys.exit(trials.main(__doc__, TRIALS))
