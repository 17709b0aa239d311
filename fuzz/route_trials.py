#!/usr/bin/env python3
"""Tries how a running router treats targets and clients that send what they should not.

    route_trials.py [--threads N] [TRIAL..]

Without names all trials are run, in a quarter of a minute. With N each router has so many threads. Each starts a router from Binary to Binary with a limit of 1,024 bytes,

    crates/thrift_gate/out/thrift_gate route binary binary LISTEN A=TARGET,B=TARGET,.. --limit 1024 ..

and sees what the client and each target get, the line of the session, and that other sessions go on meanwhile. THRIFT_GATE names another build
of the program. After each trial the greatest resident memory has to lie within what docs/SERVE.md states for the sessions and the
sockets, and 16 MB. The status is 0 where every trial went well.
"""
import contextlib
import random
import re
import socket
import struct
import sys
import threading
import time
from typing import Callable, Dict, Iterator, List, NamedTuple

import trials
from trials import HOST, PROGRAM, REST, Failed, Gateway, Upstream, answering, are_usage, exchange, free_port, gets, read_bytes, read_to_end, want

LIMIT = 1024
SESSIONS = 32
OPEN_CALLS = 1024
COMMAND = PROGRAM + " route binary binary {listen} {target} --accept {accept} --sessions {sessions} --limit 1024"
CALL, REPLY, EXCEPTION, ONEWAY = 1, 2, 3, 4
Serve = Callable[[socket.socket], None]


def message(kind: int, name: bytes, number: int, size: int = 16) -> bytes:
    """A framed message in Binary whose one field is a string of so many bytes."""
    body = b"\x0b\x00\x01" + struct.pack(">I", size) + b"a" * size + b"\x00"
    whole = b"\x80\x01\x00" + bytes([kind]) + struct.pack(">I", len(name)) + name + struct.pack(">I", number) + body
    return struct.pack(">I", len(whole)) + whole


def refusal(name: bytes, number: int, text: bytes, kind: int) -> bytes:
    """The answer to a refused call: a TApplicationException of this type."""
    body = b"\x0b\x00\x01" + struct.pack(">I", len(text)) + text + b"\x08\x00\x02" + struct.pack(">I", kind) + b"\x00"
    whole = b"\x80\x01\x00\x03" + struct.pack(">I", len(name)) + name + struct.pack(">I", number) + body
    return struct.pack(">I", len(whole)) + whole


def no_route(name: bytes, number: int) -> bytes:
    return refusal(name, number, b"V1 no route", 1)


def most_bytes(targets: int) -> int:
    """The most that a session with so many targets holds."""
    return (targets + 1) * (25 * LIMIT + 512) + 26 * LIMIT + 32 * OPEN_CALLS + 4096


class Router(Gateway):
    """A router that runs, with targets of these names and addresses."""

    def __init__(self, targets: Dict[str, str], **kept: int) -> None:
        super().__init__(",".join("%s=%s" % pair for pair in targets.items()), command=COMMAND, **kept)
        self.bound = SESSIONS * most_bytes(len(targets)) + trials.socket_buffers(SESSIONS, self.threads) + REST


@contextlib.contextmanager
def router(targets: Dict[str, Serve], **kept: int) -> Iterator[Router]:
    running = Router({name: Upstream(serve).address for name, serve in targets.items()}, sessions=SESSIONS, **kept)
    try:
        yield running
        peak = running.peak()
        want(peak <= running.bound, "%d bytes of memory, more than %d" % (peak, running.bound))
    finally:
        running.stop()


def mixed(names: List[str], first: int, count: int) -> bytes:
    """Calls of these services in turn."""
    return b"".join(message(CALL, b"%s:t" % names[number % len(names)].encode(), number) for number in range(first, first + count))


def replies(first: int, count: int) -> bytes:
    return b"".join(message(REPLY, b"t", number) for number in range(first, first + count))


def ask(stream: socket.socket, names: List[str], count: int, first: int = 0) -> None:
    """Sends calls of these services in turn, and reads their answers."""
    exchange(stream, mixed(names, first, count), replies(first, count))


def never_reading(stream: socket.socket) -> None:
    time.sleep(60)


def good_calls() -> str:
    """Calls of two services come back in the order of the calls, whichever answers first."""
    def slow(stream: socket.socket) -> None:
        time.sleep(0.2)
        answering(stream)

    with router({"A": slow, "B": answering}) as gate:
        stream = gate.connect()
        ask(stream, ["A", "B"], 2000)
        stream.shutdown(socket.SHUT_WR)
        want(read_to_end(stream) == b"", "more bytes came")
        line = gate.wait_for_line("session 0: clean")
    return "`%s`" % line


def sixteen_targets() -> str:
    """A million small calls are spread over 16 targets, on 16 connections."""
    names, count, connections = ["T%d" % number for number in range(16)], 1_000_000, 16
    with router({name: answering for name in names}) as gate:
        faults: List[Exception] = []

        def run() -> None:
            try:
                with gate.connect(120) as stream:
                    for first in range(0, count // connections, 12_500):
                        ask(stream, names, 12_500, first)
            except (Failed, OSError) as fault:
                faults.append(fault)

        threads = [threading.Thread(target=run, daemon=True) for _ in range(connections)]
        begun = time.monotonic()
        for thread in threads:
            thread.start()
        for thread in threads:
            thread.join()
        want(not faults, "%d connections broke: %s" % (len(faults), faults[:1]))
        for number in range(connections):
            gate.wait_for_line("session %d: clean" % number)
    return "%d calls in %.0f s, %d sessions clean" % (count, time.monotonic() - begun, connections)


class Name(NamedTuple):
    """A method's name of a call, and what the client gets: an answer of the target of A, or `V1 no route`."""

    called: bytes
    answered: bytes
    has_route: bool


NAMES = [
    Name(b"A:t", b"t", True),
    Name(b"A:b:c", b"b:c", True),
    Name(b"A::", b":", True),
    Name(b"A:", b"", True),
    Name(b"A:\xff\x00", b"\xff\x00", True),
    Name(b"t", b"t", False),
    Name(b"", b"", False),
    Name(b":t", b"t", False),
    Name(b"::A:t", b":A:t", False),
    Name(b"a:t", b"t", False),
    Name(b"AA:t", b"t", False),
    Name(b"\xff\xfe:t", b"t", False),
    Name(b"A\x00:t", b"t", False),
]


def names() -> str:
    """Names with several colons, with none, empty ones and such as are not UTF-8."""
    with router({"A": answering}) as gate:
        for number, name in enumerate(NAMES):
            wanted = message(REPLY, name.answered, number) if name.has_route else no_route(name.answered, number)
            got = gets(gate.connect, [message(CALL, name.called, number)])
            want(got == wanted, "%r: it got %r" % (name.called, got))
            want(gets(gate.connect, [message(ONEWAY, name.called, number)]) == b"", "%r: a oneway was answered" % name.called)
        gate.wait_for_line("session %d: clean" % (2 * len(NAMES) - 1))
    return "%d names, %d of them without a route" % (len(NAMES), sum(not name.has_route for name in NAMES))


class Answer(NamedTuple):
    """What target B sends to the first of two calls, of which the second goes to A: what the client gets, and its session's line."""

    sent: bytes
    got: bytes
    line: str


BAD_ANSWERS = [
    Answer(message(REPLY, b"t", 0) * 2, replies(0, 2), "unsolicited: upstream 2: answer 2 to 1 calls"),
    Answer(message(CALL, b"t", 0), b"", "upstream 2 fault: frame 1: wrong way"),
    Answer(message(ONEWAY, b"t", 0), b"", "upstream 2 fault: frame 1: wrong way"),
    Answer(b"\x00\x00\x00\x04abcd", b"", r"upstream 2 fault: frame 1: at \d+: G\d+ [\w ]+"),
    Answer(b"\xff\xff\xff\xff", b"", "upstream 2 fault: frame 1: length -1"),
    Answer(b"\x00\x00\x04\x01", b"", "upstream 2 fault: frame 1: length 1025"),
    Answer(message(REPLY, b"t", 0)[:-1], b"", "upstream 2 fault: frame 1: ended inside"),
    Answer(b"", b"", "upstream 2 ended: open calls 1"),
    Answer(message(REPLY, b"t", 0)[:-1] + b"\x05", refusal(b"t", 0, b"G4 bad kind", 7) + replies(1, 1), "clean"),
]


def bad_targets() -> str:
    """A target that answers too much, sends a call, breaks the grammar or ends ends its own session alone."""
    given = iter(BAD_ANSWERS)

    def bad(stream: socket.socket) -> None:
        answer = next(given)
        read_bytes(stream, len(message(CALL, b"t", 0)))
        stream.sendall(answer.sent)
        if not answer.line == "clean":
            stream.shutdown(socket.SHUT_WR)
        read_to_end(stream)

    lines = []
    with router({"A": answering, "B": bad, "C": answering}) as gate:
        other = gate.connect()
        ask(other, ["A", "C"], 10)
        for number, answer in enumerate(BAD_ANSWERS, 1):
            with gate.connect() as stream:
                stream.sendall(mixed(["B", "A"], 0, 2))
                found = read_bytes(stream, len(answer.got))
                with contextlib.suppress(OSError):
                    stream.shutdown(socket.SHUT_WR)
                found += read_to_end(stream)
                want(found == answer.got, "answer %d: it got %r" % (number, found[:80]))
            lines.append(gate.wait_for_line("session %d: (%s)" % (number, answer.line)))
            ask(other, ["A", "C"], 100)
    return ", ".join("`%s`" % line for line in lines)


def dead_target() -> str:
    """A target that nobody serves ends only the sessions that call it."""
    targets = {"A": Upstream(answering).address, "B": "%s:%d" % (HOST, free_port())}
    gate = Router(targets, sessions=SESSIONS)
    try:
        other = gate.connect()
        ask(other, ["A"], 100)
        want(gets(gate.connect, [mixed(["B"], 0, 1)], closes=False) == b"", "something came")
        line = gate.wait_for_line("session 1: link fault: upstream 2")
        ask(other, ["A"], 100)
    finally:
        gate.stop()
    return "`%s`, and a session that calls the other target went on" % line


def never_reads() -> str:
    """A target that never reads holds up the sessions that call it, and no other."""
    with router({"A": answering, "B": never_reading}) as gate:
        stuck, other = gate.connect(), gate.connect()

        def send() -> None:
            with contextlib.suppress(OSError):
                stuck.sendall(mixed(["B"], 0, 200_000))

        threading.Thread(target=send, daemon=True).start()
        time.sleep(1)
        before = gate.seconds()
        ask(other, ["A"], 2000)
        time.sleep(1)
        spent = gate.seconds() - before
        want(spent < 1, "%.2f s of processor time" % spent)
        stuck.close()
    return "the other session went on, %.2f s of processor time" % spent


def broken_targets() -> str:
    """Targets that reset their connections in the midst of calls: each ends its own session."""
    source, count = random.Random(3), 100

    def breaking(stream: socket.socket) -> None:
        stream.recv(source.randrange(1, 200))
        stream.setsockopt(socket.SOL_SOCKET, socket.SO_LINGER, struct.pack("ii", 1, 0))

    with router({"A": answering, "B": breaking}) as gate:
        other = gate.connect()
        ask(other, ["A"], 10)
        for number in range(count):
            got = gets(gate.connect, [mixed(["A", "B"], 0, 10)])
            want(replies(0, 10).startswith(got), "session %d got %r" % (number, got[:80]))
            if number % 20 == 0:
                ask(other, ["A"], 100)
        lines = gate.wait_for_lines(count)
        good = re.compile(r"session \d+: (link fault: upstream 2|upstream 2 ended: open calls \d+)")
        odd = [line for line in lines if not good.fullmatch(line)]
        want(not odd and len(lines) == count, "%d lines, such ones: %s" % (len(lines), odd[:3]))
    return "%d sessions, `%s`" % (count, lines[0])


def garbage() -> str:
    """Clients that send random bytes end their own session alone, and get what they called for before."""
    source, count = random.Random(1), 200
    with router({"A": answering, "B": answering}) as gate:
        other = gate.connect()
        ask(other, ["A", "B"], 10)
        for number in range(count):
            good = number % 4
            got = gets(gate.connect, [mixed(["A", "B"], 0, good) + b"\xff" + source.randbytes(source.randrange(1, 3000))])
            want(got == replies(0, good), "client %d got %r" % (number, got[:80]))
            if number % 50 == 0:
                ask(other, ["A", "B"], 100)
        odd = [line for line in gate.wait_for_lines(count) if not re.fullmatch(r"session \d+: client fault: frame \d+: (length -\d+|ended inside)", line)]
        want(not odd, "such lines: %s" % odd[:3])
    return "%d clients, each with its fault" % count


USAGE = [
    "", "A", "A=", "=127.0.0.1:1", "A=127.0.0.1:1,", ",A=127.0.0.1:1", "A=127.0.0.1:1,A=127.0.0.1:2", "A:B=127.0.0.1:1", "A=10.0.0:1", "A=127.0.0.1:0",
    "A=B=127.0.0.1:1", "A=127.0.0.1:1 --service A", "A=127.0.0.1:1 --unframed client", "A=127.0.0.1:1 --front framed",
    "A=127.0.0.1:1 --limit 16384000 --sessions 6", ",".join("T%d=127.0.0.1:%d" % (number, number + 1) for number in range(17)),
]


def usage() -> str:
    """Words that name no targets, or more memory than is allowed, are a usage error."""
    return are_usage([["route", "binary", "compact", "127.0.0.1:%d" % free_port(), *words.split()] for words in USAGE])


TRIALS: Dict[str, Callable[[], str]] = {trial.__name__: trial for trial in (
    good_calls, names, bad_targets, dead_target, never_reads, broken_targets, garbage, usage, sixteen_targets)}


if __name__ == "__main__":
    sys.exit(trials.main(__doc__, TRIALS))
