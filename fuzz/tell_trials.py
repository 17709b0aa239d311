#!/usr/bin/env python3
"""Tries what a running server tells of the frames that it refuses.

    tell_trials.py [--threads N] [TRIAL..]

Without names all trials are run, in a quarter of a minute. With N each server has so many threads. Each starts a server from Binary to Binary with a limit of 1,024 bytes,

    crates/thrift_gate/out/thrift_gate serve binary binary LISTEN TARGET --limit 1024 --tell refused ..

sends it good frames and such as it refuses, and compares its lines with those that docs/SERVE.md states for them. THRIFT_GATE names another
build of the program. The status is 0 where every trial went well.
"""
import random
import socket
import struct
import subprocess
import sys
import threading
import time
from typing import Callable, Dict, List, NamedTuple

import trials
from trials import COMMAND, HOST, PROGRAM, Gateway, Upstream, answering, are_usage, call, calls, ask, free_port, gateway, read_bytes, read_to_end, want

TELLING = COMMAND + " --tell refused"
ROUTING = PROGRAM + " route binary binary {listen} {target} --accept {accept} --sessions {sessions} --limit 1024 --tell refused"
CALL, REPLY, ONEWAY = 1, 2, 4
BAD_KIND = b"\x05"


class Frame(NamedTuple):
    """A message in Binary without fields, or with one of no kind, at which it is refused."""

    kind: int
    name: bytes
    number: int
    is_good: bool

    def message(self) -> bytes:
        head = b"\x80\x01\x00" + bytes([self.kind]) + struct.pack(">I", len(self.name)) + self.name + struct.pack(">i", self.number)
        return head + (b"\x00" if self.is_good else BAD_KIND)

    def framed(self) -> bytes:
        return struct.pack(">I", len(self.message())) + self.message()

    def told(self, which: str) -> str:
        """What a line says of it, where it is refused."""
        dropped = ", dropped" if self.kind == ONEWAY else ""
        return "%s %s %d: at %d: G4 bad kind%s" % (which, spelled(self.name), self.number, len(self.message()) - 1, dropped)


def spelled(name: bytes) -> str:
    """A name as `show` spells it, cut behind 64 bytes."""
    text = ""
    for byte in name[:64]:
        if byte in b'"\\':
            text += "\\" + chr(byte)
        elif 32 <= byte <= 126:
            text += chr(byte)
        else:
            text += "\\x%02X" % byte
    return '"%s"%s' % (text, ".." if len(name) > 64 else "")


def answer_of(frame: Frame) -> bytes:
    """What the client gets for a frame."""
    if frame.kind == ONEWAY:
        return b""
    if frame.is_good:
        return frame._replace(kind=REPLY).framed()
    return refused(frame)


def refused(frame: Frame) -> bytes:
    """The exception that tells the cause: its name is the method's alone."""
    name = frame.name.partition(b":")[2] if b":" in frame.name and frame.kind == CALL else frame.name
    text = b"G4 bad kind"
    body = b"\x0b\x00\x01" + struct.pack(">I", len(text)) + text + b"\x08\x00\x02\x00\x00\x00\x07\x00"
    whole = b"\x80\x01\x00\x03" + struct.pack(">I", len(name)) + name + struct.pack(">i", frame.number) + body
    return struct.pack(">I", len(whole)) + whole


def replying(stream: socket.socket) -> None:
    """Answers each call, and no oneway."""
    held = b""
    while True:
        piece = stream.recv(65536)
        if not piece:
            return
        held += piece
        while len(held) >= 4 and len(held) - 4 >= int.from_bytes(held[:4], "big"):
            end = 4 + int.from_bytes(held[:4], "big")
            if held[7] == CALL:
                stream.sendall(held[:7] + bytes([REPLY]) + held[8:end])
            held = held[end:]


def session(gate: Gateway, frames: List[Frame]) -> bytes:
    """Sends these frames in one connection, and gives what came back."""
    with gate.connect(60) as stream:
        sent = b"".join(frame.framed() for frame in frames)
        sender = threading.Thread(target=lambda: (stream.sendall(sent), stream.shutdown(socket.SHUT_WR)), daemon=True)
        sender.start()
        got = read_to_end(stream)
        sender.join()
        return got


def lines_of(gate: Gateway, number: int) -> List[str]:
    """The lines of a session, once it has ended."""
    gate.wait_for_line("session %d: (clean|.*fault.*|upstream ended.*|unsolicited.*)" % number)
    return [line for line in gate.lines() if line.startswith("session %d: " % number)]


def told(number: int, frames: List[Frame]) -> List[str]:
    """The lines of a session that was sent these frames, up to its end."""
    refusals = [frame.told("call %d" % place) for place, frame in enumerate(frames, 1) if not frame.is_good]
    return ["session %d: %s" % (number, text) for text in refusals + ["clean"]]


def drawn(source: random.Random) -> Frame:
    kind = source.choice([CALL, CALL, ONEWAY])
    name = source.randbytes(source.choice([0, 1, 4, 9, 63, 64, 65, 200]))
    return Frame(kind, name, source.randrange(-2 ** 31, 2 ** 31), source.random() < 0.5)


def mixed() -> str:
    """Good and refused calls and oneways with names of any bytes: one line for each refused one, in order, before the last line."""
    source, count, refusals = random.Random(1), 100, 0
    with gateway(replying, command=TELLING) as gate:
        for number in range(count):
            frames = [drawn(source) for _ in range(source.randrange(20))]
            got = session(gate, frames)
            want(got == b"".join(answer_of(frame) for frame in frames), "session %d got %r" % (number, got[:80]))
            wanted, lines = told(number, frames), lines_of(gate, number)
            want(lines == wanted, "session %d: %s, not %s" % (number, lines, wanted))
            refusals += len(wanted) - 1
    return "%d sessions, %d lines of refusals" % (count, refusals)


def names() -> str:
    """Each byte in a name is spelled as `show` spells it, and the longest name that a frame holds leaves a short line."""
    frames = [Frame(CALL, bytes(range(first, first + 64)), 1, False) for first in range(0, 256, 64)]
    frames += [Frame(CALL, b"n" * 64, -2 ** 31, False), Frame(ONEWAY, b"\xff" * 1000, -2 ** 31, False), Frame(CALL, b"", 0, False)]
    with gateway(replying, command=TELLING) as gate:
        session(gate, frames)
        lines = lines_of(gate, 0)
        want(lines == told(0, frames), "such lines: %s" % lines)
    longest = max(len(line) for line in lines)
    want(longest < 511, "a line of %d bytes" % longest)
    return "the longest line has %d bytes" % (longest + 1)


def without_the_words() -> str:
    """Without `--tell refused` the same frames leave no line but the session's."""
    frames = [Frame(CALL, b"a", 1, False), Frame(ONEWAY, b"b", 2, False), Frame(CALL, b"c", 3, True)]
    with gateway(replying) as gate:
        session(gate, frames)
        lines = lines_of(gate, 0)
    want(lines == ["session 0: clean"], "such lines: %s" % lines)
    return "`%s`" % lines[0]


def refused_answers() -> str:
    """Answers that are refused have a line each, with their own number."""
    bad = [False, True, False, False, True]
    replies = [Frame(REPLY, b"t", number, is_good) for number, is_good in enumerate(bad)]

    def serve(stream: socket.socket) -> None:
        read_bytes(stream, len(Frame(CALL, b"t", 0, True).framed()) * len(bad))
        stream.sendall(b"".join(reply.framed() for reply in replies))
        read_to_end(stream)

    with gateway(serve, command=TELLING) as gate:
        got = session(gate, [Frame(CALL, b"t", number, True) for number in range(len(bad))])
        want(got == b"".join(reply.framed() if reply.is_good else refused(reply) for reply in replies), "it got %r" % got)
        lines = lines_of(gate, 0)
    wanted = ["session 0: " + reply.told("answer %d" % (number + 1)) for number, reply in enumerate(replies) if not reply.is_good] + ["session 0: clean"]
    want(lines == wanted, "%s, not %s" % (lines, wanted))
    return "`%s`" % lines[0]


def halts() -> str:
    """A frame that ends its session has no line but the session's."""
    with gateway(replying, command=TELLING) as gate:
        with gate.connect() as stream:
            stream.sendall(Frame(CALL, b"a", 1, False).framed() + Frame(REPLY, b"b", 2, True).framed())
            read_to_end(stream)
        lines = lines_of(gate, 0)
    wanted = ["session 0: " + Frame(CALL, b"a", 1, False).told("call 1"), "session 0: client fault: frame 2: wrong way"]
    want(lines == wanted, "such lines: %s" % lines)
    return "`%s`" % lines[-1]


def many() -> str:
    """A client that sends a million refused calls writes a line for each, and holds up no other."""
    count, frame = 1_000_000, Frame(CALL, b"t", 7, False)
    with gateway(answering, command=TELLING) as gate:
        flooding, other = gate.connect(300), gate.connect()
        piece, waits = frame.framed() * 1000, []

        def send() -> None:
            for _ in range(count // 1000):
                flooding.sendall(piece)
            flooding.shutdown(socket.SHUT_WR)

        reader = threading.Thread(target=read_to_end, args=(flooding,), daemon=True)
        sender = threading.Thread(target=send, daemon=True)
        begun = time.monotonic()
        reader.start()
        sender.start()
        while reader.is_alive():
            before = time.monotonic()
            ask(other, call(1))
            waits.append(time.monotonic() - before)
        spent = time.monotonic() - begun
        gate.wait_for_line("session 0: clean", 60)
        lines = [line for line in gate.lines() if line.startswith("session 0: ")]
        text = frame.told("call %d")
        want(lines == ["session 0: " + text % number for number in range(1, count + 1)] + ["session 0: clean"], "%d other lines" % len(lines))
    want(max(waits) < 1, "another client waited %.2f s" % max(waits))
    return "%d lines in %.0f s; another client waited %.0f ms at most for each of %d answers" % (count, spent, 1000 * max(waits), len(waits))


def at_once() -> str:
    """Clients that are refused at the same time, by all threads: each line stands whole, and those of a session in their order."""
    clients, count = 16, 5000
    frames = [Frame(CALL, b"n" * 40, number, False) for number in range(count)]
    with gateway(replying, command=TELLING) as gate:
        senders = [threading.Thread(target=session, args=(gate, frames), daemon=True) for _ in range(clients)]
        for sender in senders:
            sender.start()
        for sender in senders:
            sender.join()
        lines = gate.wait_for_lines(clients * (count + 1))
        for number in range(clients):
            start, wanted = "session %d: " % number, told(number, frames)
            found = [line for line in lines if line.startswith(start)]
            differ = [pair for pair in zip(found, wanted) if pair[0] != pair[1]]
            want(found == wanted, "session %d has %d lines, not %d; the first that differ: %s" % (number, len(found), len(wanted), differ[:1]))
        want(len(lines) == clients * (count + 1), "%d lines" % len(lines))
    return "%d lines of %d sessions" % (len(lines), clients)


def routed() -> str:
    """A router tells a refused answer with its target, and a call without a route at its name."""
    def bad(stream: socket.socket) -> None:
        read_bytes(stream, len(Frame(CALL, b"t", 0, True).framed()))
        stream.sendall(Frame(REPLY, b"t", 2, False).framed())
        read_to_end(stream)

    targets = "A=%s,B=%s" % (Upstream(replying).address, Upstream(bad).address)
    gate = Gateway(targets, command=ROUTING)
    try:
        session(gate, [Frame(CALL, b"A:t", 1, True), Frame(CALL, b"B:t", 2, True), Frame(CALL, b"C:t", 3, True), Frame(ONEWAY, b"t", 4, True)])
        lines = lines_of(gate, 0)
    finally:
        gate.stop()
    wanted = ['answer 2:1 "t" 2: at 13: G4 bad kind', 'call 3 "C:t" 3: at 4: V1 no route', 'call 4 "t" 4: at 4: V1 no route, dropped', "clean"]
    want(lines == ["session 0: " + text for text in wanted], "such lines: %s" % lines)
    return "`%s`, `%s`" % (lines[0], lines[1])


def no_output() -> str:
    """Where a refusal's line can't be written the server ends with status 5."""
    port = free_port()
    words = TELLING.format(listen="%s:%d" % (HOST, port), target=Upstream(replying).address, accept=0, sessions=2).split() + trials.thread_words(2)
    with open("/dev/full", "wb") as full:
        process = subprocess.Popen(words, stdout=full)
    try:
        for _ in range(500):
            try:
                stream = socket.create_connection((HOST, port), timeout=20)
                break
            except OSError:
                time.sleep(0.02)
        stream.sendall(Frame(CALL, b"a", 1, False).framed())
        status = process.wait(20)
    finally:
        process.kill()
        process.wait()
    want(status == 5, "its status is %d" % status)
    return "status %d" % status


USAGE = ["--tell", "--tell all", "--tell refused --tell refused", "--tell Refused", "--tell="]


def usage() -> str:
    """Other words than `refused` are a usage error, and so are the words of other commands."""
    ends = ["127.0.0.1:%d" % free_port(), "127.0.0.1:1"]
    commands = [["serve", "binary", "compact", *ends, *words.split()] for words in USAGE]
    commands += [["convert", "binary", "compact", "--tell", "refused"], ["show", "binary", "--tell", "refused"]]
    return are_usage(commands)


TRIALS: Dict[str, Callable[[], str]] = {trial.__name__: trial for trial in (
    mixed, names, without_the_words, refused_answers, halts, at_once, routed, no_output, usage, many)}


if __name__ == "__main__":
    sys.exit(trials.main(__doc__, TRIALS))
