#!/usr/bin/env python3
"""Tries how a gateway with an HTTP front treats clients that send what they should not.

    http_trials.py [--threads N] [TRIAL..]

Without names all trials are run, in ten seconds. With N each gateway has so many threads. Each starts a gateway from Binary to Binary with a limit of 1,024 bytes,

    crates/thrift_gate/out/thrift_gate serve binary binary LISTEN TARGET --limit 1024 --front http ..

and an upstream that answers each call and keeps what it was sent. A trial sees what a client gets for its bytes and the line of its session, that
nothing behind a refused head comes to the upstream, and that another session goes on meanwhile. THRIFT_GATE names another build of the program.
The status is 0 where every trial went well.
"""
import contextlib
import random
import re
import socket
import sys
import threading
import time
from typing import Callable, Dict, Iterator, List, NamedTuple

import trials
from trials import COMMAND, LIMIT, Gateway, answering, answers, call, exception, exchange, gets, read_bytes, read_to_end, single, want

MOST_OF_HEAD = 8192
SMALLEST = len(call(0, 0)) - 4
END_OF_HEAD = b"\r\n\r\n"
REFUSED = r"client fault: frame %d: length -1"
INSIDE = r"client fault: frame %d: ended inside"


def message(number: int, size: int = 16) -> bytes:
    """A call without its length."""
    return call(number, size)[4:]


def post(body: bytes, fields: bytes = b"Host: a\r\n", version: bytes = b"HTTP/1.1") -> bytes:
    return b"POST /rpc " + version + b"\r\n" + fields + b"Content-Length: %d" % len(body) + END_OF_HEAD + body


def posts(first: int, count: int) -> bytes:
    return b"".join(post(message(number)) for number in range(first, first + count))


def response(content: bytes) -> bytes:
    return b"HTTP/1.1 200 OK\r\nContent-Type: application/x-thrift\r\nContent-Length: %d" % len(content) + END_OF_HEAD + content


def responses(first: int, count: int) -> bytes:
    return b"".join(response(answers(message(number))) for number in range(first, first + count))


def calls(first: int, count: int) -> bytes:
    return trials.calls(first, count)


class Front:
    """A gateway, and what its upstream was sent, by the connections in which it came."""

    def __init__(self, gate: Gateway, received: List[bytearray]) -> None:
        self.gate = gate
        self.received = received
        self.last = -1
        self.other = self.connect()
        self.asked = 0
        self.ask_other()

    def connect(self) -> socket.socket:
        """A client more. Each has a number, from 0; that is the other session, which goes on."""
        self.last += 1
        return self.gate.connect()

    def ask_other(self) -> None:
        """Another session makes calls."""
        exchange(self.other, posts(self.asked, 100), responses(self.asked, 100))
        self.asked += 100

    def passed_on(self, wanted: bytes) -> None:
        """The upstream was sent the calls of the other session, and these, on connections of their own."""
        found = [bytes(each) for each in self.received if each]
        want(found[:1] == [calls(0, self.asked)], "the other session's calls weren't passed on as they were")
        want(b"".join(found[1:]) == wanted, "the upstream was sent %r" % b"".join(found[1:])[:200])


@contextlib.contextmanager
def front() -> Iterator[Front]:
    received: List[bytearray] = []

    def serve(stream: socket.socket) -> None:
        received.append(bytearray())
        answering(stream, received[-1])

    with trials.gateway(serve, command=COMMAND + " --front http") as gate:
        one = Front(gate, received)
        yield one
        one.ask_other()


def ends_with(one: Front, sent: List[bytes], got: bytes, line: str, closes: bool = False) -> str:
    """What a new client gets for these pieces, the end behind it, and the line of its session."""
    found = gets(one.connect, sent, closes)
    want(found == got, "for %r it got %r" % (b"".join(sent)[:80], found[:80]))
    return one.gate.wait_for_line(r"session %d: " % one.last + line)


def good_posts() -> str:
    """Calls, whole, in single bytes and many in a piece, are answered each by a response."""
    with front() as one:
        stream = one.connect()
        exchange(stream, posts(0, 3000), responses(0, 3000))
        for piece in single(posts(0, 2)):
            stream.sendall(piece)
        want(read_bytes(stream, len(responses(0, 2))) == responses(0, 2), "other responses")
        stream.shutdown(socket.SHUT_WR)
        want(read_to_end(stream) == b"", "more bytes came")
        line = one.gate.wait_for_line("session 1: clean")
        one.passed_on(calls(0, 3000) + calls(0, 2))
    return "`%s`" % line


def heads_cut() -> str:
    """A client that ends anywhere inside a request is told nothing, and its session's line says so."""
    whole = post(message(7))
    with front() as one:
        ends_with(one, [], b"", "clean", closes=True)
        for size in range(1, len(whole)):
            line = ends_with(one, [whole[:size]], b"", INSIDE % 1, closes=True)
        for size in range(1, len(whole), 5):
            ends_with(one, [posts(0, 2) + whole[:size]], responses(0, 2), INSIDE % 3, closes=True)
        ends_with(one, [whole], response(answers(message(7))), "clean", closes=True)
    return "at %d places: `%s`" % (len(whole) - 1, line)


def byte_by_byte() -> str:
    """A client that sends a byte now and then is waited for at no cost."""
    sent = post(message(3))
    with front() as one:
        slow, before = one.connect(), one.gate.seconds()
        for piece in single(sent):
            slow.sendall(piece)
            time.sleep(0.02)
        spent = one.gate.seconds() - before
        want(read_bytes(slow, len(response(message(3)))) == response(answers(message(3))), "another response")
        want(spent < 0.3, "%.2f s of processor time" % spent)
    return "%d bytes, one each 20 ms: %.2f s of processor time" % (len(sent), spent)


def padded(size: int) -> bytes:
    """A request whose head has so many bytes."""
    short = post(message(0), b"Host: a\r\nX: \r\n")
    return post(message(0), b"Host: a\r\nX: " + b"a" * (size - len(short) + len(message(0))) + b"\r\n")


def long_heads() -> str:
    """A head of 8,192 bytes is read; one of a byte more, or one that isn't at its end by then, is refused with that byte."""
    fits, passes = padded(MOST_OF_HEAD), padded(MOST_OF_HEAD + 1)
    want(fits.index(END_OF_HEAD) + 4 == MOST_OF_HEAD and passes.index(END_OF_HEAD) + 4 == MOST_OF_HEAD + 1, "other lengths")
    endless = b"POST / HTTP/1.1\r\nX: " + b"a" * MOST_OF_HEAD
    empty = b"\r\n" * MOST_OF_HEAD
    with front() as one:
        stream = one.connect()
        exchange(stream, fits + fits, responses(0, 1) * 2)
        for sent in (passes, endless[:MOST_OF_HEAD], empty[:MOST_OF_HEAD]):
            line = ends_with(one, [sent], b"", REFUSED % 1)
        ends_with(one, [endless[:MOST_OF_HEAD - 1], END_OF_HEAD + message(0)], b"", REFUSED % 1)
        ends_with(one, [empty[:MOST_OF_HEAD - 1], b"\n" + post(message(0))], b"", REFUSED % 1)
        short = one.connect()
        short.sendall(endless[:MOST_OF_HEAD - 1])
        short.settimeout(0.5)
        with contextlib.suppress(socket.timeout):
            want(read_bytes(short, 1) != b"", "a head of 8,191 bytes was refused")
        exchange(stream, fits, responses(0, 1))
        one.passed_on(calls(0, 1) * 3)
    return "8,192 bytes pass; 8,193: `%s`" % line


# Heads that aren't good, each as it begins. What follows is a good request, which must not be passed on.
BODY = message(1)
LENGTH = b"Content-Length: %d\r\n" % len(BODY)
BAD_HEADS: Dict[str, bytes] = {
    "no length": b"POST / HTTP/1.1\r\n\r\n",
    "the same length twice": b"POST / HTTP/1.1\r\n" + LENGTH + LENGTH + b"\r\n" + BODY,
    "two lengths": b"POST / HTTP/1.1\r\n" + LENGTH + b"Content-Length: 0\r\n\r\n" + BODY,
    "two lengths in two cases": b"POST / HTTP/1.1\r\n" + LENGTH + b"content-LENGTH: 0\r\n\r\n" + BODY,
    "two lengths in one field": b"POST / HTTP/1.1\r\nContent-Length: %d, %d\r\n\r\n" % (len(BODY), len(BODY)) + BODY,
    "a plus sign": b"POST / HTTP/1.1\r\nContent-Length: +%d\r\n\r\n" % len(BODY) + BODY,
    "a minus sign": b"POST / HTTP/1.1\r\nContent-Length: -%d\r\n\r\n" % len(BODY) + BODY,
    "a hexadecimal length": b"POST / HTTP/1.1\r\nContent-Length: 0x1e\r\n\r\n" + BODY,
    "a length with a space in it": b"POST / HTTP/1.1\r\nContent-Length: 1 0\r\n\r\n" + BODY,
    "an empty length": b"POST / HTTP/1.1\r\nContent-Length:\r\n\r\n" + BODY,
    "eleven digits": b"POST / HTTP/1.1\r\nContent-Length: 000000000%d\r\n\r\n" % len(BODY) + BODY,
    "a huge length": b"POST / HTTP/1.1\r\nContent-Length: 99999999999999999999999999\r\n\r\n" + BODY,
    "a length that wraps to a small one": b"POST / HTTP/1.1\r\nContent-Length: %d\r\n\r\n" % (2 ** 64 + len(BODY)) + BODY,
    "a byte over the limit": b"POST / HTTP/1.1\r\nContent-Length: %d\r\n\r\n" % (LIMIT + 1) + b"a" * (LIMIT + 1),
    "chunked": b"POST / HTTP/1.1\r\nTransfer-Encoding: chunked\r\n\r\n%x\r\n" % len(BODY) + BODY + b"\r\n0\r\n\r\n",
    "a length and then chunks": b"POST / HTTP/1.1\r\n" + LENGTH + b"Transfer-Encoding: chunked\r\n\r\n0\r\n\r\n",
    "chunks and then a length": b"POST / HTTP/1.1\r\nTransfer-Encoding: chunked\r\n" + LENGTH + b"\r\n0\r\n\r\n",
    "chunks in capitals": b"POST / HTTP/1.1\r\nTRANSFER-ENCODING: CHUNKED\r\n" + LENGTH + b"\r\n0\r\n\r\n",
    "chunks behind a tab": b"POST / HTTP/1.1\r\nTransfer-Encoding:\tchunked\r\n" + LENGTH + b"\r\n0\r\n\r\n",
    "an unknown coding": b"POST / HTTP/1.1\r\nTransfer-Encoding: xchunked\r\n" + LENGTH + b"\r\n0\r\n\r\n",
    "identity": b"POST / HTTP/1.1\r\nTransfer-Encoding: identity\r\n" + LENGTH + b"\r\n" + BODY,
    "a space before a colon": b"POST / HTTP/1.1\r\nTransfer-Encoding : chunked\r\n" + LENGTH + b"\r\n0\r\n\r\n",
    "a folded line": b"POST / HTTP/1.1\r\nX: a\r\n b\r\n" + LENGTH + b"\r\n" + BODY,
    "a folded length": b"POST / HTTP/1.1\r\nContent-Length:\r\n %d\r\n\r\n" % len(BODY) + BODY,
    "a first line that is folded": b"POST / HTTP/1.1\r\n " + LENGTH + b"\r\n" + BODY,
    "a bare CR in a value": b"POST / HTTP/1.1\r\nX: a\rb\r\n" + LENGTH + b"\r\n" + BODY,
    "a bare CR in the place of a line's end": b"POST / HTTP/1.1\r\nX: a\r" + LENGTH + b"\r\n" + BODY,
    "a NUL in a value": b"POST / HTTP/1.1\r\nX: a\0b\r\n" + LENGTH + b"\r\n" + BODY,
    "a NUL in a name": b"POST / HTTP/1.1\r\nX\0: a\r\n" + LENGTH + b"\r\n" + BODY,
    "a NUL in the target": b"POST /\0 HTTP/1.1\r\n" + LENGTH + b"\r\n" + BODY,
    "no colon": b"POST / HTTP/1.1\r\nX\r\n" + LENGTH + b"\r\n" + BODY,
    "no name": b"POST / HTTP/1.1\r\n: a\r\n" + LENGTH + b"\r\n" + BODY,
    "no target": b"POST HTTP/1.1\r\n" + LENGTH + b"\r\n" + BODY,
    "two spaces": b"POST  / HTTP/1.1\r\n" + LENGTH + b"\r\n" + BODY,
    "a method in small letters": b"post / HTTP/1.1\r\n" + LENGTH + b"\r\n" + BODY,
    "GET": b"GET / HTTP/1.1\r\n\r\n",
    "GET with a body": b"GET / HTTP/1.1\r\n" + LENGTH + b"\r\n" + BODY,
    "OPTIONS": b"OPTIONS /rpc HTTP/1.1\r\nOrigin: http://a\r\nAccess-Control-Request-Method: POST\r\n\r\n",
    "CONNECT": b"CONNECT a:80 HTTP/1.1\r\n\r\n",
    "HTTP/0.9": b"GET /\r\n",
    "HTTP/0.9 with POST": b"POST /\r\n" + BODY,
    "HTTP/1.2": b"POST / HTTP/1.2\r\n" + LENGTH + b"\r\n" + BODY,
    "HTTP/2.0 by its preface": b"PRI * HTTP/2.0\r\n\r\nSM\r\n\r\n",
    "HTTP/2.0": b"POST / HTTP/2.0\r\n" + LENGTH + b"\r\n" + BODY,
    "TLS": b"\x16\x03\x01\x02\x00\x01\x00\x01\xfc\x03\x03" + b"\xfa" * 40,
    "a frame": call(1),
    "a message without a frame": message(1),
}


def bad_heads() -> str:
    """Each head that isn't good ends its own session alone, without a response; nothing behind it is passed on."""
    with front() as one:
        for name, head in BAD_HEADS.items():
            try:
                line = ends_with(one, [head + post(message(2))], b"", REFUSED % 1)
            except trials.Failed as fault:
                raise trials.Failed("%s: %s" % (name, fault)) from fault
        one.ask_other()
        for head in BAD_HEADS.values():
            ends_with(one, single(head + post(message(2))), b"", REFUSED % 1)
        one.passed_on(b"")
    return "%d heads, each whole and in single bytes: `%s`" % (len(BAD_HEADS), line)


def second_is_bad() -> str:
    """Of requests in one piece those before a bad one are answered, and neither it nor one behind it is passed on."""
    with front() as one:
        for head in BAD_HEADS.values():
            line = ends_with(one, [posts(0, 2) + head + posts(8, 2)], responses(0, 2), REFUSED % 3)
        one.passed_on(calls(0, 2) * len(BAD_HEADS))
    return "%d of them: `%s`" % (len(BAD_HEADS), line)


class Body(NamedTuple):
    """What a request is sent with, what its client gets, and its session's line, if it ends."""

    sent: bytes
    got: bytes
    line: str


def bodies() -> str:
    """A body of exactly the limit is a message; one that isn't a message is answered with its fault, or ends the session."""
    fits = message(0, LIMIT - SMALLEST)
    want(len(fits) == LIMIT, "another length")
    cases = [
        Body(post(fits), response(answers(fits)), "clean"),
        Body(post(b""), b"", r"client fault: frame 1: at 0: G\d+ [\w ]+"),
        Body(post(message(0)[:9]), b"", r"client fault: frame 1: at \d+: G\d+ [\w ]+"),
        Body(post(answers(message(0))), b"", "client fault: frame 1: wrong way"),
        Body(post(message(5)[:-1] + b"\x05"), response(exception(5, b"G4 bad kind")), "clean"),
        Body(post(message(5)[:-1]), response(exception(5, b"G1 truncated")), "clean"),
        Body(post(message(5) + b"\0"), response(exception(5, b"G2 trailing bytes")), "clean"),
        Body(post(call(5)), b"", r"client fault: frame 1: .*"),
    ]
    with front() as one:
        lines = [ends_with(one, [case.sent], case.got, case.line, closes=True) for case in cases]
    return ", ".join("`%s`" % line for line in lines)


def last_requests() -> str:
    """Behind a request of HTTP/1.0, or one that closes the connection, nothing is passed on."""
    ends = [
        post(message(0), version=b"HTTP/1.0"),
        post(message(0), b"Host: a\r\nConnection: close\r\n"),
        post(message(0), b"connection: keep-alive,CLOSE\r\n"),
        post(message(0), b"Connection: keep-alive\r\nConnection: close\r\n"),
        post(message(0), b"Connection: keep-alive\r\n", b"HTTP/1.0"),
    ]
    with front() as one:
        for sent in ends:
            line = ends_with(one, [sent + posts(8, 3)], responses(0, 1), "clean")
        one.passed_on(calls(0, 1) * len(ends))
    return "%d such requests: `%s`" % (len(ends), line)


def one_at_a_time() -> str:
    """A second request isn't passed on before the response to the first."""
    received, goes_on = [], threading.Event()

    def serve(stream: socket.socket) -> None:
        received.append(read_bytes(stream, len(call(0))))
        stream.settimeout(0.5)
        with contextlib.suppress(socket.timeout):
            received.append(stream.recv(1))
        stream.settimeout(None)
        goes_on.set()
        stream.sendall(answers(call(0)))
        received.append(read_bytes(stream, len(call(1))))
        stream.sendall(answers(call(1)))
        read_to_end(stream)

    with trials.gateway(serve, command=COMMAND + " --front http") as gate:
        stream = gate.connect()
        exchange(stream, posts(0, 2), responses(0, 2))
        want(goes_on.is_set() and received == [call(0), call(1)], "the upstream was sent %r" % received)
    return "for half a second nothing came behind the first"


def endless_body() -> str:
    """A body that never comes is waited for at no cost, and holds up no other."""
    with front() as one:
        silent = one.connect()
        silent.sendall(post(message(0))[:-1])
        before = one.gate.seconds()
        time.sleep(1)
        one.ask_other()
        want(one.gate.seconds() - before < 0.5, "it took processor time")
        silent.sendall(message(0)[-1:])
        want(read_bytes(silent, len(responses(0, 1))) == responses(0, 1), "another response")
    return "it went on when the last byte came"


def all_lines(one: Front, count: int) -> List[str]:
    """The lines of so many clients."""
    lines = one.gate.wait_for_lines(count)
    want(len(lines) == count, "%d lines for %d clients" % (len(lines), count))
    return lines


def garbage() -> str:
    """Random bytes behind good requests end their own session alone, and what stood before is answered."""
    source, count = random.Random(1), 300
    with front() as one:
        passed = 0
        for number in range(count):
            good = number % 3
            passed += good
            with one.connect() as stream, contextlib.suppress(OSError):
                stream.sendall(posts(0, good) + source.randbytes(source.randrange(1, 12000)))
                stream.shutdown(socket.SHUT_WR)
                want(read_to_end(stream) == responses(0, good), "other responses")
            if number % 50 == 0:
                one.ask_other()
        lines = all_lines(one, count)
        odd = [line for line in lines if not re.fullmatch(r"session \d+: client fault: frame \d+: (length -1|ended inside)", line)]
        want(not odd, "such lines: %s" % odd[:3])
        want(sum(map(len, one.received[1:])) == passed * len(call(0)), "more was passed on")
    return "%d clients: `%s`" % (count, lines[0])


def mutations() -> str:
    """Requests of which one byte is another are answered, or end their session, and hurt no other."""
    source, count = random.Random(2), 400
    with front() as one:
        for number in range(count):
            sent = bytearray(posts(0, 3))
            sent[source.randrange(len(sent))] = source.randrange(256)
            with one.connect() as stream, contextlib.suppress(OSError):
                stream.sendall(sent)
                stream.shutdown(socket.SHUT_WR)
                got = read_to_end(stream)
                want(got == b"" or got.startswith(b"HTTP/1.1 200 OK\r\n"), "it got %r" % got[:80])
            if number % 50 == 0:
                one.ask_other()
        ends = [re.sub(r"session \d+: |\d+", "", line) for line in all_lines(one, count)]
    return "%d clients, %d of them clean" % (count, ends.count("clean"))


TRIALS: Dict[str, Callable[[], str]] = {trial.__name__: trial for trial in (
    good_posts, heads_cut, byte_by_byte, long_heads, bad_heads, second_is_bad, bodies, last_requests, one_at_a_time, endless_body, garbage, mutations)}


if __name__ == "__main__":
    sys.exit(trials.main(__doc__, TRIALS))
