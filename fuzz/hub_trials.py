#!/usr/bin/env python3
"""Tries how a running gateway treats its connections: idle, busy, slow, broken and too many ones.

    hub_trials.py [--command COMMAND] [--seconds SECONDS] [--threads N] [TRIAL..]

Without names all trials are run, in some three minutes; SECONDS, 60 by default, is how long a client sends without a pause. With N each gateway has so many
threads, but for one of fewer sessions. Each trial starts a gateway from Binary to Binary, as

    crates/thrift_gate/out/thrift_gate serve binary binary LISTEN TARGET --accept C --sessions N --limit 1024

and an upstream that answers each call by its own bytes. THRIFT_GATE names another build of it, COMMAND another
program, with {listen}, {target}, {accept} and {sessions} in it. After each trial the greatest resident memory of the
gateway has to lie within what docs/SERVE.md states for its sessions and sockets, and 16 MB. The status is 0 where every trial went well.
`system_calls` is skipped where there is no strace.
"""
import argparse
import contextlib
import os
import random
import re
import resource
import shutil
import socket
import struct
import sys
import tempfile
import threading
import time
from typing import Callable, Dict, Iterator, List

import trials
from trials import COMMAND, HOST, Failed, Gateway, answers, are_usage, ask, call, calls, free_port, gets, read_bytes, read_to_end, timed, want

MOST_FILES = 8192


@contextlib.contextmanager
def gateway(*serve: Callable[[socket.socket], None], **kept) -> Iterator[Gateway]:
    with trials.gateway(*serve, **{"command": options.command, **kept}) as gate:
        yield gate


def come_in(gate: Gateway) -> None:
    """Connects until a connection is served: one that comes while descriptors are few is closed."""
    until = time.monotonic() + options.seconds
    while True:
        try:
            return ask(gate.connect(), calls(0, 10))
        except (Failed, OSError):
            want(time.monotonic() < until, "none came in")
            time.sleep(0.1)


def half_close() -> str:
    """A client that ends its sending side gets what is due to it, and then the end."""
    with gateway(accept=2) as gate:
        for count in (1, 5000):
            stream, sent = gate.connect(), calls(0, count)
            threading.Thread(target=lambda: (stream.sendall(sent), stream.shutdown(socket.SHUT_WR)), daemon=True).start()
            want(read_to_end(stream) == answers(sent), "other answers")
            stream.close()
        want([line.endswith("clean") for line in gate.ended()[:2]] == [True, True], "no clean ends")
    return "every answer came, then the end"


def idle_connections() -> str:
    """A thousand idle connections cost nothing, and slow no busy one."""
    with gateway(sessions=1024) as gate:
        busy, sent = gate.connect(), calls(0, 20000)
        alone = timed(lambda: ask(busy, sent))
        idle = [gate.connect() for _ in range(1000)]
        time.sleep(1)
        before = gate.seconds()
        time.sleep(2)
        spent = gate.seconds() - before
        want(spent < 0.05, "%.2f s of processor time in 2 s" % spent)
        crowd = timed(lambda: ask(busy, sent))
        for stream in idle[::100]:
            ask(stream, call(7))
    return "20,000 calls took %.2f s alone and %.2f s with 1,000 idle connections, which used %.2f s in 2 s" % (alone, crowd, spent)


def resets() -> str:
    """A peer that resets its connection ends its own session alone."""
    with gateway() as gate:
        first, second = gate.connect(), gate.connect()
        first.sendall(calls(0, 2000))
        first.setsockopt(socket.SOL_SOCKET, socket.SO_LINGER, struct.pack("ii", 1, 0))
        first.close()
        ask(second, calls(0, 1000))
        want(gate.runs(), "it ended")
        line = gate.wait_for_line("session 0: link fault: client")
    return "the other session went on; `%s`" % line


def stop_inside() -> str:
    """A client that ends inside a frame gets the answers before it; one that stops there is waited for at no cost."""
    with gateway() as gate:
        cut, silent, other = gate.connect(), gate.connect(), gate.connect()
        cut.sendall(calls(0, 2) + call(2)[:9])
        cut.shutdown(socket.SHUT_WR)
        silent.sendall(call(0)[:9])
        want(read_to_end(cut) == answers(calls(0, 2)), "other answers")
        line = gate.wait_for_line("session 0: client fault: frame 3: ended inside")
        ask(other, calls(0, 1000))
        silent.sendall(call(0)[9:])
        want(read_bytes(silent, len(call(0))) == answers(call(0)), "other answers")
    return "`%s`; the one that stopped went on later" % line


def random_bytes() -> str:
    """A client of random bytes or of random messages in good frames is told so, and hurts no other."""
    source, count = random.Random(1), 300
    with gateway() as gate:
        other = gate.connect()
        ask(other, call(1))
        for number in range(count):
            sent = source.randbytes(source.randrange(1, 3000))
            if number % 2:
                sent = struct.pack(">I", len(sent) % 1024) + sent[:len(sent) % 1024]
            with gate.connect() as stream, contextlib.suppress(OSError):
                stream.sendall(sent)
                stream.shutdown(socket.SHUT_WR)
                read_to_end(stream)
            if number % 50 == 0:
                ask(other, calls(number, 100))
        ask(other, calls(0, 100))
        lines = gate.wait_for_lines(count - 1)
        good = re.compile(r"session \d+: (client fault: frame \d+: (length -?\d+|at \d+: G\d+ [\w ]+|wrong way|ended inside)|link fault: client)")
        odd = [line for line in lines if not good.fullmatch(line)]
        want(not odd, "such lines: %s" % odd[:3])
        want(len(lines) >= count - 1, "%d lines for %d clients" % (len(lines), count))
    return "%d clients, each with its fault: `%s`" % (count, lines[0])


def never_reads() -> str:
    """A client that sends and never reads costs nothing, and ends alone."""
    with gateway() as gate:
        silent, other = gate.connect(), gate.connect()

        def send() -> None:
            with contextlib.suppress(OSError):
                for _ in range(1000):
                    silent.sendall(calls(0, 10000))

        threading.Thread(target=send, daemon=True).start()
        time.sleep(3)
        before = gate.seconds()
        rates = [timed(lambda: ask(other, calls(0, 1000))) for _ in range(5)]
        spent = gate.seconds() - before
        want(max(rates) < 1, "a thousand calls beside it took %.2f s" % max(rates))
        silent.setsockopt(socket.SOL_SOCKET, socket.SO_LINGER, struct.pack("ii", 1, 0))
        silent.shutdown(socket.SHUT_RDWR)
        silent.close()
        line = gate.wait_for_line(r"session 0: (link fault: client|client fault: frame \d+: ended inside)")
        ask(other, calls(0, 1000))
    return "5,000 calls beside it took %.2f s (%.2f s of processor time); `%s`" % (sum(rates), spent, line)


def byte_a_second() -> str:
    """A client that reads one byte a second is waited for at no cost, and gets its bytes in order."""
    with gateway() as gate:
        slow, other, sent, got = gate.connect(), gate.connect(), calls(0, 100000), b""
        slow.setsockopt(socket.SOL_SOCKET, socket.SO_RCVBUF, 4096)

        def send() -> None:
            with contextlib.suppress(OSError):
                slow.sendall(sent)

        threading.Thread(target=send, daemon=True).start()
        time.sleep(1)
        before = gate.seconds()
        for number in range(8):
            got += read_bytes(slow, 1)
            ask(other, calls(number, 200))
            time.sleep(1)
        spent = gate.seconds() - before
        want(got == answers(sent)[:8], "other bytes")
        want(spent < 0.4, "%.2f s of processor time in 8 s" % spent)
        want(gate.runs(), "it ended")
    return "8 bytes came in 8 seconds, with %.2f s of processor time and 1,600 calls beside them" % spent


def million_calls() -> str:
    """A client that sends a million calls before it reads gets every answer, in order, and memory stays as it was."""
    count = 1_000_000
    with gateway() as gate:
        many, other, sent = gate.connect(60), gate.connect(), calls(0, count)
        sender = threading.Thread(target=many.sendall, args=(sent,), daemon=True)
        sender.start()
        time.sleep(3)
        held = gate.peak()
        beside = timed(lambda: ask(other, calls(0, 1000)))
        want(beside < 1, "a thousand calls beside it took %.2f s" % beside)
        took = timed(lambda: want(read_bytes(many, len(sent)) == answers(sent), "other answers"))
        sender.join()
        many.shutdown(socket.SHUT_WR)
        want(read_to_end(many) == b"", "more bytes came")
        line = gate.wait_for_line("session 0: clean")
        want(gate.peak() - held < 1 << 20, "memory grew")
    return "all answers came within %.1f s of the first read, at %.1f MB of memory; `%s`" % (took, held / 1e6, line)


def slow_reader() -> str:
    """A client that doesn't read is waited for at no cost, and gets everything."""
    with gateway() as gate:
        slow, other, sent = gate.connect(), gate.connect(), calls(0, 10000, 400)
        sender = threading.Thread(target=slow.sendall, args=(sent,), daemon=True)
        sender.start()
        time.sleep(1)
        before = gate.seconds()
        ask(other, calls(0, 100))
        time.sleep(1)
        spent = gate.seconds() - before
        want(read_bytes(slow, len(sent)) == answers(sent), "other answers")
        want(spent < 0.1, "%.2f s of processor time while it waited" % spent)
    return "everything came; %.2f s of processor time in the second that it waited" % spent


def refused_upstream() -> str:
    """An upstream that refuses the connection is a link fault."""
    with gateway(target="%s:%d" % (HOST, free_port()), accept=2) as gate:
        for _ in range(2):
            with gate.connect() as stream:
                want(read_to_end(stream) == b"", "bytes came")
        want(["link fault" in line for line in gate.ended()[:2]] == [True, True], "other lines")
    return "both clients saw the end"


def without_pause() -> str:
    """A client that sends without a pause, for a minute, holds up no other."""
    with gateway() as gate:
        busy, other, waits = gate.connect(), gate.connect(), []
        block, goes_on = calls(0, 1000), [True]

        def send() -> None:
            with contextlib.suppress(OSError):
                while goes_on[0]:
                    busy.sendall(block)

        def receive() -> None:
            with contextlib.suppress(OSError):
                while busy.recv(1 << 20):
                    pass

        for work in (send, receive):
            threading.Thread(target=work, daemon=True).start()
        end = time.time() + options.seconds
        while time.time() < end:
            waits.append(timed(lambda: ask(other, call(1))))
            time.sleep(0.001)
        goes_on[0] = False
        waits.sort()
        want(waits[-1] < 1, "a call took %.2f s" % waits[-1])
    return "%d calls beside it: %.1f ms in the middle, %.1f ms at most" % (len(waits), waits[len(waits) // 2] * 1e3, waits[-1] * 1e3)


def few_descriptors() -> str:
    """A lack of descriptors ends nothing: connections wait, and are served later."""
    # Several threads may accept more connections at once than there are descriptors left for their upstreams.
    fewest = 5 if options.threads == 1 else -1
    with gateway(sessions=100, files=22 + 2 * options.threads) as gate:
        streams, served = [gate.connect(1) for _ in range(20)], []
        for stream in streams:
            with contextlib.suppress(OSError, Failed):
                ask(stream, call(1))
                served.append(stream)
        want(gate.runs() and len(served) > fewest, "%d were served" % len(served))
        for stream in served:
            stream.close()
        later = 0
        for stream in streams:
            if stream not in served:
                with contextlib.suppress(OSError, Failed):
                    stream.settimeout(3)
                    later += read_bytes(stream, len(call(1))) == answers(call(1))
        want(gate.runs() and later > fewest, "%d more were served" % later)
        for stream in streams:
            stream.close()
        come_in(gate)
    return "%d of 20 were served at once, %d more when these had left" % (len(served), later)


def no_connection_left() -> str:
    """A client that opens connections until none is left holds up no session that is open."""
    files = 98 + 2 * options.threads
    with gateway(sessions=1024, files=files) as gate:
        other = gate.connect()
        ask(other, call(1))
        crowd, refused = [], 0
        while len(crowd) < 3000 and refused < 3:
            try:
                crowd.append(gate.connect(1))
            except OSError:
                refused += 1
        before = gate.seconds()
        beside = timed(lambda: ask(other, calls(0, 1000)))
        time.sleep(1)
        spent = gate.seconds() - before
        want(beside < 1, "a thousand calls beside them took %.2f s" % beside)
        want(spent < 0.5, "%.2f s of processor time in a second" % spent)
        for stream in crowd:
            stream.close()
        waited = timed(lambda: come_in(gate))
        ask(other, calls(0, 10))
        want(gate.runs(), "it ended")
    return "%d connections stood before %d descriptors; 1,000 calls beside them took %.2f s, and one came in %.1f s after they had left" % (
        len(crowd), files, beside, waited)


def too_many() -> str:
    """A connection beyond the sessions is closed at once, and a place that is free again is given away."""
    with gateway(sessions=2 * options.threads) as gate:
        streams = [gate.connect() for _ in range(2 * options.threads)]
        for stream in streams:
            ask(stream, call(1))
        for _ in range(100):
            with gate.connect() as stream:
                want(read_to_end(stream) == b"", "bytes came")
        held = [gate.connect() for _ in range(20)]
        for stream in held:
            want(read_to_end(stream) == b"", "bytes came")
        streams[0].shutdown(socket.SHUT_WR)
        want(read_to_end(streams[0]) == b"", "bytes came")
        come_in(gate)
        turned_away = [line for line in gate.lines() if line.endswith(": full")]
        want(len(turned_away) >= 120 and (options.threads > 1 or len(turned_away) == 120), "%d were told `full`" % len(turned_away))
    return "120 were turned away, and one came in when another had left"


def end_behind_all() -> str:
    """A client that goes on sending after its session ended still gets all that was sent to it."""
    sent = calls(0, 500, 800)
    large = answers(sent)

    def serve(stream: socket.socket) -> None:
        read_bytes(stream, len(sent))
        stream.sendall(large)
        stream.shutdown(socket.SHUT_WR)
        read_to_end(stream)

    with gateway(serve) as gate:
        stream, goes_on = gate.connect(), [True]

        def send() -> None:
            with contextlib.suppress(OSError):
                stream.sendall(sent)
                while goes_on[0]:
                    stream.sendall(call(9))
                    time.sleep(0.001)

        threading.Thread(target=send, daemon=True).start()
        time.sleep(0.5)
        got = bytearray()
        while True:
            piece = stream.recv(20000)
            if not piece:
                break
            got += piece
            time.sleep(0.005)
        goes_on[0] = False
        want(bytes(got) == large, "%d of %d bytes came" % (len(got), len(large)))
    return "all %d bytes came" % len(large)


def stops() -> str:
    """After as many connections as it may accept it refuses more, and ends with the last session."""
    with gateway(accept=3) as gate:
        streams = [gate.connect() for _ in range(3)]
        for stream in streams:
            ask(stream, call(1))
        time.sleep(0.2)
        try:
            gate.connect().close()
            raise Failed("a fourth connection was accepted")
        except ConnectionRefusedError:
            pass
        for stream in streams:
            stream.shutdown(socket.SHUT_WR)
            want(read_to_end(stream) == b"", "bytes came")
            stream.close()
        gate.ended()
    return "a fourth was refused, and it ended"


def closed_streams() -> str:
    """Where its standard streams are closed no socket takes their place: a line can't be written, and the server ends."""
    with gateway(accept=2, is_closed=True) as gate:
        stream, other = gate.connect(), gate.connect()
        held = [os.readlink("/proc/%d/fd/%d" % (gate.process.pid, number)) for number in range(3)]
        want(held == ["/"] * 3, "their place has %s" % held)
        ask(other, calls(0, 10))
        ask(stream, calls(0, 10))
        stream.shutdown(socket.SHUT_WR)
        want(read_to_end(stream) + read_to_end(other) == b"", "bytes came")
        status = gate.process.wait(20)
        want(status == 5, "its status is %s" % status)
    return "a folder has their place, no peer got a line, and it ended with status 5"


def all_answer(streams: List[socket.socket]) -> None:
    for stream in streams:
        ask(stream, call(1))


def even_spread() -> str:
    """A thousand connections within a second are spread over all threads, also when half of them have left and others came: the fullest
    has at most a fifth more than the mean."""
    count, source, fullest = 1000, random.Random(4), []
    with gateway(sessions=1024) as gate:
        before, streams = gate.watched(), []

        def sessions_of_threads() -> List[int]:
            """A session has two sockets."""
            return [(now - then) // 2 for then, now in zip(before, gate.watched())]

        def see() -> None:
            all_answer(streams)
            until = time.monotonic() + 10
            while sum(sessions_of_threads()) != count and time.monotonic() < until:
                time.sleep(0.1)
            sessions = sessions_of_threads()
            want((len(sessions), sum(sessions)) == (gate.threads, count), "the threads have %s sessions" % sessions)
            want(max(sessions) <= 1.2 * count / gate.threads, "the threads have %s sessions" % sessions)
            fullest.append(max(sessions))

        took = timed(lambda: streams.extend(gate.connect() for _ in range(count)))
        see()
        for stream in source.sample(streams, count // 2):
            streams.remove(stream)
            stream.close()
        gate.wait_for_lines(count // 2)
        streams.extend(gate.connect() for _ in range(count // 2))
        see()
    return "%d connections in %.2f s over %d threads: %d on the fullest, %d when half were others" % (count, took, gate.threads, *fullest)


def totals() -> str:
    """`--accept` counts the connections of all threads; each has a whole line, and a number of its own."""
    count, clients = 2000, 8
    with gateway(accept=count, sessions=64) as gate:

        def come_and_go() -> None:
            for number in range(count // clients):
                want(gets(gate.connect, [call(number)]) == answers(call(number)), "other answers")

        callers = [threading.Thread(target=come_and_go, daemon=True) for _ in range(clients)]
        for caller in callers:
            caller.start()
        for caller in callers:
            caller.join()
        lines = gate.ended()
        want(sorted(lines) == sorted("session %d: clean" % number for number in range(count)), "%d lines, such ones: %s" % (len(lines), lines[:3]))
    return "%d connections of %d clients at a time, and it ended with status 0" % (count, clients)


def one_ends() -> str:
    """Where one thread has spent its budget, the others end too: each open session is told `left open` once, and the status is that thread's."""
    count = 4 * options.threads
    with gateway(sessions=count, command=options.command + " --events 1000") as gate:
        streams = [gate.connect() for _ in range(count)]
        all_answer(streams)
        with contextlib.suppress(OSError):
            while streams[0].send(call(1)) and read_bytes(streams[0], len(call(1))):
                pass
        for stream in streams[1:]:
            with contextlib.suppress(ConnectionError):
                want(read_to_end(stream) == b"", "bytes came")
        lines = gate.ended(8)
        want(sorted(lines) == sorted("session %d: left open" % number for number in range(count)), "such lines: %s" % lines)
        want(gate.reported() == ["budget spent"], "such a report: %s" % gate.reported())
    return "%d sessions were left open, and it ended with status 8" % count


def broken_output() -> str:
    """Where nobody reads its lines any more, all threads end with the first line that can't be written."""
    count = 4 * options.threads
    source, sink = os.pipe()
    with gateway(sessions=count, output=sink) as gate:
        os.close(sink)
        streams = [gate.connect() for _ in range(count)]
        all_answer(streams)
        os.close(source)
        streams[0].shutdown(socket.SHUT_WR)
        for stream in streams:
            with contextlib.suppress(ConnectionError):
                want(read_to_end(stream) == b"", "bytes came")
        gate.ended(5)
        want(gate.reported() == [], "such a report: %s" % gate.reported())
    return "%d sessions ended with it, and its status is 5" % count


THREAD_WORDS = ["--threads", "--threads 0", "--threads 65 --sessions 100", "--threads 33", "--threads 5 --sessions 4", "--sessions 4 --threads 5",
                "--threads 02", "--threads +2", "--threads=2", "--threads 2 --threads 2", "--threads two"]


def thread_words() -> str:
    """Other numbers than 1 to 64, or more threads than sessions, are a usage error, and so are threads of a command that has none."""
    listen = "%s:%d" % (HOST, free_port())
    commands = [["serve", "binary", "compact", listen, HOST + ":1", *words.split()] for words in THREAD_WORDS]
    commands += [["route", "binary", "compact", listen, "A=%s:1" % HOST, *words.split()] for words in THREAD_WORDS]
    return are_usage(commands + [["convert", "binary", "compact", "--threads", "2"], ["show", "binary", "--threads", "2"]])


def system_calls() -> str:
    """Many small messages share their system calls."""
    if shutil.which("strace") is None:
        return "skipped: there is no strace"
    with tempfile.NamedTemporaryFile("r") as table:
        before = ["strace", "-f", "-c", "-o", table.name]
        with gateway(accept=1, before=before) as gate:
            stream, sent = gate.connect(), calls(0, 20000)
            threading.Thread(target=lambda: (stream.sendall(sent), stream.shutdown(socket.SHUT_WR)), daemon=True).start()
            want(read_to_end(stream) == answers(sent), "other answers")
            stream.close()
            gate.ended()
        counts = {line.split()[-1]: int(line.split()[3]) for line in table if len(line.split()) >= 5 and line.split()[3].isdigit()}
    moved = counts.get("sendto", 0) + counts.get("recvfrom", 0)
    want(0 < moved < 2000, "%d reads and writes" % moved)
    return "20,000 calls and their answers: %d reads, %d writes, %d waits" % (
        counts.get("recvfrom", 0), counts.get("sendto", 0), counts.get("epoll_wait", 0))


TRIALS: Dict[str, Callable[[], str]] = {trial.__name__: trial for trial in (
    half_close, idle_connections, resets, stop_inside, random_bytes, never_reads, byte_a_second, million_calls, slow_reader,
    refused_upstream, without_pause, few_descriptors, no_connection_left, too_many, end_behind_all, stops,
    even_spread, totals, one_ends, broken_output, thread_words, closed_streams, system_calls)}


def main() -> int:
    most = resource.getrlimit(resource.RLIMIT_NOFILE)[1]
    resource.setrlimit(resource.RLIMIT_NOFILE, (min(MOST_FILES, most), most))
    return trials.run(TRIALS, options.trials, options.threads)


parser = argparse.ArgumentParser(description=__doc__, formatter_class=argparse.RawDescriptionHelpFormatter)
parser.add_argument("--command", default=COMMAND)
parser.add_argument("--seconds", type=float, default=60)
trials.add_threads(parser)
parser.add_argument("trials", nargs="*", choices=[[], *TRIALS], metavar="TRIAL")
options = parser.parse_args() if __name__ == "__main__" else parser.parse_args([])
if __name__ == "__main__":
    sys.exit(main())
