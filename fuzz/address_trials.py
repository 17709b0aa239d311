#!/usr/bin/env python3
"""Tries the addresses of a running gateway: those of IPv6, and names, known and unknown.

    address_trials.py [--threads N] [TRIAL..]

Without names all trials are run, in some seconds. With N each gateway has so many threads. Each starts

    crates/thrift_gate/out/thrift_gate serve binary binary LISTEN TARGET --accept 1

or a router, and sees that calls come through, or that the program ends with the status and the lines that docs/SERVE.md states.
THRIFT_GATE names another build of the program. `hosts_file` puts a file of its own in the place of /etc/hosts, for the gateway
alone: it needs `unshare` and leave to mount. The status is 0 where every trial went well.
"""
import contextlib
import os
import socket
import subprocess
import sys
import tempfile
import threading
import time
from typing import Callable, Dict, Iterator, List, Optional

import trials
from trials import PROGRAM, Failed, answering, are_usage, calls, want

# No label of a name has over 63 letters, so the system knows this one without asking anyone.
UNKNOWN = "a" * 64


class Listener:
    """An upstream at a free port of this address."""

    def __init__(self, host: str) -> None:
        family = socket.AF_INET6 if ":" in host else socket.AF_INET
        self.listener = socket.create_server((host, 0), family=family)
        self.port = self.listener.getsockname()[1]
        threading.Thread(target=self.accept, daemon=True).start()

    def accept(self) -> None:
        while True:
            stream, _ = self.listener.accept()
            threading.Thread(target=self.run, args=(stream,), daemon=True).start()

    def run(self, stream: socket.socket) -> None:
        with contextlib.suppress(OSError), stream:
            answering(stream)


def free_port(host: str) -> int:
    with socket.create_server((host, 0), family=socket.AF_INET6 if ":" in host else socket.AF_INET) as listener:
        return listener.getsockname()[1]


def connect(host: str, port: int) -> socket.socket:
    """Connects once the gateway listens."""
    for _ in range(500):
        with contextlib.suppress(OSError):
            return socket.create_connection((host, port), timeout=20)
        time.sleep(0.02)
    raise Failed("the gateway doesn't listen at %s, port %d" % (host, port))


@contextlib.contextmanager
def running(words: List[str], before: Optional[List[str]] = None) -> Iterator[subprocess.Popen]:
    process = subprocess.Popen((before or []) + PROGRAM.split() + words, stdout=subprocess.PIPE, stderr=subprocess.PIPE, text=True)
    try:
        yield process
    finally:
        process.kill()
        process.wait()


def carries(listen: str, host: str, target: str, before: Optional[List[str]] = None) -> None:
    """A gateway at LISTEN, which has the place of a port in it, carries a hundred calls to TARGET."""
    port = free_port(host)
    with running(["serve", "binary", "binary", listen % port, target, "--accept", "1"] + trials.thread_words(), before) as gate:
        with connect(host, port) as stream:
            trials.ask(stream, calls(0, 100))
        said, told = gate.communicate(timeout=20)
    want((gate.returncode, said, told) == (0, "session 0: clean\n", ""), "status %d, %r, %r" % (gate.returncode, said, told))


def ends(words: List[str]) -> "tuple[int, str]":
    done = subprocess.run(PROGRAM.split() + words, capture_output=True, text=True, timeout=60)
    want(done.stdout == "", "%r said %r" % (words, done.stdout))
    return done.returncode, done.stderr


def ipv6() -> str:
    """A gateway listens at addresses of IPv6 and connects to them, in each form."""
    upstream, forms = Listener("::1"), ["[::1]", "[0:0:0:0:0:0:0:1]", "[0000::0001]", "[::0.0.0.1]"]
    for form in forms:
        carries(form + ":%d", "::1", "[::1]:%d" % upstream.port)
        carries("127.0.0.1:%d", "127.0.0.1", "%s:%d" % (form, upstream.port))
    return ", ".join(forms)


def both_families() -> str:
    """Clients of IPv4 reach a gateway that listens at all addresses of IPv6, and it an upstream of IPv4 by a mapped address."""
    carries("[::]:%d", "127.0.0.1", "[::ffff:127.0.0.1]:%d" % Listener("127.0.0.1").port)
    return "[::] and [::ffff:127.0.0.1]"


def known_name() -> str:
    """A target is the first address that the system gives for its name."""
    first = socket.getaddrinfo("localhost", 0, type=socket.SOCK_STREAM)[0][4][0]
    carries("127.0.0.1:%d", "127.0.0.1", "localhost:%d" % Listener(first).port)
    return "localhost is %s" % first


def hosts_file() -> str:
    """Names that stand in /etc/hosts are found, with `-`, `_`, digits and dots, and by each target of a router."""
    names = ["orders", "orders-2", "some_orders", "7orders", "orders.shop.example"]
    with tempfile.NamedTemporaryFile("w", suffix=".hosts") as hosts:
        hosts.write("127.0.0.1 localhost\n127.0.0.3 %s\n" % " ".join(names))
        hosts.flush()
        os.chmod(hosts.name, 0o644)
        before = ["unshare", "--mount", "sh", "-c", 'mount --bind "$0" /etc/hosts && exec "$@"', hosts.name]
        if subprocess.run(before + ["true"], capture_output=True, check=False).returncode != 0:
            return "not run: no leave to mount"
        upstream = Listener("127.0.0.3")
        for name in names:
            carries("127.0.0.1:%d", "127.0.0.1", "%s:%d" % (name, upstream.port), before)
    return ", ".join(names)


def unknown_names() -> str:
    """The first name that nobody knows is told, and nothing listens."""
    port, good = free_port("127.0.0.1"), "127.0.0.1:9"
    listen, lines = "127.0.0.1:%d" % port, "target not found: %s\nhub fault\n"
    longest = ".".join(["b" * 63] * 3 + ["c" * 61])
    commands = {
        "%s:9" % UNKNOWN: UNKNOWN,
        "%s:9" % longest: longest,
        "no.such.host.invalid:9": "no.such.host.invalid",
    }
    for target, name in commands.items():
        found = ends(["serve", "binary", "compact", listen, target])
        want(found == (7, lines % name), "%s: %r" % (target, found))
    found = ends(["route", "binary", "compact", listen, "A=%s,B=%s.x:9,C=%s:9" % (good, UNKNOWN, UNKNOWN)])
    want(found == (7, lines % (UNKNOWN + ".x")), "of several: %r" % (found,))
    with contextlib.suppress(ConnectionRefusedError):
        socket.create_connection(("127.0.0.1", port)).close()
        raise Failed("it listened")
    return "%d commands" % (len(commands) + 1)


NO_LISTENERS = ["localhost:1", "orders:1", "[::1]", "::1:1", "[::1]:0", "[::1]:65536", "[::1]:01", "[::1%lo]:1", "[::1]1", "[::1]::1", "[]:1", "[127.0.0.1]:1", "[::12345]:1", "[1:2:3:4:5:6:7]:1"]
NO_TARGETS = NO_LISTENERS[2:] + [
    "orders", "orders:", "orders:0", "orders:01", ":1", "or ders:1", "orders/:1", "ord\u00e9rs:1", "orders:1:1", "10.0.0:1", "1.2.3.4.5:1", "256.0.0.1:1", "orders.7:1", "7:1", "a" * 254 + ":1",
]


def usage() -> str:
    """Words that are no addresses are a usage error, and so is a name where the gateway is to listen."""
    commands = [["serve", "binary", "compact", word, "127.0.0.1:9"] for word in NO_LISTENERS]
    commands += [["route", "binary", "compact", word, "A=127.0.0.1:9"] for word in NO_LISTENERS]
    commands += [["serve", "binary", "compact", "127.0.0.1:1", word] for word in NO_TARGETS]
    commands += [["route", "binary", "compact", "127.0.0.1:1", "A=" + word] for word in NO_TARGETS]
    return are_usage(commands)


TRIALS: Dict[str, Callable[[], str]] = {trial.__name__: trial for trial in (
    ipv6, both_families, known_name, hosts_file, unknown_names, usage)}


if __name__ == "__main__":
    sys.exit(trials.main(__doc__, TRIALS))
