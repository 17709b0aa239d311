"""What the trials of a running gateway share: the gateway, an upstream, calls and their answers, and how trials are run and told."""
import argparse
import contextlib
import os
import re
import resource
import socket
import struct
import subprocess
import tempfile
import threading
import time
from typing import Callable, Dict, Iterator, List, Optional

HERE = os.path.dirname(os.path.abspath(__file__))
PROGRAM = os.environ.get("THRIFT_GATE", os.path.join(HERE, "../crates/thrift_gate/out/thrift_gate"))
LIMIT = 1024
COMMAND = PROGRAM + " serve binary binary {listen} {target} --accept {accept} --sessions {sessions} --limit %d" % LIMIT
HOST = "127.0.0.1"

# The most bytes that a session holds at this limit and 1,024 open calls, and the buffers of its sockets where
# there may be up to 64 sessions, and where there may be more.
SESSION = 52 * LIMIT + 16 * 1024 + 4096
FEW_SESSIONS = 64
DEFAULT_SESSIONS = 32
SOCKETS_OF_FEW, SOCKETS_OF_MANY = 1_048_576, 262_144
REST = 16 << 20


class Settings:
    """What the words of a script say of all its trials: how many threads each gateway has, but for those that have fewer sessions."""

    threads = 1


class Failed(Exception):
    """What a trial saw in place of what it wanted."""


def want(is_so: bool, text: str) -> None:
    if not is_so:
        raise Failed(text)


def call(number: int, size: int = 16) -> bytes:
    """A framed call in Binary, `t`, whose one argument is a string of so many bytes."""
    body = b"\x0b\x00\x01" + struct.pack(">I", size) + b"a" * size + b"\x00"
    message = b"\x80\x01\x00\x01" + struct.pack(">I", 1) + b"t" + struct.pack(">I", number) + body
    return struct.pack(">I", len(message)) + message


def answers(calls: bytes) -> bytes:
    """What the upstream sends for these calls: the same messages as replies."""
    return calls.replace(b"\x80\x01\x00\x01", b"\x80\x01\x00\x02")


def calls(first: int, count: int, size: int = 16) -> bytes:
    return b"".join(call(number, size) for number in range(first, first + count))


def exception(number: int, text: bytes) -> bytes:
    """The answer to a refused call `t`, without its length."""
    body = b"\x0b\x00\x01" + struct.pack(">I", len(text)) + text + b"\x08\x00\x02\x00\x00\x00\x07\x00"
    return b"\x80\x01\x00\x03" + struct.pack(">I", 1) + b"t" + struct.pack(">I", number) + body


class Upstream:
    """A server on threads of its own."""

    def __init__(self, serve: Callable[[socket.socket], None]) -> None:
        self.listener = socket.create_server((HOST, 0), backlog=2048)
        self.address = "%s:%d" % self.listener.getsockname()
        self.serve = serve
        threading.Thread(target=self.accept, daemon=True).start()

    def accept(self) -> None:
        while True:
            with contextlib.suppress(OSError):
                stream, _ = self.listener.accept()
                threading.Thread(target=self.run, args=(stream,), daemon=True).start()

    def run(self, stream: socket.socket) -> None:
        with contextlib.suppress(OSError), stream:
            self.serve(stream)


def answering(stream: socket.socket, received: Optional[bytearray] = None) -> None:
    """Answers each call, notes what came, and ends when the gateway does."""
    held = b""
    while True:
        piece = stream.recv(65536)
        if not piece:
            return
        if received is not None:
            received += piece
        held += piece
        end = 0
        while len(held) - end >= 4 and len(held) - end - 4 >= int.from_bytes(held[end:end + 4], "big"):
            end += 4 + int.from_bytes(held[end:end + 4], "big")
        stream.sendall(answers(held[:end]))
        held = held[end:]


def parts(sessions: int, threads: int) -> List[int]:
    """How many of a gateway's sessions each of its threads serves."""
    return [sessions // threads + (number < sessions % threads) for number in range(threads)]


def socket_buffers(sessions: int, threads: int) -> int:
    """The bytes of the sockets' buffers. A thread has a place more than sessions."""
    return sum((part + 1) * (SOCKETS_OF_FEW if part <= FEW_SESSIONS else SOCKETS_OF_MANY) for part in parts(sessions, threads))


def thread_words(sessions: int = DEFAULT_SESSIONS) -> List[str]:
    """What a command says of its threads."""
    threads = min(Settings.threads, sessions)
    return ["--threads", str(threads)] if threads > 1 else []


def free_port() -> int:
    with socket.create_server((HOST, 0)) as listener:
        return listener.getsockname()[1]


class Gateway:
    """A gateway that runs. Its lines can be read once it has ended."""

    def __init__(self, target: str, accept: int = 0, sessions: int = DEFAULT_SESSIONS, files: Optional[int] = None,
                 before: Optional[List[str]] = None, is_closed: bool = False, command: str = COMMAND, output: Optional[int] = None) -> None:
        self.port = free_port()
        self.threads = min(Settings.threads, sessions)
        self.bound = sessions * SESSION + socket_buffers(sessions, self.threads) + REST
        self.is_traced = before is not None
        # They are opened anew to be read: where a process writes and where another reads is one place in a file that both share.
        self.output = tempfile.NamedTemporaryFile("a")
        self.report = tempfile.NamedTemporaryFile("a")
        listen = "%s:%d" % (HOST, self.port)
        words = command.format(listen=listen, target=target, accept=accept, sessions=sessions).split() + thread_words(sessions)

        def limit() -> None:
            if files is not None:
                resource.setrlimit(resource.RLIMIT_NOFILE, (files, files))
            if is_closed:
                os.closerange(0, 3)

        self.process = subprocess.Popen((before or []) + words, stdout=self.output if output is None else output, stderr=self.report, preexec_fn=limit)
        self.wait_for_port()

    def wait_for_port(self) -> None:
        """Waits until the gateway listens, without a connection that would count as one."""
        wanted = "%04X" % self.port
        for _ in range(500):
            with open("/proc/net/tcp", encoding="ascii") as table:
                if any(line.split()[1].endswith(":" + wanted) and line.split()[3] == "0A" for line in list(table)[1:]):
                    return
            if not self.runs():
                break
            time.sleep(0.02)
        self.stop()
        raise Failed("the gateway doesn't listen: %s" % self.reported())

    def connect(self, patience: float = 20) -> socket.socket:
        stream = socket.create_connection((HOST, self.port), timeout=patience)
        stream.setsockopt(socket.IPPROTO_TCP, socket.TCP_NODELAY, 1)
        return stream

    def seconds(self) -> float:
        """The processor time that it used."""
        with open("/proc/%d/stat" % self.process.pid, encoding="ascii") as stat:
            fields = stat.read().rpartition(")")[2].split()
        return (int(fields[11]) + int(fields[12])) / os.sysconf("SC_CLK_TCK")

    def watched(self) -> List[int]:
        """How many descriptors each thread waits for, by what the system tells of the epoll descriptor of each."""
        process = "/proc/%d" % self.process.pid
        polls = [name for name in sorted(os.listdir(process + "/fd"), key=int) if os.readlink("%s/fd/%s" % (process, name)) == "anon_inode:[eventpoll]"]
        counts = []
        for name in polls:
            with open("%s/fdinfo/%s" % (process, name), encoding="ascii") as information:
                counts.append(sum(line.startswith("tfd:") for line in information))
        return counts

    def runs(self) -> bool:
        return self.process.poll() is None

    def peak(self) -> int:
        """The greatest resident memory so far, in bytes: 0 once it has ended."""
        with contextlib.suppress(OSError), open("/proc/%d/status" % self.process.pid, encoding="ascii") as status:
            found = re.search(r"VmHWM:\s+(\d+)", status.read())
            return int(found.group(1)) * 1024 if found else 0
        return 0

    def wait_for_line(self, pattern: str, seconds: float = 10) -> str:
        """Waits for a session's line of this form."""
        end = time.time() + seconds
        while time.time() < end:
            for line in self.lines():
                if re.fullmatch(pattern, line):
                    return line
            time.sleep(0.02)
        raise Failed("no line %s in %s" % (pattern, self.lines()))

    def wait_for_lines(self, count: int, seconds: float = 10) -> List[str]:
        """Waits until so many lines were written. Those of several threads come in any order."""
        end = time.time() + seconds
        while time.time() < end and len(self.lines()) < count:
            time.sleep(0.02)
        return self.lines()

    def ended(self, status: int = 0) -> List[str]:
        """The lines of a gateway that ends by itself, with this status."""
        want(self.process.wait(20) == status, "its status is %s" % self.process.returncode)
        return self.lines()

    def lines(self) -> List[str]:
        with open(self.output.name) as output:
            return output.read().splitlines()

    def reported(self) -> List[str]:
        """The lines on standard error."""
        with open(self.report.name) as report:
            return report.read().splitlines()

    def stop(self) -> None:
        if self.runs():
            self.process.kill()
        self.process.wait()


@contextlib.contextmanager
def gateway(serve: Callable[[socket.socket], None] = answering, target: Optional[str] = None, **kept) -> Iterator[Gateway]:
    running = Gateway(target or Upstream(serve).address, **kept)
    try:
        yield running
        peak = 0 if running.is_traced else running.peak()
        want(peak <= running.bound, "%d bytes of memory, more than %d" % (peak, running.bound))
    finally:
        running.stop()


def exchange(stream: socket.socket, sent: bytes, wanted: bytes) -> None:
    """Sends this, and reads what is to be answered while it goes."""
    sender = threading.Thread(target=stream.sendall, args=(sent,), daemon=True)
    sender.start()
    got = read_bytes(stream, len(wanted))
    want(got == wanted, "it got %r" % got[:120])
    sender.join()


def gets(connect: Callable[[], socket.socket], sent: List[bytes], closes: bool = True) -> bytes:
    """What a new client gets for these pieces, until the end."""
    with connect() as stream:
        with contextlib.suppress(OSError):
            for piece in sent:
                stream.sendall(piece)
            if closes:
                stream.shutdown(socket.SHUT_WR)
        return read_to_end(stream)


def read_bytes(stream: socket.socket, count: int) -> bytes:
    got = bytearray()
    while len(got) < count:
        piece = stream.recv(min(65536, count - len(got)))
        if not piece:
            break
        got += piece
    return bytes(got)


def read_to_end(stream: socket.socket) -> bytes:
    got = bytearray()
    while True:
        piece = stream.recv(65536)
        if not piece:
            return bytes(got)
        got += piece


def ask(stream: socket.socket, sent: bytes) -> None:
    """Sends calls and reads their answers."""
    sender = threading.Thread(target=stream.sendall, args=(sent,), daemon=True)
    sender.start()
    want(read_bytes(stream, len(sent)) == answers(sent), "other answers")
    sender.join()


def timed(work: Callable[[], None]) -> float:
    start = time.time()
    work()
    return time.time() - start


def single(sent: bytes) -> List[bytes]:
    """Each byte alone."""
    return [sent[at:at + 1] for at in range(len(sent))]


def are_usage(commands: List[List[str]]) -> str:
    """Sees that each of these words is a usage error, and says how many there were."""
    for command in commands:
        done = subprocess.run(PROGRAM.split() + command, capture_output=True, text=True, timeout=10)
        want((done.returncode, done.stderr) == (2, "usage: thrift_gate check|convert|show|serve|drill|help\n"), "%r: status %d" % (command, done.returncode))
    return "%d commands" % len(commands)


def add_threads(parser: argparse.ArgumentParser) -> None:
    """An option of each script that has gateways."""
    parser.add_argument("--threads", type=int, default=1, metavar="N", help="how many threads each gateway has; without it one, and its words name none")


def run(trials: Dict[str, Callable[[], str]], names: List[str], threads: int = 1) -> int:
    """Runs these trials, or all, over gateways with so many threads, and prints a line for each. The answer is 0 where every one went well."""
    Settings.threads, faults = threads, 0
    for name in names or trials:
        try:
            print("ok     %s: %s" % (name, trials[name]()), flush=True)
        except (Failed, OSError, subprocess.TimeoutExpired) as fault:
            faults += 1
            print("FAILED %s: %s" % (name, fault), flush=True)
    return min(faults, 1)


def main(description: Optional[str], trials: Dict[str, Callable[[], str]]) -> int:
    """Runs the trials that the words of the command name, or all."""
    parser = argparse.ArgumentParser(description=description, formatter_class=argparse.RawDescriptionHelpFormatter)
    add_threads(parser)
    parser.add_argument("trials", nargs="*", choices=[[], *trials], metavar="TRIAL")
    options = parser.parse_args()
    return run(trials, options.trials, options.threads)
