#!/usr/bin/env python3
"""A client of notes.thrift by Apache Thrift's own Python library.

    apache_client.py binary|compact|json A.B.C.D:PORT [framed|buffered]

Its messages stand in frames, or follow one another without lengths. It makes some calls one by one and some without waiting, and sees that every answer is right and
in its place. It writes `ok` then, and its status is 0.
"""
import sys

from apache_notes import ARGUMENTS, FACTORIES, TRANSPORTS, TMessageType, TSocket, read_answer, words, write_message

# Method, arguments, result. None: no answer comes.
CALLS = [
    ("join", {1: ["one", "two", "three"], 2: ", "}, "one, two, three"),
    ("forget", {1: "two"}, None),
    ("count", {1: ["a", "b", "a"]}, {"a": 2, "b": 1}),
    ("turn", {1: b"\x00\xff\x80abc"}, b"cba\x80\xff\x00"),
    ("join", {1: ["\u00e9", "\u20ac", "\U0001f600"], 2: "/"}, "\u00e9/\u20ac/\U0001f600"),
    ("count", {1: []}, {}),
]


def main() -> int:
    protocol, target, form = words(sys.argv, __doc__)
    transport = TRANSPORTS[form]().getTransport(TSocket.TSocket(*target))
    link = FACTORIES[protocol]().getProtocol(transport)
    transport.open()

    def send(number: int) -> None:
        name, arguments, result = CALLS[number % len(CALLS)]
        kind = TMessageType.ONEWAY if result is None else TMessageType.CALL
        write_message(link, name, kind, number, ARGUMENTS[name], arguments)

    def receive(number: int) -> None:
        name, _, result = CALLS[number % len(CALLS)]
        if result is not None:
            got = read_answer(link, name)
            if got != (number, result):
                sys.exit("call %d: %r in place of %r" % (number, got, (number, result)))

    for number in range(len(CALLS)):
        send(number)
        receive(number)
    for number in range(10 * len(CALLS)):
        send(number)
    for number in range(10 * len(CALLS)):
        receive(number)
    transport.close()
    sys.stdout.write("ok\n")
    return 0


if __name__ == "__main__":
    sys.exit(main())
