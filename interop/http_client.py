#!/usr/bin/env python3
"""A client of notes.thrift by the HTTP client of Apache Thrift's own Python library.

    http_client.py binary|compact|json A.B.C.D:PORT

Each call is a POST on a connection of its own. It makes some calls, oneways among them, and sees that every answer is right. It writes `ok` then, and its status is 0.
"""
import sys

from apache_client import CALLS
from apache_notes import ARGUMENTS, FACTORIES, TMessageType, read_answer, words, write_message
from thrift.transport.THttpClient import THttpClient


def main() -> int:
    protocol, target, _ = words(sys.argv, __doc__)
    transport = THttpClient("http://%s:%d/notes" % target)
    link = FACTORIES[protocol]().getProtocol(transport)
    for number in range(10 * len(CALLS)):
        name, arguments, result = CALLS[number % len(CALLS)]
        kind = TMessageType.ONEWAY if result is None else TMessageType.CALL
        write_message(link, name, kind, number, ARGUMENTS[name], arguments)
        if result is not None:
            got = read_answer(link, name)
            if got != (number, result):
                sys.exit("call %d: %r in place of %r" % (number, got, (number, result)))
    transport.close()
    print("ok")
    return 0


if __name__ == "__main__":
    sys.exit(main())
