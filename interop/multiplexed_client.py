#!/usr/bin/env python3
"""A client of the two services of two_notes.thrift by Apache Thrift's own Python library, over one connection.

    multiplexed_client.py binary|compact|json A.B.C.D:PORT

Its messages stand in frames, and TMultiplexedProtocol writes the service's name before each method's. It makes calls of both services one by one and many without waiting,
and sees that every answer comes from the right service and in its place: `join` of `Left` puts `left:` before its answer, that of `Right` `right:`. A call of a service that
nobody serves has to be answered by `V1 no route` in its place. It writes `ok` then, and its status is 0.
"""
import sys
from typing import Any, Dict

from apache_client import CALLS
from apache_notes import ARGUMENTS, FACTORIES, TApplicationException, TMessageType, TRANSPORTS, TSocket, read_answer, words, write_message
from thrift.protocol.TMultiplexedProtocol import TMultiplexedProtocol

SERVICES = ["Left", "Right"]
ROUNDS = 10


def result_of(service: str, name: str, result: Any) -> Any:
    """What the service's own server answers."""
    return service.lower() + ":" + result if name == "join" else result


def main() -> int:
    protocol, target, form = words(sys.argv, __doc__)
    transport = TRANSPORTS[form]().getTransport(TSocket.TSocket(*target))
    link = FACTORIES[protocol]().getProtocol(transport)
    writers: Dict[str, Any] = {name: TMultiplexedProtocol(link, name) for name in SERVICES + ["Nobody"]}
    transport.open()

    def send(number: int) -> None:
        name, arguments, result = CALLS[number // 2 % len(CALLS)]
        kind = TMessageType.ONEWAY if result is None else TMessageType.CALL
        write_message(writers[SERVICES[number % 2]], name, kind, number, ARGUMENTS[name], arguments)

    def receive(number: int) -> None:
        name, _, result = CALLS[number // 2 % len(CALLS)]
        if result is not None:
            got, wanted = read_answer(link, name), (number, result_of(SERVICES[number % 2], name, result))
            if got != wanted:
                sys.exit("call %d: %r in place of %r" % (number, got, wanted))

    def refuse(number: int) -> None:
        """Without arguments: towards JSON a string of which nothing is declared is refused before the route is looked for."""
        write_message(writers["Nobody"], CALLS[0][0], TMessageType.CALL, number, {}, {})

    def refused(number: int) -> None:
        try:
            got = read_answer(link, CALLS[0][0])
        except TApplicationException as fault:
            if (fault.message, fault.type) != ("V1 no route", TApplicationException.UNKNOWN_METHOD):
                sys.exit("call %d: %r" % (number, fault))
        else:
            sys.exit("call %d: %r in place of a refusal" % (number, got))

    count = 2 * len(CALLS)
    for number in range(count):
        send(number)
        receive(number)
    for number in range(ROUNDS * count):
        send(number)
        if number % count == 0:
            refuse(number)
    for number in range(ROUNDS * count):
        receive(number)
        if number % count == 0:
            refused(number)
    transport.close()
    sys.stdout.write("ok\n")
    return 0


if __name__ == "__main__":
    sys.exit(main())
