#!/usr/bin/env python3
"""A server of notes.thrift by Apache Thrift's own Python library.

    apache_server.py binary|compact|json A.B.C.D:PORT [framed|buffered [MARK]]

It takes messages in frames, or one after another without lengths, and answers until it is stopped. MARK stands before what `join` gives.
"""
import sys
from collections import Counter
from typing import Any, Dict

from apache_notes import ARGUMENTS, FACTORIES, RESULTS, TRANSPORTS, TMessageType, TSocket, read_fields, words, write_message
from thrift.server import TServer


def result_of(name: str, fields: Dict[int, Any]) -> Any:
    if name == "join":
        return fields.get(2, "").join(fields.get(1, []))
    if name == "count":
        return dict(Counter(fields.get(1, [])))
    if name == "turn":
        return fields.get(1, b"")[::-1]
    return None


class Notes:
    """What the library calls for each message."""

    def __init__(self, mark: str) -> None:
        self.mark = mark

    def result_of(self, name: str, fields: Dict[int, Any]) -> Any:
        return self.mark + result_of(name, fields) if name == "join" else result_of(name, fields)

    def process(self, incoming: Any, outgoing: Any) -> None:
        name, form, number = incoming.readMessageBegin()
        fields = read_fields(incoming, ARGUMENTS.get(name, {}))
        incoming.readMessageEnd()
        if form == TMessageType.ONEWAY or RESULTS.get(name) is None:
            return
        write_message(outgoing, name, TMessageType.REPLY, number, {0: RESULTS[name]}, {0: self.result_of(name, fields)})


def main() -> None:
    mark = sys.argv.pop() if len(sys.argv) == 5 else ""
    protocol, (host, port), form = words(sys.argv, __doc__)
    socket = TSocket.TServerSocket(host, port)
    server = TServer.TThreadedServer(Notes(mark), socket, TRANSPORTS[form](), FACTORIES[protocol](), daemon=True)
    server.serve()


if __name__ == "__main__":
    main()
